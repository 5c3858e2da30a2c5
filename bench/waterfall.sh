#!/bin/sh
# Prints how many packets are marked and how many are wrong against noise, for each modulation and inner rate: one layer of 13
# segments in mode 1 through `code`, gaussian noise, and `receive`. Marked: the transport error indicator is set. Wrong: not
# marked, and other than the packet that was sent. The noise is added to I and Q of each cell, which then is rounded down to
# whole numbers and clipped to 8 bits: the borders of levels are even numbers that belong to the level above, so the nearest level
# stays what it was before rounding. Its standard deviation s is told in units of the cells' numbers, and C/N in dB is the mean
# power of a cell (2, 10 or 42) over 2*s*s.
# Each curve goes down from a C/N at which all packets come right, half a decibel a row, until all are marked. TABLE gets the
# rows, and PNG a picture of them. The noise is the same in each run. Run by hand; no gate runs it; it wants python3, and
# gnuplot for the picture (Debian: gnuplot-nox).
#
#     bench/waterfall.sh [TABLE, waterfall.txt if left out [PNG, waterfall.png [FRAMES, 6]]]
set -eu
top=$(cd "$(dirname "$0")/.." && pwd)
table=${1:-waterfall.txt} picture=${2:-waterfall.png} frames=${3:-6}
command -v python3 >/dev/null || { echo "waterfall.sh: skipped: there is no python3"; exit 0; }
"$top/isdbt" remux 1 1/4 A:13:qpsk:1/2:0 A=- </dev/null
python3 "$top/bench/waterfall.py" "$top/crates/isdbt_cli/out/isdbt_cli" "$frames" | tee "$table"
command -v gnuplot >/dev/null || { echo "waterfall.sh: no picture: there is no gnuplot"; exit 0; }

gnuplot <<END_OF_PLOT
set terminal pngcairo size 580,300 font "sans,8"
set output "$picture"
set xlabel "C/N in dB"
set ylabel "marked packets in 100"
set xrange [2:23]
set yrange [-2:102]
set key outside right
colour(m) = m eq "qpsk" ? "#1f4e99" : m eq "16qam" ? "#2e8b57" : "#b03030"
plot for [m in "qpsk 16qam 64qam"] for [r in "1/2 2/3 3/4 5/6 7/8"] \
    "< awk '\$1 == \"" . m . "\" && \$2 == \"" . r . "\"' $table" using 4:(100.0 * \$6 / \$5) \
    with linespoints lc rgb colour(m) pt (r eq "1/2" ? 7 : r eq "2/3" ? 5 : r eq "3/4" ? 9 : r eq "5/6" ? 11 : 13) ps 0.6 \
    title m . " " . r
END_OF_PLOT
