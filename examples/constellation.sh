#!/bin/sh
# Draws the cells of some symbols by layer: above as `code` writes them, below with gaussian noise on I and Q. The noise is drawn
# as it is added, before a cell is rounded to whole numbers. Writes a PNG, and says what it shows. Needs gnuplot (Debian:
# gnuplot-nox).
#
#     examples/constellation.sh [PNG, constellation.png if left out [SYMBOLS, 2 [DEVIATION, 0.3]]]
set -eu
top=$(cd "$(dirname "$0")/.." && pwd)
picture=${1:-constellation.png} symbols=${2:-2} deviation=${3:-0.3}
command -v gnuplot >/dev/null || { echo "constellation.sh: skipped: there is no gnuplot"; exit 0; }
folder=$(mktemp -d)
trap 'rm -rf "$folder"' EXIT
setting=A:1:qpsk:2/3:0:partial,B:4:16qam:3/4:0,C:8:64qam:7/8:0
in=$top/examples/in.ts
"$top/isdbt" remux 1 1/4 $setting A="$in" B="$in" C="$in" | "$top/isdbt" code 1 1/4 $setting IN=- >"$folder/cells"

# Symbols from 100 of frame 1 on; frame 0 bears no packet yet. A segment has 96 cells of two bytes in a symbol, which begins with the byte of the TMCC bit.
segment=$((96 * 2))
symbol=$((1 + 13 * segment))
# take LAYER FIRST-SEGMENT SEGMENTS
take() {
    number=304
    while [ $number -lt $((304 + symbols)) ]; do
        tail -c +$((number * symbol + 2 + $2 * segment)) "$folder/cells" | head -c $(($3 * segment))
        number=$((number + 1))
    done >"$folder/$1"
}
take A 0 1
take B 1 4
take C 5 8

gnuplot <<END_OF_PLOT
set terminal pngcairo size 640,440 font "sans,9"
set output "$picture"
set multiplot layout 2,3
set size square
set key off
set xrange [-10:10]
set yrange [-10:10]
set xtics -7,2,7
set ytics -7,2,7
noise(x) = x + s * invnorm(rand(0))
ratio(power) = 10 * log10(power / (2 * s * s))
cells(layer) = "$folder/" . layer
s = $deviation
do for [layer in "A B C"] {
    set title "layer " . layer . (layer eq "A" ? ", QPSK" : layer eq "B" ? ", 16QAM" : ", 64QAM")
    plot cells(layer) binary format="%int8%int8" using 1:2 with points pt 7 ps 0.5 lc rgb "#1f4e99"
}
do for [layer in "A B C"] {
    set title sprintf("deviation %.2f, C/N %.1f dB", s, ratio(layer eq "A" ? 2 : layer eq "B" ? 10 : 42))
    plot cells(layer) binary format="%int8%int8" using (noise(\$1)):(noise(\$2)) with points pt 7 ps 0.2 lc rgb "#1f4e99"
}
END_OF_PLOT
echo "$picture: $symbols symbols of frame 1 from symbol 100 on, $((96 * symbols)), $((384 * symbols)) and $((768 * symbols)) cells of layers A, B and C"
