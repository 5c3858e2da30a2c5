#!/bin/sh
# Prints how fast the commands and their pipes are: frames in a second, and the factor to real time; and the most memory that
# `code` and `receive` hold.
# Run by hand; no gate runs it; it wants perl. A frame lasts 204 symbols: 64.26 ms in mode 1 with guard 1/4, 231.336 ms in mode 3 with
# guard 1/8.
#
#     bench/commands.sh [packets of input, 624000 if left out]
set -eu
top=$(cd "$(dirname "$0")/.." && pwd)
packets=${1:-624000}
folder=$(mktemp -d)
trap 'rm -rf "$folder"' EXIT
"$top/isdbt" remux 1 1/4 A:13:qpsk:1/2:0 A=- </dev/null

# A packet with the sync byte, over and over.
{ printf 'G\037\377\020'; head -c 184 /dev/zero | tr '\0' '\377'; } >"$folder/packet"
i=0
while [ $i -lt 1000 ]; do cat "$folder/packet"; i=$((i + 1)); done >"$folder/thousand"
i=0
while [ $i -lt $((packets / 1000)) ]; do cat "$folder/thousand"; i=$((i + 1)); done >"$folder/in.ts"

# measure WHAT, bytes and milliseconds of a frame of output, then a command whose output is counted
measure() {
    what=$1 frame=$2 lasts=$3
    shift 3
    from=$(date +%s%N)
    bytes=$("$@" | wc -c)
    to=$(date +%s%N)
    awk -v bytes="$bytes" -v ns=$((to - from)) -v what="$what" -v frame="$frame" -v lasts="$lasts" 'BEGIN {
        s = ns / 1e9; frames = bytes / frame
        printf "%s: %d frames in %.2f s, %.0f frames a second, %.0f MB/s, %.1f times real time\n", what, frames, s, frames / s, bytes / 1e6 / s, frames * lasts / 1000 / s
    }'
}

one=A:13:qpsk:1/2:0
full=A:13:64qam:7/8:0
split=A:1:64qam:7/8:0:partial,B:12:64qam:7/8:0
three=A:1:qpsk:2/3:4:partial,B:4:16qam:3/4:2,C:8:64qam:7/8:1
other=A:1:qpsk:2/3:0:partial,B:4:16qam:3/4:0,C:8:64qam:7/8:0
seven="$three @40 $other @80 $three @120 $other @160 $three @200 $other @240 $three @280 $other"

measure "remux, mode 1, one layer" 261120 64.26 "$top/isdbt" remux 1 1/4 $one A="$folder/in.ts"
measure "remux, mode 3, three layers" 940032 231.336 "$top/isdbt" remux 3 1/8 $three A=/dev/null B="$folder/in.ts" C="$folder/in.ts"
measure "remux, mode 3, three layers, seven switches" 940032 231.336 "$top/isdbt" remux 3 1/8 $seven A=/dev/null B="$folder/in.ts" C="$folder/in.ts"

head -c $((188 * 4000 * 40)) "$folder/in.ts" >"$folder/part.ts"
"$top/isdbt" remux 1 1/4 $one A="$folder/part.ts" >"$folder/one.bts"
"$top/isdbt" remux 3 1/8 $full A="$folder/part.ts" >"$folder/full.bts"
"$top/isdbt" remux 3 1/8 $three A=/dev/null B="$folder/part.ts" C="$folder/part.ts" >"$folder/three.bts"
measure "code, mode 1, QPSK 1/2" 509388 64.26 "$top/isdbt" code 1 1/4 $one IN="$folder/one.bts"
measure "code, mode 3, 64QAM 7/8 (the highest rate)" 2036940 231.336 "$top/isdbt" code 3 1/8 $full IN="$folder/full.bts"
measure "code, mode 3, three layers" 2036940 231.336 "$top/isdbt" code 3 1/8 $three IN="$folder/three.bts"

"$top/isdbt" code 1 1/4 $one IN="$folder/one.bts" | head -c $((509388 * 200)) >"$folder/one.cells"
"$top/isdbt" code 3 1/8 $full IN="$folder/full.bts" >"$folder/full.cells"
"$top/isdbt" code 3 1/8 $three IN="$folder/three.bts" >"$folder/three.cells"
measure "receive, mode 1, QPSK 1/2" 261120 64.26 "$top/isdbt" receive 1 1/4 IN="$folder/one.cells"
measure "receive, mode 3, 64QAM 7/8 (the highest rate)" 940032 231.336 "$top/isdbt" receive 3 1/8 IN="$folder/full.cells"
"$top/isdbt" remux 3 1/8 $split A="$folder/part.ts" B="$folder/part.ts" | "$top/isdbt" code 3 1/8 $split IN=- v2 >"$folder/split.cells"
measure "receive, mode 3, two layers at the highest rate, with heads" 940032 231.336 "$top/isdbt" receive IN="$folder/split.cells"
measure "receive partial, the same cells" 47376 231.336 "$top/isdbt" receive IN="$folder/split.cells" partial
# One axis value of 100 negated, at random; a TMCC byte that is met keeps its lowest bit.
perl -e 'binmode STDIN; binmode STDOUT; srand 1;
while (read STDIN, my $bytes, 100000) {
    for (1 .. length($bytes) / 100) {
        my $at = int rand length $bytes;
        substr($bytes, $at, 1) = chr(-ord(substr $bytes, $at, 1) & 255);
    }
    print $bytes;
}' <"$folder/full.cells" >"$folder/noisy.cells"
measure "receive, the highest rate, 1 of 100 axis values negated" 940032 231.336 "$top/isdbt" receive 3 1/8 IN="$folder/noisy.cells"
measure "receive, mode 3, three layers" 940032 231.336 "$top/isdbt" receive 3 1/8 IN="$folder/three.cells"

cat >"$folder/pipe" <<END
#!/bin/sh
"$top/isdbt" remux 3 1/8 $full A="$folder/part.ts" | "$top/isdbt" code 3 1/8 $full IN=-
END
cat >"$folder/whole" <<END
#!/bin/sh
"$folder/pipe" | "$top/isdbt" receive 3 1/8 IN=-
END
chmod +x "$folder/pipe" "$folder/whole"
measure "remux | code, mode 3, 64QAM 7/8" 2036940 231.336 "$folder/pipe"
measure "remux | code | receive, mode 3, 64QAM 7/8" 940032 231.336 "$folder/whole"

# held WHAT WORD.. prints the most memory that the program holds with these words
held() {
    what=$1
    shift
    "$top/isdbt" "$@" >"$folder/out" &
    most=0
    while now=$(awk '/VmHWM/ { print $2 }' "/proc/$!/status" 2>/dev/null) && [ -n "$now" ]; do most=$now; done
    echo "$what: $most kB of memory at most"
}

# A short and a long run.
for frames in 4 30; do
    head -c $((940032 * frames)) "$folder/full.bts" >"$folder/some.bts"
    head -c $((2036940 * frames)) "$folder/full.cells" >"$folder/some.cells"
    held "code, mode 3, 64QAM 7/8, $frames frames" code 3 1/8 $full IN="$folder/some.bts"
    held "receive, mode 3, 64QAM 7/8, $frames frames" receive 3 1/8 IN="$folder/some.cells"
done
