#!/bin/sh
# A whole run at the shell: a transport stream of video and sound into frames of broadcast packets, these into cells, and a
# look at the cells.
set -eu
top=$(cd "$(dirname "$0")/.." && pwd)
out=$(mktemp)
trap 'rm -f "$out"' EXIT
setting=A:13:qpsk:1/2:0
"$top/isdbt" remux 1 1/4 $setting A="$top/examples/in.ts" | "$top/isdbt" code 1 1/4 $setting IN=- >"$out"

frame=$((204 * (1 + 13 * 96 * 2)))
echo "$(($(wc -c <"$out") / frame)) frames of cells"
echo "symbols 0 and 1 of frame 1: the TMCC bit, and the first cells, two bytes each, I and Q:"
od -A d -t d1 -j $frame -N 15 "$out"
od -A d -t d1 -j $((frame + 1 + 13 * 96 * 2)) -N 15 "$out"
