#!/bin/sh
# A whole run at the shell: wrong bits in the TMCC words. Without `fix` the first such word is refused; with it up to eight wrong
# bits of each word are restored, and what is received is what it was.
set -eu
top=$(cd "$(dirname "$0")/.." && pwd)
folder=$(mktemp -d)
trap 'rm -rf "$folder"' EXIT
cd "$folder"

setting=A:13:qpsk:1/2:0
"$top/isdbt" remux 1 1/4 $setting A="$top/examples/in.ts" | "$top/isdbt" code 1 1/4 $setting IN=- >cells
"$top/isdbt" receive 1 1/4 IN=cells >right.bts

# Bit k of a frame's word is the lowest bit of the first byte of symbol k. Bits 20 to 27 of each frame are turned over.
frame=$((204 * 2497))
frames=$(($(wc -c <cells) / frame))
number=0
while [ $number -lt $frames ]; do
    for bit in 20 21 22 23 24 25 26 27; do
        at=$((number * frame + bit * 2497))
        byte=$(od -A n -t u1 -j $at -N 1 cells)
        printf "\\$(printf %o $((byte ^ 1)))" | dd of=cells bs=1 seek=$at conv=notrunc 2>/dev/null
    done
    number=$((number + 1))
done

"$top/isdbt" receive 1 1/4 IN=cells >/dev/null || echo "status $?"
"$top/isdbt" show cells 1 1/4 IN=cells fix
"$top/isdbt" receive 1 1/4 IN=cells fix >restored.bts
if cmp -s restored.bts right.bts; then echo "$frames frames, as without wrong bits"; else echo "what came differs"; fi
