#!/bin/sh
# A whole run at the shell: a hand-held receiver's layer. Layer A has one segment by itself; partial reception gives its packets
# back from that segment's cells alone, whatever the cells of the other twelve are.
set -eu
top=$(cd "$(dirname "$0")/.." && pwd)
folder=$(mktemp -d)
trap 'rm -rf "$folder"' EXIT
cd "$folder"

setting=A:1:qpsk:2/3:4:partial,B:12:64qam:3/4:2
dd if="$top/examples/in.ts" of=a.ts bs=188 count=128 2>/dev/null
"$top/isdbt" remux 3 1/8 $setting A=a.ts B="$top/examples/in.ts" | "$top/isdbt" code 3 1/8 $setting IN=- >cells

# A symbol of mode 3 is a byte with its TMCC bit and 13 segments of 384 cells of two bytes. All cells but segment 0's are made 80
# hex, the farthest from any that is sent.
{ dd if=/dev/zero bs=9216 count=1 2>/dev/null | tr '\0' '\200'; } >wrong
symbols=$(($(wc -c <cells) / 9985))
symbol=0
while [ $symbol -lt $symbols ]; do
    dd bs=769 count=1 iflag=fullblock 2>/dev/null
    dd bs=9216 count=1 iflag=fullblock of=/dev/null 2>/dev/null
    cat wrong
    symbol=$((symbol + 1))
done <cells >spoiled

"$top/isdbt" receive 3 1/8 IN=cells partial >back.ts
"$top/isdbt" receive 3 1/8 IN=spoiled partial >spoiled.ts
for file in back.ts spoiled.ts; do
    if cmp -s "$file" a.ts; then echo "$file: $(($(wc -c <"$file") / 188)) packets, layer A's"; else echo "$file: differs"; fi
done
