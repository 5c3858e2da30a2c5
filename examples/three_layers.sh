#!/bin/sh
# A whole run at the shell: three layers from three files, there and back. The layers are three parts of a transport stream; each
# comes back whole, as many frames late as its layer's delay.
set -eu
top=$(cd "$(dirname "$0")/.." && pwd)
folder=$(mktemp -d)
trap 'rm -rf "$folder"' EXIT
cd "$folder"

# Three files of packets of 188 bytes: 100, 300 and 243.
dd if="$top/examples/in.ts" of=a.ts bs=188 count=100 2>/dev/null
dd if="$top/examples/in.ts" of=b.ts bs=188 skip=100 count=300 2>/dev/null
dd if="$top/examples/in.ts" of=c.ts bs=188 skip=400 2>/dev/null

setting=A:1:qpsk:1/2:0:partial,B:5:16qam:2/3:4,C:7:64qam:3/4:8
"$top/isdbt" remux 1 1/4 $setting A=a.ts B=b.ts C=c.ts >sent.bts
"$top/isdbt" show bts 1 1/4 IN=sent.bts | head -n 1
"$top/isdbt" code 1 1/4 $setting IN=sent.bts >cells
"$top/isdbt" receive 1 1/4 IN=cells >received.bts

# A slot is a packet of 188 bytes and 16 of information, whose second byte begins with the layer: 1, 2, 3, or 0 for none.
packets() {
    od -v -A n -t x1 -w204 "$1" | awk -v layer="$2" 'substr($190, 1, 1) == layer && !($2 $3 == "1fff") { for (i = 1; i <= 188; i++) printf "%s", $i; print "" }'
}

for layer in 1:a 2:b 3:c; do
    packets received.bts "${layer%:*}" >back
    od -v -A n -t x1 -w188 "${layer#*:}.ts" | tr -d ' ' >there
    if cmp -s back there; then echo "layer ${layer#*:}: $(wc -l <back) packets, all came back"; else echo "layer ${layer#*:}: differs"; fi
done
