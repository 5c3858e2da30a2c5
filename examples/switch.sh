#!/bin/sh
# A whole run at the shell: an announced switch to another mode, guard interval and setting. Each frame of cells has a head then,
# and the words count down to the switch.
set -eu
top=$(cd "$(dirname "$0")/.." && pwd)
folder=$(mktemp -d)
trap 'rm -rf "$folder"' EXIT
cd "$folder"

plan='1 1/4 A:13:qpsk:1/2:0 @4 2 1/8 A:13:qpsk:3/4:2'
"$top/isdbt" remux $plan A="$top/examples/in.ts" >sent.bts
"$top/isdbt" code $plan IN=sent.bts v2 >cells
"$top/isdbt" show cells IN=cells
"$top/isdbt" receive IN=cells >received.bts

# Null packets aside, what comes is what was sent.
packets() {
    od -v -A n -t x1 -w204 "$1" | cut -c 1-564 | tr -d ' ' | grep -v '^471fff'
}
packets received.bts >back
od -v -A n -t x1 -w188 "$top/examples/in.ts" | tr -d ' ' >there
if cmp -s back there; then echo "$(wc -l <back) packets, all came back"; else echo "what came differs"; fi
