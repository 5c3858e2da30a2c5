#!/bin/sh
# A whole run at the shell: a transport stream of video and sound into frames of broadcast packets, and a look at them.
set -eu
top=$(cd "$(dirname "$0")/.." && pwd)
out=$(mktemp)
trap 'rm -f "$out"' EXIT
"$top/isdbt" remux 1 1/4 A:13:qpsk:1/2:0 A="$top/examples/in.ts" >"$out"

packets=$(($(wc -c <"$top/examples/in.ts") / 188))
frames=$(($(wc -c <"$out") / (1280 * 204)))
echo "$packets packets in, $frames frames out"
echo "slot 0 of frame 0, packet and information:"
od -A d -t x1 -N 8 "$out"
od -A d -t x1 -j 188 -N 16 "$out"
echo "slot 8 of frame 0, the first packet of the input:"
od -A d -t x1 -j $((8 * 204)) -N 8 "$out"
od -A d -t x1 -j $((8 * 204 + 188)) -N 16 "$out"
