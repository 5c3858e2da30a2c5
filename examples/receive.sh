#!/bin/sh
# A whole run at the shell, there and back: a transport stream of video and sound into frames of broadcast packets, these into
# cells, and the cells into broadcast packets again, which are compared with those that were sent.
set -eu
top=$(cd "$(dirname "$0")/.." && pwd)
folder=$(mktemp -d)
trap 'rm -rf "$folder"' EXIT
setting=A:13:qpsk:1/2:0
"$top/isdbt" remux 1 1/4 $setting A="$top/examples/in.ts" >"$folder/sent.bts"
"$top/isdbt" code 1 1/4 $setting IN="$folder/sent.bts" | "$top/isdbt" receive 1 1/4 IN=- >"$folder/received.bts"

# The receiver gives a frame out two frames late. Its packets stand in the same slots; the first frame's first packet alone
# bears the mark of an epoch's first frame.
frame=$((1280 * 204))
size=$(wc -c <"$folder/sent.bts")
echo "$((size / frame)) frames sent, $(($(wc -c <"$folder/received.bts") / frame)) received"
tail -c +$((2 * frame + 1)) "$folder/received.bts" >"$folder/late.bts"
head -c $((size - 2 * frame)) "$folder/sent.bts" >"$folder/early.bts"
echo "bytes that differ, two frames later: $(cmp -l "$folder/early.bts" "$folder/late.bts" | wc -l)"
