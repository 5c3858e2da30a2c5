#!/bin/sh
# Runs the built program over spoiled streams and spoiled words, and looks at what it answers. Streams: packets, broadcast
# packets and cells in both versions, a few frames each, with bytes and bits changed, parts cut out, repeated or moved, heads
# changed, and TMCC words with wrong bits or with other right contents. Words: those of right commands, dropped, repeated, moved
# or changed. In each run the status must be one of the table's, with just its line on standard error; and what was written must
# be whole frames or lines, as many as the line says; with `partial` whole packets. Where the words are right, `code`, `receive`
# in full and both `show` must have written the frames before the first changed byte as of the right stream.
# Prints how often each command ended with which status, and ends with 1 where a run answered otherwise; it names that run.
# A run depends on SEED, its number and the length of the temporary folder's name alone. Runs FIRST to FIRST + RUNS - 1 are made,
# so that shares can run side by side.
# Run by hand; no gate runs it; it wants python3.
#
#     bench/fuzz.sh [RUNS, 1000 if left out [SEED, 1 [FIRST, 0]]]
set -eu
top=$(cd "$(dirname "$0")/.." && pwd)
command -v python3 >/dev/null || { echo "fuzz.sh: skipped: there is no python3"; exit 0; }
folder=$(mktemp -d)
trap 'rm -rf "$folder"' EXIT
"$top/isdbt" remux 1 1/4 A:13:qpsk:1/2:0 A=- </dev/null
python3 "$top/bench/fuzz.py" "$top/crates/isdbt_cli/out/isdbt_cli" "$folder" "${1:-1000}" "${2:-1}" "${3:-0}"
