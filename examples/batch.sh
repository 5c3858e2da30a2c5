#!/bin/sh
# Many channels at once with GNU parallel, one process each. CHANNELS has a line for each: a name, a tab, and the words of the
# command. Its output comes to NAME.out in FOLDER and its standard error to NAME.err, names in the words are taken from there,
# and a table of the statuses is printed. Ends with 1 where a channel has another status than 0. HOSTS are those of --sshlogin,
# with commas, ":" being this machine; each has this repository, the built program and FOLDER at the same paths, as on a shared
# disk. Without words it makes cells of three settings, spoils one of them, and receives all. Needs GNU parallel (Debian:
# parallel).
#
#     examples/batch.sh [CHANNELS FOLDER [HOSTS, : if left out]]
set -eu
top=$(cd "$(dirname "$0")/.." && pwd)
parallel --version 2>/dev/null | grep -q '^GNU parallel' || { echo "batch.sh: skipped: there is no GNU parallel"; exit 0; }
"$top/isdbt" remux 1 1/4 A:13:qpsk:1/2:0 A=- </dev/null
program=$top/crates/isdbt_cli/out/isdbt_cli

# example FOLDER makes cells and channels there
example() {
    in=$top/examples/in.ts
    number=1
    for setting in A:13:qpsk:1/2:0 A:13:16qam:2/3:4 A:13:64qam:7/8:0; do
        "$program" remux 1 1/4 $setting A="$in" | "$program" code 1 1/4 $setting IN=- >"$1/$number.cells"
        printf 'channel%d\treceive 1 1/4 IN=%d.cells\n' $number $number
        number=$((number + 1))
    done >"$1/channels"
    # Channel 2 ends within its frame 2.
    head -c $((509388 * 2 + 1000)) "$1/2.cells" >"$1/part" && mv "$1/part" "$1/2.cells"
}

if [ $# -eq 0 ]; then
    folder=$(mktemp -d)
    trap 'rm -rf "$folder"' EXIT
    example "$folder"
    set -- "$folder/channels" "$folder"
fi
channels=$(readlink -f "$1") folder=$(readlink -f "$2") hosts=${3:-:}

parallel --jobs 100% --sshlogin "$hosts" --workdir "$folder" --joblog "$folder/log" --colsep '\t' \
    "$program" '{=2 uq() =}' '>{1}.out' '2>{1}.err' :::: "$channels" || true

# The log has a line for each channel: its number, host, start, seconds, two counts, status, signal and command.
sort -n "$folder/log" >"$folder/sorted"
wrong=0
while IFS="$(printf '\t')" read -r number host _ took _ _ status signal _; do
    [ "$number" = Seq ] && continue
    name=$(sed -n "${number}p" "$channels" | cut -f 1)
    echo "$name: status $status, signal $signal, host $host, $(echo $took) s, $(wc -c <"$folder/$name.out") bytes. $(cat "$folder/$name.err")"
    [ "$status,$signal" = 0,0 ] || wrong=1
done <"$folder/sorted"
exit $wrong
