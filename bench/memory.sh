#!/bin/sh
# Looks at the memory of the commands from outside, over the built program: how often each asks for memory, for a short and for
# a long input; what comes of it where each of these growths in turn is refused; and where the address space is limited, in
# steps. A refused growth must end with status 14, and what was written must be a front part of the right product, of whole
# frames. Prints a line for each command, and ends with 1 where one answered otherwise.
# Run by hand; no gate runs it; it wants gcc and prlimit. A small library that it builds in a temporary folder counts the calls
# of malloc and realloc, and refuses one of them.
#
#     bench/memory.sh
set -u
top=$(cd "$(dirname "$0")/.." && pwd)
folder=$(mktemp -d)
trap 'rm -rf "$folder"' EXIT
program=$top/crates/isdbt_cli/out/isdbt_cli
"$top/isdbt" remux 1 1/4 A:13:qpsk:1/2:0 A=- </dev/null || exit 1
wrong=0

cat >"$folder/count.c" <<'END'
#define _GNU_SOURCE
#include <dlfcn.h>
#include <stdio.h>
#include <stdlib.h>
#include <string.h>
static long calls, refused = -1;
static int is_refused(void) {
    if (refused < 0) { const char *n = getenv("REFUSE"); refused = n ? atol(n) : 0; }
    return ++calls == refused;
}
void *malloc(size_t n) {
    static void *(*real)(size_t);
    if (!real) *(void **)&real = dlsym(RTLD_NEXT, "malloc");
    return is_refused() ? 0 : real(n);
}
void *realloc(void *p, size_t n) {
    static void *(*real)(void *, size_t);
    if (!real) *(void **)&real = dlsym(RTLD_NEXT, "realloc");
    return is_refused() ? 0 : real(p, n);
}
__attribute__((destructor)) static void tell(void) {
    const char *name = getenv("COUNT");
    FILE *f;
    long n = calls;
    if (name && (f = fopen(name, "w"))) { fprintf(f, "%ld\n", n); fclose(f); }
}
END
gcc -O2 -shared -fPIC -o "$folder/count.so" "$folder/count.c" -ldl || exit 1

# growths WORD.. prints how often the program asks for memory with these words
growths() {
    COUNT=$folder/calls LD_PRELOAD=$folder/count.so "$program" "$@" >"$folder/right"
    cat "$folder/calls"
}

# is_front BYTES OF-A-FRAME says whether what was written is a front part of what is right, of whole frames
is_front() {
    bytes=$(wc -c <"$folder/out")
    [ $((bytes % $1)) -eq 0 ] && head -c "$bytes" "$folder/right" | cmp -s - "$folder/out"
}

# refused WHAT BYTES-OF-A-FRAME WORD.. refuses each growth in turn
refused() {
    what=$1 frame=$2
    shift 2
    count=$(growths "$@")
    n=1 whole=0
    while [ "$n" -le "$count" ]; do
        REFUSE=$n LD_PRELOAD=$folder/count.so "$program" "$@" >"$folder/out" 2>"$folder/err"
        status=$?
        if [ $status -ne 14 ] || ! is_front "$frame"; then
            echo "$what: growth $n of $count refused: status $status, $(wc -c <"$folder/out") bytes"
            wrong=1
        fi
        [ -s "$folder/out" ] && whole=$((whole + 1))
        n=$((n + 1))
    done
    echo "$what: each of $count growths refused: status 14, in $whole cases behind whole frames"
}

# limited WHAT BYTES-OF-A-FRAME WORD.. limits the address space from 3 MB on, in steps of 256 kB, until the program ends well
limited() {
    what=$1 frame=$2
    shift 2
    growths "$@" >/dev/null
    space=3072 refusals=0
    while :; do
        prlimit --as=$((space * 1024)) "$program" "$@" >"$folder/out" 2>"$folder/err"
        status=$?
        [ $status -eq 0 ] && break
        # Below the loader's own need the program doesn't begin.
        if [ $status -eq 14 ]; then
            refusals=$((refusals + 1))
            is_front "$frame" || { echo "$what: $space kB: $(wc -c <"$folder/out") bytes"; wrong=1; }
        elif [ $refusals -gt 0 ] || [ $space -gt 65536 ]; then
            echo "$what: $space kB of address space: status $status"
            wrong=1
            break
        fi
        space=$((space + 256))
    done
    echo "$what: status 14 in $refusals steps, from $space kB of address space on well"
}

# A packet with the sync byte, over and over.
{ printf 'G\037\377\020'; head -c 184 /dev/zero | tr '\0' '\377'; } >"$folder/packet"
i=0
while [ $i -lt 100 ]; do cat "$folder/packet"; i=$((i + 1)); done >"$folder/hundred"
i=0
while [ $i -lt 75 ]; do cat "$folder/hundred"; i=$((i + 1)); done >"$folder/in.ts"

# Five and fifty frames of one layer, of 156 packets a frame; two of them are the drain's.
one=A:13:qpsk:1/2:0
for frames in 5 50; do
    head -c $((188 * 156 * (frames - 2))) "$folder/in.ts" >"$folder/$frames.ts"
    "$program" remux 1 1/4 $one A="$folder/$frames.ts" >"$folder/$frames.bts"
    "$program" code 1 1/4 $one IN="$folder/$frames.bts" v2 >"$folder/$frames.cells"
    echo "growths over $frames frames:" \
        "remux $(growths remux 1 1/4 $one A="$folder/$frames.ts")," \
        "code $(growths code 1 1/4 $one IN="$folder/$frames.bts")," \
        "receive $(growths receive IN="$folder/$frames.cells")," \
        "show bts $(growths show bts 1 1/4 IN="$folder/$frames.bts")," \
        "show cells $(growths show cells IN="$folder/$frames.cells")"
done

# A switch at frame 20.
plan="$one @20 A:13:qpsk:3/4:4"
head -c $((188 * 3000)) "$folder/in.ts" >"$folder/switched.ts"
"$program" remux 1 1/4 $plan A="$folder/switched.ts" >"$folder/switched.bts"
"$program" code 1 1/4 $plan IN="$folder/switched.bts" >"$folder/switched.cells"
refused remux 261120 remux 1 1/4 $plan A="$folder/switched.ts"
refused code 509388 code 1 1/4 $plan IN="$folder/switched.bts"
refused receive 261120 receive 1 1/4 IN="$folder/switched.cells"
refused "show bts" 1 show bts 1 1/4 IN="$folder/switched.bts"
refused "show cells" 1 show cells 1 1/4 IN="$folder/switched.cells"
refused "sample 7" 1000 sample 7
limited remux 261120 remux 1 1/4 $plan A="$folder/switched.ts"
limited code 509388 code 1 1/4 $plan IN="$folder/switched.bts"
limited receive 261120 receive 1 1/4 IN="$folder/switched.cells"
limited "sample 7" 1000 sample 7
exit $wrong
