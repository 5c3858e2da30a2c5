#!/bin/sh
# Prints how fast the inner code is: coded bits in a second at each rate, and the factor to real time at the highest bit
# rate (13 segments, mode 3, guard 1/8, 64QAM: 6,110,208 coded bits a frame of 231.336 ms). Run by hand; no gate runs it.
# It proves and builds a small program over `conv_punct` in a temporary folder.
#
#     bench/inner_code.sh [rounds of 2100 bytes, 10000 if left out]
set -eu
top=$(cd "$(dirname "$0")/.." && pwd)
rounds=${1:-10000}
folder=$(mktemp -d)
trap 'rm -rf "$folder"' EXIT
mkdir -p "$folder/crates/measure/src"
cp -R "$top/crates/isdbt_base" "$top/crates/conv_punct" "$folder/crates"
cp "$top/HANDLES" "$folder"
printf 'isdbt_base:\nconv_punct: isdbt_base\nmeasure: isdbt_base conv_punct\n' >"$folder/crates.txt"
cat >"$folder/crates/measure/src/main.rt" <<'END'
//! Encodes bytes at each rate, and prints how many coded bits there were and how long it took.
#![tactic(auto)]

use conv_punct::Encoder;
use isdbt_base::{Rate, rate_pair};
use std::io;
use std::time::Instant;

const ROUNDS: u32 = ROUNDS_WANTED;

fn main(rt: HostRuntime) -> io::Result<()> {
    let mut bytes = [0u8; 2100];
    let mut next = 1u8;
    for byte in bytes.iter_mut() {
        next = next.wrapping_mul(77).wrapping_add(13);
        *byte = next;
    }
    let mut out = [false; 33600];
    for rate in [Rate::R12, Rate::R23, Rate::R34, Rate::R56, Rate::R78] {
        let (steps, bits) = rate_pair(rate);
        let mut encoder = Encoder::start(rate);
        let mut coded = 0u64;
        let mut ones = 0u32;
        let start = Instant::now(&rt)?;
        for round in 0..ROUNDS {
            let count = encoder.feed(&bytes, &mut out);
            coded = coded.wrapping_add(count as u64);
            ones = ones.wrapping_add(u32::from(out[round as usize % 16800]));
        }
        let nanos = start.elapsed(&rt)?.as_nanos();
        println!(rt; "{steps}/{bits} {coded} {nanos} {ones}")?;
    }
    Ok(())
}
END
sed -i "s/ROUNDS_WANTED/$rounds/" "$folder/crates/measure/src/main.rt"
(cd "$folder/crates/measure" && rt run 2>"$folder/log") >"$folder/out" || { cat "$folder/log" "$folder/out" >&2; exit 1; }
awk 'NF == 4 && $1 ~ /\// { printf "rate %s: %d coded bits in %.3f s, %.0f Mbit/s, %.1f times real time\n", $1, $2, $3 / 1e9, $2 * 1000 / $3, $2 / 6110208 * 231336000 / $3 }' "$folder/out"
