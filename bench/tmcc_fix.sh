#!/bin/sh
# Prints how fast TMCC words are fixed: nanoseconds a word without wrong bits, with eight wrong bits, and with nine, which
# are far. Run by hand; no gate runs it. It proves and builds a small program over `tmcc_fix` in a temporary folder.
#
#     bench/tmcc_fix.sh [words, 100000 if left out]
set -eu
top=$(cd "$(dirname "$0")/.." && pwd)
words=${1:-100000}
folder=$(mktemp -d)
trap 'rm -rf "$folder"' EXIT
mkdir -p "$folder/crates/measure/src"
cp -R "$top/crates/isdbt_base" "$top/crates/tmcc_word" "$top/crates/tmcc_fix" "$folder/crates"
cp "$top/HANDLES" "$folder"
printf 'isdbt_base:\ntmcc_word: isdbt_base\ntmcc_fix: isdbt_base tmcc_word\nmeasure: tmcc_fix\n' >"$folder/crates.txt"
cat >"$folder/crates/measure/src/main.rt" <<'END'
//! Fixes words, and prints how many wrong bits they had, how many words there were, how many were restored and how long it
//! took.
#![tactic(auto)]

use std::io;
use std::time::Instant;
use tmcc_fix::{Fixed, fix};

const WORDS: u32 = WORDS_WANTED;

/// Zeros, which are a codeword from B20 on, with so many bits inverted, other ones in each round.
fn spoiled(round: u32, wrong: u32) -> [bool; 204] {
    let mut word = [false; 204];
    for bit in 0..wrong {
        word[20 + (u64::from(round) + 20 * u64::from(bit)) as usize % 184] = true;
    }
    word
}

fn main(rt: HostRuntime) -> io::Result<()> {
    for wrong in [0u32, 8, 9] {
        let mut restored = 0u32;
        let start = Instant::now(&rt)?;
        for round in 0..WORDS {
            let mut word = spoiled(round, wrong);
            if fix(&mut word) == Fixed::Restored(wrong) {
                restored = restored.wrapping_add(1);
            }
        }
        let nanos = start.elapsed(&rt)?.as_nanos();
        println!(rt; "{wrong} {WORDS} {restored} {nanos}")?;
    }
    Ok(())
}
END
sed -i "s/WORDS_WANTED/$words/" "$folder/crates/measure/src/main.rt"
(cd "$folder/crates/measure" && rt run 2>"$folder/log") >"$folder/out" || { cat "$folder/log" "$folder/out" >&2; exit 1; }
awk 'NF == 4 { printf "%d wrong bits: %d of %d words restored, %.0f ns a word\n", $1, $3, $2, $4 / $2 }' "$folder/out"
