#!/bin/sh
# Prints how fast the outer code is on words of 204 bytes: parity, and `nearest` of codewords, of words with eight wrong
# bytes and of words that are far. Each is the best of twenty rounds, in nanoseconds a word, megabytes of words in a second
# and the factor to real time. Run by hand; no gate runs it.
# At most 15,448 words come in a second: 13 segments with 64QAM at rate 7/8 and guard 1/32 have 3276 in 212.058 ms.
#
#     bench/outer_code.sh
set -eu
top=$(cd "$(dirname "$0")/.." && pwd)
folder=$(mktemp -d)
trap 'rm -rf "$folder"' EXIT
mkdir -p "$folder/crates/outer_code_bench/src"
cp -r "$top/crates/gf_rs" "$folder/crates/"
printf 'gf_rs:\nouter_code_bench: gf_rs\n' >"$folder/crates.txt"
cat >"$folder/crates/outer_code_bench/src/main.rt" <<'EOF'
//! Times of the outer code on words of 204 bytes.
#![tactic(auto)]

use gf_rs::{Nearest, Rs};
use std::io;
use std::io::Print;
use std::time::Instant;

const CALLS: u32 = 5000;
const ROUNDS: u32 = 20;

/// Bytes of many kinds.
fn message() -> [u8; 188] {
    let mut message = [0u8; 188];
    let mut byte: u8 = 9;
    for place in 0..188 {
        byte = byte.wrapping_mul(77).wrapping_add(13);
        message[place] = byte;
    }
    message
}

/// The codeword that begins with the message.
fn codeword(message: &[u8; 188]) -> [u8; 204] {
    let mut parity = [0u8; 16];
    Rs::<16>::parity(message, &mut parity);
    let mut word = [0u8; 204];
    word[..188].copy_from_slice(message);
    word[188..].copy_from_slice(&parity);
    word
}

/// The word with so many bytes changed, each in another way.
fn spoiled(mut word: [u8; 204], errors: u8) -> [u8; 204] {
    for error in 0..errors {
        if error < 10 {
            word[error as usize * 20 + 3] ^= 0x5A ^ error;
        }
    }
    word
}

/// Prints the time of a word, given that of a round in nanoseconds.
fn report(rt: &impl Print, what: &str, round: u128) -> io::Result<()> {
    let tenths = round / 500;
    let nanoseconds = round / 5000;
    if tenths > 0 {
        let megabytes = 2040000 / tenths;
        let factor = 647320 / tenths;
        println!(rt; "{what}: {nanoseconds} ns, {megabytes} MB/s, {factor} times real time")?;
    }
    Ok(())
}

fn main(rt: HostRuntime) -> io::Result<()> {
    let mut sent = message();
    let clean = codeword(&sent);
    let mut kept: u8 = 0;
    let mut best = u128::MAX;
    for _ in 0..ROUNDS {
        let start = Instant::now(&rt)?;
        for call in 0..CALLS {
            sent[5] = (call % 251) as u8;
            let mut parity = [0u8; 16];
            Rs::<16>::parity(&sent, &mut parity);
            kept ^= parity[3];
        }
        best = best.min(start.elapsed(&rt)?.as_nanos());
    }
    report(&rt, "parity", best)?;
    for errors in [0u8, 8, 9] {
        let word = spoiled(clean, errors);
        let mut near: u32 = 0;
        let mut best = u128::MAX;
        for _ in 0..ROUNDS {
            let start = Instant::now(&rt)?;
            for _ in 0..CALLS {
                let mut copy = word;
                if let Nearest::Codeword(changed) = Rs::<16>::nearest(&mut copy) {
                    if changed == errors as u32 {
                        near = near.wrapping_add(1);
                    }
                }
                kept ^= copy[17];
            }
            best = best.min(start.elapsed(&rt)?.as_nanos());
        }
        println!(rt; "{near} of {} are near", CALLS * ROUNDS)?;
        match errors {
            0 => report(&rt, "nearest, clean", best)?,
            8 => report(&rt, "nearest, eight wrong", best)?,
            _ => report(&rt, "nearest, far", best)?,
        }
    }
    // What was computed is used, so that no call is left out.
    println!(rt; "{kept}")?;
    Ok(())
}
EOF
cd "$folder/crates/outer_code_bench"
rt run
