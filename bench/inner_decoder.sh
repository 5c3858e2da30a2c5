#!/bin/sh
# Prints how fast the inner decoder is: nanoseconds of a decoded bit at each rate on one core, the best of so many rounds of
# 16128 read bits, and the factor to real time at the highest bit rate of that code rate (13 segments, mode 3, guard 1/8,
# 64QAM: 6,110,208 read bits a frame of 231.336 ms). Read are the coded bits of random input, clean and with 3 bits of 100
# wrong, bits at random, and 0 and 1 in turn. Beside it the plain form, one state after the other, over the same bits, and
# the factor between the two, which must decide alike. Run by hand; no gate runs it. It proves and builds a small program
# over `viterbi_hard` in a temporary folder.
#
#     bench/inner_decoder.sh [rounds, 200 if left out]
set -eu
top=$(cd "$(dirname "$0")/.." && pwd)
rounds=${1:-200}
folder=$(mktemp -d)
trap 'rm -rf "$folder"' EXIT
measure=$folder/crates/measure
mkdir -p "$measure/src"
for crate in isdbt_base conv_punct viterbi_hard; do
    cp -R "$top/crates/$crate" "$folder/crates"
    grep "^$crate:" "$top/crates.txt" >>"$folder/crates.txt"
done
cp "$top/HANDLES" "$folder"
echo 'measure: isdbt_base viterbi_hard' >>"$folder/crates.txt"
cat >"$measure/src/main.rt" <<'END'
//! Decodes bits of four kinds at each rate, by the decoder and by its plain form, and prints the nanoseconds of the fastest
//! round and a sum of the decided bits.
#![tactic(auto)]

ghost use Rattle.std.specs.Prelude.{◌≡◌};
ghost use Rattle.viterbi_hard.specs.StandsFor.{rate_of};

use isdbt_base::{Rate, rate_pair};
use std::io;
use std::time::{Clock, Instant};
use viterbi_hard::Decoder;

const ROUNDS: u32 = ROUNDS_WANTED;

/// What is read.
#[derive(Clone, Copy)]
enum Kind {
    /// Coded bits of random input.
    Clean,
    /// The same with 3 bits of 100 wrong.
    Wrong,
    /// Bits at random.
    Random,
    /// 0 and 1 in turn.
    Alternating,
}

impl Kind {
    fn name(self) -> &'static str {
        match self {
            Kind::Clean => "clean",
            Kind::Wrong => "wrong",
            Kind::Random => "random",
            Kind::Alternating => "alternating",
        }
    }
}

/// Numbers at random, by shifts and sums modulo 2.
#[derive(Clone, Copy)]
struct Noise {
    state: u64,
}

impl Noise {
    fn next(&mut self) -> u64 {
        self.state ^= self.state << 13;
        self.state ^= self.state >> 7;
        self.state ^= self.state << 17;
        self.state
    }
}

/// The coded bits of random input, of which so many in a thousand are wrong.
fn code(rate: Rate, wrong: u64, bits: &mut [bool]) {
    let mut noise = Noise {
        state: 88172645463325252,
    };
    let (steps, _) = rate_pair(rate);
    let (sends_x, sends_y) = sent(rate);
    let mut inputs = 0u32;
    let mut phase = 0u32;
    let mut y_next = false;
    for bit in bits.iter_mut() {
        if !y_next {
            inputs = (inputs >> 1) | ((noise.next() >> 40) as u32 & 1) << 6;
        }
        let is_x = !y_next && sends_x >> (phase % 8) & 1 == 1;
        let mask = if is_x { 0x79 } else { 0x5B };
        *bit = (inputs & mask).count_ones() % 2 == 1;
        if noise.next() >> 20 & 1023 < wrong {
            *bit = !*bit;
        }
        y_next = is_x && sends_y >> (phase % 8) & 1 == 1;
        if !y_next {
            phase = (phase % 8 + 1) % steps.max(1);
        }
    }
}

/// Bits of a kind.
fn fill(rate: Rate, kind: Kind, bits: &mut [bool]) {
    match kind {
        Kind::Clean => code(rate, 0, bits),
        Kind::Wrong => code(rate, 31, bits),
        Kind::Random => {
            let mut noise = Noise {
                state: 88172645463325252,
            };
            for bit in bits.iter_mut() {
                *bit = noise.next() >> 30 & 1 == 1;
            }
        }
        Kind::Alternating => {
            for (place, bit) in bits.iter_mut().enumerate() {
                *bit = place % 2 == 1;
            }
        }
    }
}

/// A sum that each of the first bits changes.
fn sum_of(sum: u64, bits: &[bool], count: usize) -> u64 {
    let mut all = sum;
    for (place, bit) in bits.iter().enumerate() {
        if place < count {
            all = all.wrapping_mul(6364136223846793005).wrapping_add(1 + u64::from(*bit));
        }
    }
    all
}

/// The plain form: metrics and paths of 64 states.
#[derive(Drop)]
struct Plain {
    metrics: [u32; 64],
    paths: [u128; 64],
    steps: u32,
}

/// The steps of a pattern of which X, and of which Y is sent, the first lowest.
fn sent(rate: Rate) -> (u32, u32) {
    match rate {
        Rate::R12 => (0b1, 0b1),
        Rate::R23 => (0b01, 0b11),
        Rate::R34 => (0b101, 0b011),
        Rate::R56 => (0b10101, 0b01011),
        Rate::R78 => (0b1010001, 0b0101111),
    }
}

/// Whether the outputs of seven bits, the newest highest, differ from what was read: in how many places. A 2 was not sent.
fn branch(bits: u32, x: u32, y: u32) -> u32 {
    let own_x = (bits & 0x79).count_ones() % 2;
    let own_y = (bits & 0x5B).count_ones() % 2;
    u32::from(x < 2 && own_x != x) + u32::from(y < 2 && own_y != y)
}

/// The first state of least metric.
fn least(metrics: &[u32; 64]) -> usize {
    let mut best = 0usize;
    for state in 0..64usize {
        if metrics[state] < metrics[best % 64] {
            best = state;
        }
    }
    best
}

impl Plain {
    fn start() -> Plain {
        let mut metrics = [16u32; 64];
        metrics[0] = 0;
        let mut paths = [0u128; 64];
        for state in 0..64usize {
            paths[state] = (state as u128) << 122;
        }
        Plain {
            metrics,
            paths,
            steps: 0,
        }
    }

    fn step(&mut self, x: u32, y: u32) -> bool {
        let metrics = self.metrics;
        let paths = self.paths;
        for state in 0..64usize {
            let even = (2 * state) % 64;
            let odd = (2 * state + 1) % 64;
            let bits = 2 * state as u32;
            let by_even = metrics[even].wrapping_add(branch(bits, x, y));
            let by_odd = metrics[odd].wrapping_add(branch(bits + 1, x, y));
            let newest = (state as u128 / 32) << 127;
            if by_odd < by_even {
                self.metrics[state] = by_odd;
                self.paths[state] = paths[odd] >> 1 | newest;
            } else {
                self.metrics[state] = by_even;
                self.paths[state] = paths[even] >> 1 | newest;
            }
        }
        let best = least(&self.metrics);
        self.paths[best % 64] % 2 == 1
    }

    fn feed(&mut self, rate: Rate, bits: &[bool], out: &mut [bool]) -> usize {
        let (steps, _) = rate_pair(rate);
        let (sends_x, sends_y) = sent(rate);
        let mut read = bits.iter();
        let mut decided = 0usize;
        let mut phase = 0u32;
        for _ in 0..bits.len() {
            let mut x = 2u32;
            let mut y = 2u32;
            if sends_x >> (phase % 8) & 1 == 1 {
                match read.next() {
                    Some(bit) => x = u32::from(*bit),
                    None => return decided,
                }
            }
            if sends_y >> (phase % 8) & 1 == 1 {
                match read.next() {
                    Some(bit) => y = u32::from(*bit),
                    None => return decided,
                }
            }
            phase = (phase % 8 + 1) % steps.max(1);
            let bit = self.step(x, y);
            if self.steps < 127 {
                self.steps += 1;
            } else if decided < out.len() {
                out[decided] = bit;
                decided += 1;
            }
        }
        decided
    }
}

/// Nanoseconds of the fastest round of the decoder, and a sum of the bits.
fn time_decoder(clock: &impl Clock, rate: Rate, bits: &[bool; 16128], out: &mut [bool; 16128]) -> io::Result<(u128, u64)> {
    let mut decoder = Decoder::start(rate);
    let mut best = u128::MAX;
    let mut sum = 0u64;
    for _ in 0..ROUNDS {
        let start = Instant::now(clock)?;
        let count = decoder.feed(bits, out);
        best = best.min(start.elapsed(clock)?.as_nanos());
        sum = sum_of(sum, out, count);
    }
    Ok((best, sum))
}

/// The same of the plain form.
fn time_plain(clock: &impl Clock, rate: Rate, bits: &[bool; 16128], out: &mut [bool; 16128]) -> io::Result<(u128, u64)> {
    let mut decoder = Plain::start();
    let mut best = u128::MAX;
    let mut sum = 0u64;
    for _ in 0..ROUNDS {
        let start = Instant::now(clock)?;
        let count = decoder.feed(rate, bits, out);
        best = best.min(start.elapsed(clock)?.as_nanos());
        sum = sum_of(sum, out, count);
    }
    Ok((best, sum))
}

fn main(rt: HostRuntime) -> io::Result<()> {
    let mut bits = [false; 16128];
    let mut out = [false; 16128];
    for kind in [Kind::Clean, Kind::Wrong, Kind::Random, Kind::Alternating] {
        for rate in [Rate::R12, Rate::R23, Rate::R34, Rate::R56, Rate::R78] {
            let (steps, sent) = rate_pair(rate);
            let name = kind.name();
            fill(rate, kind, &mut bits);
            let (best, sum) = time_decoder(&rt, rate, &bits, &mut out)?;
            println!(rt; "decoder {name} {steps} {sent} {best} {sum:x}")?;
            let (best, sum) = time_plain(&rt, rate, &bits, &mut out)?;
            println!(rt; "plain {name} {steps} {sent} {best} {sum:x}")?;
        }
    }
    Ok(())
}
END
sed -i "s/ROUNDS_WANTED/$rounds/" "$measure/src/main.rt"
(cd "$measure" && rt run 2>"$folder/log") >"$folder/out" || { cat "$folder/log" "$folder/out" >&2; exit 1; }
awk '$1 == "decoder" || $1 == "plain" {
    bit = $5 / (16128 * $3 / $4)
    if ($1 == "decoder") { sum = $6; own = bit }
    else if (sum != $6) { print "the two decide otherwise"; exit 1 }
    else printf "%s, rate %s/%s: %.1f ns a decoded bit, %.2f times real time; plain form %.1f ns, %.1f times as long\n", $2, $3, $4, own, 231336000 / (6110208 * $3 / $4 * own), bit, bit / own
}' "$folder/out"
