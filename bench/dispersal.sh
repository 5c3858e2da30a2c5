#!/bin/sh
# Prints how fast units are dispersed: bytes of units in a second. Run by hand; no gate runs it. It proves and builds a
# small program over `energy_prbs` in a temporary folder.
#
#     bench/dispersal.sh [units, 1000000 if left out]
set -eu
top=$(cd "$(dirname "$0")/.." && pwd)
units=${1:-1000000}
folder=$(mktemp -d)
trap 'rm -rf "$folder"' EXIT
mkdir -p "$folder/crates/measure/src"
cp -R "$top/crates/energy_prbs" "$folder/crates"
cp "$top/HANDLES" "$folder"
printf 'energy_prbs:\nmeasure: energy_prbs\n' >"$folder/crates.txt"
cat >"$folder/crates/measure/src/main.rt" <<'END'
//! Disperses units, and prints how many and how long it took.
#![tactic(auto)]

use energy_prbs::Prbs;
use std::io;
use std::time::Instant;

const UNITS: u32 = UNITS_WANTED;

fn main(rt: HostRuntime) -> io::Result<()> {
    let mut prbs = Prbs::start();
    let mut unit = [0x47u8; 204];
    let mut sum = 0u8;
    let start = Instant::now(&rt)?;
    for round in 0..UNITS {
        prbs.disperse(&mut unit);
        sum ^= unit[round as usize % 204];
    }
    let nanos = start.elapsed(&rt)?.as_nanos();
    println!(rt; "{UNITS} {nanos} {sum}")?;
    Ok(())
}
END
sed -i "s/UNITS_WANTED/$units/" "$folder/crates/measure/src/main.rt"
(cd "$folder/crates/measure" && rt run 2>"$folder/log") >"$folder/out" || { cat "$folder/log" "$folder/out" >&2; exit 1; }
awk 'NF == 3 { printf "dispersal: %d units of 204 bytes in %.3f s, %.0f MB/s\n", $1, $2 / 1e9, $1 * 204 * 1000 / $2 }' "$folder/out"
