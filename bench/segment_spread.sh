#!/bin/sh
# Prints how long a symbol of mode 3 takes to spread and to gather, each the best of so many rounds of 100 symbols. Run by
# hand; no gate runs it. It proves and builds a small program over `segment_spread` in a temporary folder.
#
#     bench/segment_spread.sh [rounds, 1000 if left out]
set -eu
top=$(cd "$(dirname "$0")/.." && pwd)
rounds=${1:-1000}
folder=$(mktemp -d)
trap 'rm -rf "$folder"' EXIT
mkdir -p "$folder/crates/measure/src"
for crate in isdbt_base delay_line time_inter cell_map segment_spread; do
    cp -R "$top/crates/$crate" "$folder/crates"
done
cp "$top/HANDLES" "$folder"
cat >"$folder/crates.txt" <<'END'
isdbt_base:
delay_line: isdbt_base circular_buffer
time_inter: isdbt_base delay_line
cell_map: isdbt_base
segment_spread: isdbt_base cell_map time_inter
measure: isdbt_base cell_map segment_spread
END
cat >"$folder/crates/measure/src/main.rt" <<'END'
//! Spreads and gathers symbols, and prints the nanoseconds of the best round of each.
#![tactic(auto)]

use cell_map::Cell;
use isdbt_base::Mode;
use segment_spread::{gather, spread};
use std::io;
use std::time::Instant;

const ROUNDS: u32 = ROUNDS_WANTED;
const SYMBOLS: usize = 100;

fn main(rt: HostRuntime) -> io::Result<()> {
    let mut cells = [Cell { i: 1, q: -1 }; 4992];
    let mut moved = [Cell { i: 3, q: -3 }; 4992];
    let mut spread_best = u128::MAX;
    let mut gather_best = u128::MAX;
    for _ in 0..ROUNDS {
        let start = Instant::now(&rt)?;
        for symbol in 0..SYMBOLS {
            spread(symbol % 2 == 0, Mode::M3, &cells, &mut moved);
            cells[symbol] = moved[symbol + 7];
        }
        spread_best = spread_best.min(start.elapsed(&rt)?.as_nanos());
        let start = Instant::now(&rt)?;
        for symbol in 0..SYMBOLS {
            gather(symbol % 2 == 0, Mode::M3, &moved, &mut cells);
            moved[symbol] = cells[symbol + 7];
        }
        gather_best = gather_best.min(start.elapsed(&rt)?.as_nanos());
    }
    let mut sum = 0u8;
    for cell in cells.iter() {
        sum ^= cell.i.cast_unsigned();
    }
    println!(rt; "{spread_best} {gather_best} {sum}")?;
    Ok(())
}
END
sed -i "s/ROUNDS_WANTED/$rounds/" "$folder/crates/measure/src/main.rt"
(cd "$folder/crates/measure" && rt run 2>"$folder/log") >"$folder/out" || { cat "$folder/log" "$folder/out" >&2; exit 1; }
awk 'NF == 3 { printf "segment spread: a symbol of 4,992 cells spread in %.2f us, gathered in %.2f us\n", $1 / 1e5, $2 / 1e5 }' "$folder/out"
