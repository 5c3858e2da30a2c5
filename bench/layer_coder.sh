#!/bin/sh
# Prints how fast the coder of a layer is: milliseconds a frame, the best of twenty frames of other packets each, and the
# factor to real time with guard 1/8 (a frame lasts 231.336 ms in mode 3, 57.834 ms in mode 1). Of the first setting also
# its coded bits alone, the work before the bits are interleaved. Run by hand; no gate runs it. It proves and builds a
# small program over `layer_chain` in a temporary folder.
#
#     bench/layer_coder.sh [frames, 20 if left out]
set -eu
top=$(cd "$(dirname "$0")/.." && pwd)
frames=${1:-20}
folder=$(mktemp -d)
trap 'rm -rf "$folder"' EXIT
measure=$folder/crates/measure
mkdir -p "$measure/src" "$measure/proofs/packets_from" "$measure/proofs/coded_layer" "$measure/proofs/layer_coder"
for crate in isdbt_base ts_packet gf_rs energy_prbs delay_line byte_inter conv_punct viterbi_hard bit_inter time_inter cell_map layer_chain; do
    cp -R "$top/crates/$crate" "$folder/crates"
    grep "^$crate:" "$top/crates.txt" >>"$folder/crates.txt"
done
cp "$top/HANDLES" "$folder"
echo 'measure: isdbt_base ts_packet cell_map layer_chain' >>"$folder/crates.txt"
cat >"$measure/src/main.rt" <<'END'
//! Codes frames of a layer, and prints the nanoseconds of the fastest, with a sum of what was given.
#![tactic(auto)]

ghost use Rattle.std.specs.Prelude.{◌≡◌, ◌*◌, IfOk, vec_len};
ghost use Rattle.isdbt_base.specs.Numbers.{layer_cells, cell_bits};

use cell_map::Cell;
use isdbt_base::{DepthCode, LayerSetting, Mode, Modulation, NoMemory, Rate, bits_per_cell};
use layer_chain::{CodedLayer, LayerCoder};
use std::alloc::Global;
use std::io;
use std::io::Print;
use std::time::{Clock, Instant};
use ts_packet::Packet;

const FRAMES: usize = FRAMES_WANTED;

/// What keeps the program from measuring.
#[derive(Debug, Drop)]
enum Fault {
    NoMemory,
    Io(io::Error),
}

impl From<NoMemory> for Fault {
    fn from(_fault: NoMemory) -> Fault {
        Fault::NoMemory
    }
}

impl From<io::Error> for Fault {
    fn from(fault: io::Error) -> Fault {
        Fault::Io(fault)
    }
}

/// A packet whose bytes are of many kinds, and others for each number.
fn packet(number: usize) -> Packet {
    let mut bytes = [0u8; 188];
    let mut state = (number as u64).wrapping_mul(0x9E37_79B9_7F4A_7C15);
    for byte in bytes.iter_mut() {
        state = state
            .wrapping_mul(6_364_136_223_846_793_005)
            .wrapping_add(1_442_695_040_888_963_407);
        *byte = (state >> 56) as u8;
    }
    bytes[0] = 0x47;
    match Packet::read(&bytes) {
        Ok(packet) => packet,
        Err(_) => Packet::null(),
    }
}

/// So many packets, numbered from `first` on.
fn packets_from(alloc: Global, first: usize, count: usize) -> Result<Vec<Packet>, NoMemory>
    ensures { IfOk result (λ packets. vec_len packets ≡ count) }
{
    let mut packets = Vec::new(alloc);
    for place in 0..count {
        packets.push(packet(first.wrapping_add(place)))?;
    }
    Ok(packets)
}

/// Room for the coded bits of a frame.
fn room_for_bits(alloc: Global, layer: &LayerSetting, mode: Mode) -> Result<Vec<bool>, NoMemory>
    ensures { IfOk result (λ out. vec_len out ≡ 204 * layer_cells mode layer.now * cell_bits layer.now.modulation) }
{
    let size = 204 * layer.cells(mode) as usize * bits_per_cell(layer.modulation()) as usize;
    let out = vec![in alloc; false; size]?;
    Ok(out)
}

/// Room for the cells of a frame.
fn room_for_cells(alloc: Global, layer: &LayerSetting, mode: Mode) -> Result<Vec<Cell>, NoMemory>
    ensures { IfOk result (λ out. vec_len out ≡ 204 * layer_cells mode layer.now) }
{
    let out = vec![in alloc; Cell { i: 0, q: 0 }; 204 * layer.cells(mode) as usize]?;
    Ok(out)
}

/// How many bits are ones.
fn ones_of(bits: &[bool]) -> i64 {
    let mut ones = 0i64;
    for bit in bits {
        ones = ones.wrapping_add(i64::from(*bit));
    }
    ones
}

/// A sum that each axis of each cell changes.
fn sum_of(cells: &[Cell]) -> i64 {
    let mut sum = 0i64;
    for cell in cells {
        sum = sum.wrapping_mul(31).wrapping_add(i64::from(cell.i));
        sum = sum.wrapping_mul(31).wrapping_add(i64::from(cell.q));
    }
    sum
}

/// Measures the coded bits alone: nanoseconds of the fastest frame, and a sum.
fn coded_layer(
    clock: &impl Clock,
    alloc: Global,
    layer: &LayerSetting,
    mode: Mode,
) -> Result<(u128, i64), Fault> {
    let count = layer.packets(mode) as usize;
    let mut coder = CodedLayer::open(alloc, layer, mode)?;
    let mut out = room_for_bits(alloc, layer, mode)?;
    let mut best = u128::MAX;
    let mut sum = 0i64;
    for frame in 0..FRAMES {
        let packets = packets_from(alloc, frame.wrapping_mul(count), count)?;
        let start = Instant::now(clock)?;
        coder.frame(&packets, &mut out);
        best = best.min(start.elapsed(clock)?.as_nanos());
        sum = sum.wrapping_add(ones_of(&out));
    }
    Ok((best, sum))
}

/// Measures the cells: nanoseconds of the fastest frame, and a sum.
fn layer_coder(
    clock: &impl Clock,
    alloc: Global,
    layer: &LayerSetting,
    mode: Mode,
) -> Result<(u128, i64), Fault> {
    let count = layer.packets(mode) as usize;
    let mut coder = LayerCoder::open(alloc, layer, mode)?;
    let mut out = room_for_cells(alloc, layer, mode)?;
    let mut best = u128::MAX;
    let mut sum = 0i64;
    for frame in 0..FRAMES {
        let packets = packets_from(alloc, frame.wrapping_mul(count), count)?;
        let start = Instant::now(clock)?;
        coder.frame(&packets, &mut out);
        best = best.min(start.elapsed(clock)?.as_nanos());
        sum = sum.wrapping_add(sum_of(&out));
    }
    Ok((best, sum))
}

/// Prints what was measured of a frame that lasts so many microseconds.
fn report(rt: &impl Print, what: &str, lasts: u32, measured: (u128, i64)) -> io::Result<()> {
    let (best, sum) = measured;
    println!(rt; "{what}:{lasts}:{best}:{sum}")
}

fn main(rt: HostRuntime) -> Result<(), Fault> {
    let alloc = rt.alloc();
    if let Some(layer) = LayerSetting::new(13, Modulation::Qam64, Rate::R78, DepthCode::D2) {
        let what = "13 segments, 64QAM, 7/8, mode 3, length 2, coded bits alone";
        let coded = coded_layer(&rt, alloc, &layer, Mode::M3)?;
        report(&rt, what, 231_336, coded)?;
        let what = "13 segments, 64QAM, 7/8, mode 3, length 2, cells";
        let cells = layer_coder(&rt, alloc, &layer, Mode::M3)?;
        report(&rt, what, 231_336, cells)?;
    }
    if let Some(layer) = LayerSetting::new(1, Modulation::Qpsk, Rate::R12, DepthCode::D1) {
        let what = "1 segment, QPSK, 1/2, mode 1, length 4, cells";
        let cells = layer_coder(&rt, alloc, &layer, Mode::M1)?;
        report(&rt, what, 57_834, cells)?;
    }
    Ok(())
}
END
sed -i "s/FRAMES_WANTED/$frames/" "$measure/src/main.rt"
cat >"$measure/proofs/packets_from/Invariants.antt" <<'END'
use Rattle.std.proofs.Common.{◌≡◌, vec_len}
use Rattle.measure.proofs.packets_from.Given as goal

abbrev pub invariant-loop-place : goal.invariant-loop-place
invariant-loop-place l = vec_len l.packets ≡ l.place
END
cat >"$measure/proofs/coded_layer/Invariants.antt" <<'END'
use Rattle.std.proofs.Common.{◌≡◌, ◌*◌, vec_len}
use Rattle.isdbt_base.specs.Numbers.{layer_cells, cell_bits}
use Rattle.layer_chain.specs.CodedLayer.{mode_of, layer_of}
use Rattle.measure.proofs.coded_layer.Given as goal

abbrev pub invariant-loop-frame : goal.invariant-loop-frame
invariant-loop-frame g l = record {
  mode_is : mode_of l.coder ≡ l.fn.mode;
  layer_is : layer_of l.coder ≡ l.layer;
  room : vec_len l.out ≡ 204 * layer_cells l.fn.mode l.layer * cell_bits l.layer.modulation;
}
END
cat >"$measure/proofs/layer_coder/Invariants.antt" <<'END'
use Rattle.std.proofs.Common.{◌≡◌, ◌*◌, vec_len}
use Rattle.isdbt_base.specs.Numbers.{layer_cells}
use Rattle.layer_chain.specs.LayerCoder.{mode_of, layer_of}
use Rattle.measure.proofs.layer_coder.Given as goal

abbrev pub invariant-loop-frame : goal.invariant-loop-frame
invariant-loop-frame g l = record {
  mode_is : mode_of l.coder ≡ l.fn.mode;
  layer_is : layer_of l.coder ≡ l.layer;
  room : vec_len l.out ≡ 204 * layer_cells l.fn.mode l.layer;
}
END
(cd "$measure" && rt run 2>"$folder/log") >"$folder/out" || { cat "$folder/log" "$folder/out" >&2; exit 1; }
awk -F: 'NF == 4 { printf "%s: %.3f ms a frame, %.1f times real time\n", $1, $3 / 1e6, $2 * 1e3 / $3 }' "$folder/out"
