#!/bin/sh
# Prints how fast the coder of a frame is, from broadcast packets to the bytes of its symbols, without reading and writing:
# milliseconds of the check and of the coding, the best of twenty frames of other packets each, and the factor to real time, at
# the highest rate with guard 1/8 (a frame lasts 231.336 ms). Run by hand; no gate runs it. It proves and builds a small program
# over `coder_core` in a temporary folder.
#
#     bench/frame_coder.sh [frames, 20 if left out]
set -eu
top=$(cd "$(dirname "$0")/.." && pwd)
frames=${1:-20}
folder=$(mktemp -d)
trap 'rm -rf "$folder"' EXIT
measure=$folder/crates/measure
mkdir -p "$measure/src" "$measure/proofs/measured"
for crate in isdbt_base edge_io ts_packet bts_info gf_rs energy_prbs delay_line byte_inter conv_punct viterbi_hard bit_inter \
    time_inter cell_map tmcc_word layer_chain coder_core; do
    cp -R "$top/crates/$crate" "$folder/crates"
    grep "^$crate:" "$top/crates.txt" >>"$folder/crates.txt"
done
cp "$top/HANDLES" "$folder"
echo 'measure: isdbt_base coder_core' >>"$folder/crates.txt"
cat >"$measure/src/main.rt" <<'END'
//! Codes frames of one layer, and prints the nanoseconds of the fastest, with a sum of what was written.
#![tactic(auto)]

ghost use Rattle.std.specs.Prelude.{◌≡◌, ◌*◌, vec_len};
ghost use Rattle.isdbt_base.specs.declared.kinds.Mode.TheVariants.{M3};
ghost use Rattle.isdbt_base.specs.declared.kinds.Guard.TheVariants.{G8};
ghost use Rattle.isdbt_base.specs.Numbers.{slots_per_frame};
ghost use Rattle.coder_core.specs.Coder.{mode_of, guard_of};
ghost use Rattle.coder_core.specs.SentCells.{frame_size};

use coder_core::Coder;
use isdbt_base::{DepthCode, Guard, LayerSetting, Mode, Modulation, NoMemory, Rate, SYMBOLS, Setting, carriers, slots, zeros};
use std::alloc::Global;
use std::io;
use std::io::Print;
use std::time::{Clock, Instant};

const FRAMES: usize = FRAMES_WANTED;

/// What keeps the program from measuring.
#[derive(Debug, Drop)]
enum Fault {
    NoMemory,
    Io(io::Error),
}

impl From<NoMemory> for Fault {
    fn from(_fault: NoMemory) -> Fault {
        Fault::NoMemory
    }
}

impl From<io::Error> for Fault {
    fn from(fault: io::Error) -> Fault {
        Fault::Io(fault)
    }
}

/// A byte of a slot: the sync byte, the head flag in slot 0, layer A in the slots behind it, and any other.
fn byte_at(slot: usize, place: usize, other: u8) -> u8 {
    if place == 0 {
        0x47
    } else if place == 188 {
        if slot == 0 { 0b10 } else { 0 }
    } else if place == 189 {
        if slot >= 1 && slot <= 3276 { 16 } else { 0 }
    } else {
        other
    }
}

/// Fills a frame with packets of many kinds, others for each number; 3,276 of them are of layer A.
fn fill_frame(frame: &mut [u8], number: usize) {
    let mut state = (number as u64).wrapping_mul(0x9E37_79B9_7F4A_7C15);
    for (place, byte) in frame.iter_mut().enumerate() {
        state = state
            .wrapping_mul(6_364_136_223_846_793_005)
            .wrapping_add(1_442_695_040_888_963_407);
        *byte = byte_at(place / 204, place % 204, (state >> 56) as u8);
    }
}

/// A sum that each byte changes.
fn sum_of(bytes: &[u8]) -> u64 {
    let mut sum = 0u64;
    for byte in bytes {
        sum = sum.wrapping_mul(31).wrapping_add(u64::from(*byte));
    }
    sum
}

/// The buffers of a frame.
#[derive(Drop)]
struct Room {
    frame: Vec<u8>,
    out: Vec<u8>,
}

/// Checks and codes the frame in the buffer: nanoseconds of both, or none where it is refused.
fn code_once(clock: &impl Clock, coder: &mut Coder, room: &mut Room) -> Result<Option<(u128, u128)>, Fault>
    requires mode { mode_of coder.old ≡ M3 }
    requires guard { guard_of coder.old ≡ G8 }
    requires frame { vec_len room.old.frame ≡ 204 * slots_per_frame M3 G8 }
    requires out { vec_len room.old.out ≡ frame_size M3 }
    ensures mode { mode_of coder.new ≡ M3 }
    ensures guard { guard_of coder.new ≡ G8 }
    ensures frame { vec_len room.new.frame ≡ 204 * slots_per_frame M3 G8 }
    ensures out { vec_len room.new.out ≡ frame_size M3 }
{
    let start = Instant::now(clock)?;
    match coder.check(0, 0, &room.frame) {
        Ok(()) => {}
        Err(_fault) => return Ok(None),
    }
    let checked = start.elapsed(clock)?.as_nanos();
    let start = Instant::now(clock)?;
    coder.frame(&room.frame, &[false; 204], &mut room.out);
    let coded = start.elapsed(clock)?.as_nanos();
    Ok(Some((checked, coded)))
}

/// Nanoseconds of the fastest check and of the fastest coding, and a sum.
fn measured(clock: &impl Clock, coder: &mut Coder, room: &mut Room) -> Result<(u128, u128, u64), Fault>
    requires mode { mode_of coder.old ≡ M3 }
    requires guard { guard_of coder.old ≡ G8 }
    requires frame { vec_len room.old.frame ≡ 204 * slots_per_frame M3 G8 }
    requires out { vec_len room.old.out ≡ frame_size M3 }
{
    let mut checked = u128::MAX;
    let mut coded = u128::MAX;
    let mut sum = 0u64;
    for number in 0..FRAMES {
        fill_frame(&mut room.frame, number);
        if let Some((check, code)) = code_once(clock, coder, room)? {
            checked = checked.min(check);
            coded = coded.min(code);
            sum = sum.wrapping_add(sum_of(&room.out));
        }
    }
    Ok((checked, coded, sum))
}

/// The same of a new coder.
fn with_coder(
    clock: &impl Clock,
    alloc: Global,
    setting: &Setting,
    room: &mut Room,
) -> Result<(u128, u128, u64), Fault>
    requires frame { vec_len room.old.frame ≡ 204 * slots_per_frame M3 G8 }
    requires out { vec_len room.old.out ≡ frame_size M3 }
{
    let mut coder = Coder::open(alloc, setting, Mode::M3, Guard::G8)?;
    measured(clock, &mut coder, room)
}

/// The same with new buffers.
fn with_room(clock: &impl Clock, alloc: Global, setting: &Setting) -> Result<(u128, u128, u64), Fault> {
    let frame = zeros(alloc, 204 * slots(Mode::M3, Guard::G8) as usize)?;
    let out = zeros(alloc, SYMBOLS * (1 + 26 * carriers(Mode::M3) as usize))?;
    let mut room = Room { frame, out };
    with_coder(clock, alloc, setting, &mut room)
}

fn main(rt: HostRuntime) -> Result<(), Fault> {
    let alloc = rt.alloc();
    for depth in [DepthCode::D0, DepthCode::D2] {
        if let Some(layer) = LayerSetting::new(13, Modulation::Qam64, Rate::R78, depth) {
            if let Ok(setting) = Setting::new(false, layer, None, None) {
                let (checked, coded, sum) = with_room(&rt, alloc, &setting)?;
                println!(rt; "{checked}:{coded}:{sum}")?;
            }
        }
    }
    Ok(())
}
END
sed -i "s/FRAMES_WANTED/$frames/" "$measure/src/main.rt"
cat >"$measure/proofs/measured/Invariants.antt" <<'END'
use Rattle.std.proofs.Common.{◌≡◌, ◌*◌, vec_len}
use Rattle.isdbt_base.specs.declared.kinds.Mode.TheVariants.{M3}
use Rattle.isdbt_base.specs.declared.kinds.Guard.TheVariants.{G8}
use Rattle.isdbt_base.specs.Numbers.{slots_per_frame}
use Rattle.coder_core.specs.Coder.{mode_of, guard_of}
use Rattle.coder_core.specs.SentCells.{frame_size}
use Rattle.measure.proofs.measured.Given as goal

abbrev pub invariant-loop-number : goal.invariant-loop-number
invariant-loop-number g l = record {
  mode_is : mode_of l.coder ≡ M3;
  guard_is : guard_of l.coder ≡ G8;
  frame_room : vec_len l.room.frame ≡ 204 * slots_per_frame M3 G8;
  out_room : vec_len l.room.out ≡ frame_size M3;
}
END
(cd "$measure" && rt run 2>"$folder/log") >"$folder/out" || { cat "$folder/log" "$folder/out" >&2; exit 1; }
awk -F: 'NF == 3 { printf "%s: check %.3f ms, coding %.3f ms a frame, together %.1f times real time\n", \
    NR == 1 ? "length 0" : "length 2", $1 / 1e6, $2 / 1e6, 231336 * 1e3 / ($1 + $2) }' "$folder/out"
