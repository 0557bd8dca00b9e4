// SPDX-License-Identifier: MIT OR Apache-2.0
// Made by tools/generate of crates/linker_runs/src/packing.rt.
//! A section of a relaxed run, packed.

mod code;
#[cfg(feature = "loongarch64")]
mod loongarch64;
mod moved;
#[cfg(feature = "riscv64")]
mod riscv32;
#[cfg(feature = "riscv64")]
mod riscv64;

use crate::linker_runs::items::{ItemList, ItemNumbers, has_bytes};
use crate::linker_runs::packing::code::Code;
use crate::linker_runs::packing::moved::move_relocations;
#[cfg(feature = "riscv64")]
pub use crate::linker_runs::packing::riscv32::Isa;
use crate::linker_runs::relaxation::{Item, Site};
use crate::linker_base::packing::{Position, copy_kept, position_from, position_of};
use crate::linker_base::relaxation::{DeltaSlice, RelaxDelta};
use crate::linker_base::rewrite::overwrite;
use crate::elf::Architecture;

/// The architecture of a section's code.
#[derive(Clone, Copy, Debug, PartialEq, Eq, Hash)]
pub enum Machine {
    /// RISC-V.
    #[cfg(feature = "riscv64")]
    RiscV(Isa),
    /// LoongArch of 64 bits.
    #[cfg(feature = "loongarch64")]
    LoongArch64,
}

impl Machine {
    /// The machine of an architecture, if its code can become shorter.
    #[must_use]
    #[inline]
    pub fn of(architecture: Architecture) -> Option<Machine> {
        match architecture {
            #[cfg(feature = "riscv64")]
            Architecture::RiscV => Some(Machine::RiscV(Isa::Rv64)),
            #[cfg(feature = "loongarch64")]
            Architecture::LoongArch64 => Some(Machine::LoongArch64),
            #[cfg(feature = "aarch64")]
            Architecture::AArch64 => None,
            #[cfg(feature = "ppc64")]
            Architecture::Ppc64 => None,
            #[cfg(feature = "x86_64")]
            Architecture::X86_64 => None,
        }
    }
}

/// Why an item isn't written.
#[cfg_attr(not(exhaustive), non_exhaustive)]
#[derive(Clone, Copy, Debug, PartialEq, Eq, Hash)]
pub enum ItemError {
    /// It begins below the end of the item before it.
    Overlaps,
    /// It doesn't lie in the section.
    OutOfSection,
    /// Bytes between the item before it, or the section's begin, and it are deleted, so that an
    /// item is missing. The index is that after the last item where bytes between that and the
    /// section's end are.
    DeletedOutside,
    /// N bytes of it stay, but they aren't its first ones.
    NotItsFirstBytes,
    /// The instructions of the site aren't those that its shapes stand for.
    NotItsInstructions,
    /// No instruction, or no nops, have as many bytes as stay.
    NoShape,
    /// The instructions don't reach the target: it is too far, or the distance isn't a multiple of
    /// what the instruction counts in.
    OutOfReach,
}

/// The first item of a section that can't be written.
#[derive(Clone, Copy, Debug, PartialEq, Eq, Hash)]
pub struct RejectedItem {
    /// Its index among the items, or how many there are.
    pub index: usize,
    /// Why it can't.
    pub error: ItemError,
}

/// What is written in place of the bytes of an item that stay.
#[derive(Clone, Copy)]
pub(crate) enum Piece {
    /// Nothing: they stay as they are.
    Nothing,
    /// N bytes of nops.
    Nops(u64),
    /// An instruction.
    Code(Code),
}

/// Whether the item at an index begins at or above a position after the one before it.
#[inline(always)]
fn is_apart(index: usize, following: &Position, item: &Item) -> bool {
    index == 0 || following.input_offset <= item.offset()
}

/// Whether an item lies in a section that begins at the input offset `base`.
#[inline(always)]
fn is_inside(section: &[u8], base: u64, item: &Item) -> bool {
    item.offset() >= base && has_bytes(section, item.offset() - base, item.len())
}

/// Whether all bytes between two positions stay.
#[inline(always)]
fn stay_whole(from: &Position, to: &Position) -> bool {
    to.output_offset.saturating_sub(from.output_offset) == to.input_offset - from.input_offset
}

/// What the instructions of a site become of which n bytes stay.
#[inline(always)]
fn code_of_site(
    machine: Machine,
    section: &[u8],
    base: u64,
    deltas: &[RelaxDelta],
    at: &Position,
    start: u64,
    site: &Site,
    kept: u64,
) -> Result<Code, ItemError> {
    if site.len != 8 {
        return Err(ItemError::NotItsInstructions);
    }
    let place = start.wrapping_add(at.output_offset);
    let target = start.wrapping_add(position_of(deltas, site.target).output_offset);
    match machine {
        #[cfg(feature = "riscv64")]
        Machine::RiscV(_) => {
            riscv64::code_of(machine, section, site.offset - base, kept, place, target)
        }
        #[cfg(feature = "loongarch64")]
        Machine::LoongArch64 => {
            loongarch64::code_of(section, site.offset - base, kept, place, target)
        }
    }
}

/// How many bytes the shortest nop has.
#[inline(always)]
fn nop_len(machine: Machine) -> u64 {
    match machine {
        #[cfg(feature = "riscv64")]
        Machine::RiscV(_) => 2,
        #[cfg(feature = "loongarch64")]
        Machine::LoongArch64 => 4,
    }
}

/// Whether the linker has decided what stays of an item.
#[inline(always)]
fn is_fixed(item: &Item) -> bool {
    match item {
        Item::Site(site) => site.shapes.count == 0,
        Item::Aligned(_) => false,
    }
}

/// How many bytes of an item between two positions stay, if they are its first ones.
#[inline(always)]
fn kept_of(deltas: &[RelaxDelta], at: &Position, end: &Position, item: &Item) -> Option<u64> {
    let kept = end.output_offset.saturating_sub(at.output_offset);
    if kept > item.len() {
        return None;
    }
    let following = position_from(deltas, at, at.input_offset + kept);
    if following.output_offset == at.output_offset + kept {
        Some(kept)
    } else {
        None
    }
}

/// What is written of an item of which n bytes stay.
#[inline(always)]
fn piece_for(
    machine: Machine,
    section: &[u8],
    base: u64,
    deltas: &[RelaxDelta],
    at: &Position,
    start: u64,
    item: &Item,
    kept: u64,
) -> Result<Piece, ItemError> {
    match item {
        Item::Aligned(_) => {
            if kept % nop_len(machine) == 0 {
                Ok(Piece::Nops(kept))
            } else {
                Err(ItemError::NoShape)
            }
        }
        Item::Site(site) => {
            let code = code_of_site(machine, section, base, deltas, at, start, site, kept)?;
            Ok(Piece::Code(code))
        }
    }
}

/// What is written in place of an item's bytes that stay.
#[inline(always)]
fn piece_of(
    machine: Machine,
    section: &[u8],
    base: u64,
    deltas: &[RelaxDelta],
    at: &Position,
    end: &Position,
    start: u64,
    item: &Item,
) -> Result<Piece, ItemError> {
    if is_fixed(item) {
        return Ok(Piece::Nothing);
    }
    match kept_of(deltas, at, end, item) {
        Some(kept) => piece_for(machine, section, base, deltas, at, start, item, kept),
        None => Err(ItemError::NotItsFirstBytes),
    }
}

/// Whether each item can be written; the error is that of the first that can't.
fn test_items(
    machine: Machine,
    section: &[u8],
    base: u64,
    items: &ItemList<'_>,
    deltas: &[RelaxDelta],
    start: u64,
    begin: &Position,
) -> Result<(), RejectedItem> {
    let count = items.len();
    let mut following = *begin;
    for index in 0..count {
        let item = items.at(index);
        if !is_apart(index, &following, &item) {
            return Err(RejectedItem {
                index,
                error: ItemError::Overlaps,
            });
        }
        if !is_inside(section, base, &item) {
            return Err(RejectedItem {
                index,
                error: ItemError::OutOfSection,
            });
        }
        let at = position_from(deltas, &following, item.offset());
        if !stay_whole(&following, &at) {
            return Err(RejectedItem {
                index,
                error: ItemError::DeletedOutside,
            });
        }
        let past = position_from(deltas, &at, item.offset().saturating_add(item.len()));
        if let Err(error) = piece_of(machine, section, base, deltas, &at, &past, start, &item) {
            return Err(RejectedItem { index, error });
        }
        following = past;
    }
    let end = position_from(deltas, &following, base + section.len() as u64);
    if stay_whole(&following, &end) {
        Ok(())
    } else {
        Err(RejectedItem {
            index: count,
            error: ItemError::DeletedOutside,
        })
    }
}

/// Puts bytes at an offset, where they fit there.
#[inline(always)]
fn put_bytes(packed: &mut [u8], at: u64, bytes: &[u8]) {
    if !has_bytes(packed, at, bytes.len() as u64) {
        return;
    }
    overwrite(packed, at, bytes);
}

/// Puts n of the same four bytes at an offset, where they fit there.
fn put_words(packed: &mut [u8], at: u64, word: [u8; 4], count: u64) {
    let len = packed.len() as u64;
    if count > len / 4 || at > len - 4 * count {
        return;
    }
    for index in 0..count {
        put_bytes(packed, at + 4 * index, &word);
    }
}

/// Puts n bytes of nops at an offset, where they fit there.
fn put_nops(machine: Machine, packed: &mut [u8], at: u64, len: u64) {
    match machine {
        #[cfg(feature = "riscv64")]
        Machine::RiscV(_) => {
            put_words(packed, at, [0x13, 0x00, 0x00, 0x00], len / 4);
            if len % 4 == 2 {
                put_bytes(packed, at.wrapping_add(len - 2), &[0x01, 0x00]);
            }
        }
        #[cfg(feature = "loongarch64")]
        Machine::LoongArch64 => put_words(packed, at, [0x00, 0x00, 0x40, 0x03], len / 4),
    }
}

/// Puts what is written of an item at an offset, where it fits there.
#[inline(always)]
fn put_piece(machine: Machine, packed: &mut [u8], at: u64, piece: Piece) {
    match piece {
        Piece::Nothing => {}
        Piece::Nops(len) => put_nops(machine, packed, at, len),
        Piece::Code(code) => match code {
            Code::Half(bytes) => put_bytes(packed, at, &bytes),
            Code::Word(bytes) => put_bytes(packed, at, &bytes),
            Code::Pair(bytes) => put_bytes(packed, at, &bytes),
        },
    }
}

/// Puts what is written of each item, where it can be written.
fn put_items(
    machine: Machine,
    section: &[u8],
    base: u64,
    items: &ItemList<'_>,
    deltas: &[RelaxDelta],
    start: u64,
    begin: &Position,
    packed: &mut [u8],
) {
    let mut at = *begin;
    let before = at.output_offset;
    for index in 0..items.len() {
        let item = items.at(index);
        if !is_inside(section, base, &item) {
            return;
        }
        at = position_from(deltas, &at, item.offset());
        let past = position_from(deltas, &at, item.offset().saturating_add(item.len()));
        match piece_of(machine, section, base, deltas, &at, &past, start, &item) {
            Err(_error) => return,
            Ok(piece) => {
                let place = at.output_offset.saturating_sub(before);
                put_piece(machine, packed, place, piece);
            }
        }
    }
}

/// How many bytes of a section stay: as many as it takes when it is packed. The section has `len`
/// bytes, and begins at the input offset `base` of the run that loses what the deltas list.
///
/// # Requires
///
/// - `(base as u128) + (len as u128) < 1 << 64`
#[must_use]
#[cfg_attr(debug_assertions, track_caller)]
pub fn packed_run_len(base: u64, len: usize, deltas: &[RelaxDelta]) -> usize {
    debug_assert!((base as u128) + (len as u128) < 1 << 64);
    let run = DeltaSlice::new(deltas);
    let end = run.input_to_output_offset(base + len as u64);
    end.saturating_sub(run.input_to_output_offset(base)) as usize
}

/// Whether a site is eight bytes of a section, of instructions that can have its shapes: of RISC-V
/// `auipc` and `jalr` with `CALL`, or with `TAIL_C` where they link x0, or x1 on RV32; of LoongArch
/// `pcaddu18i` and `jirl` with `CALL36`, or `pcalau12i` and `addi.d` of one register with `PCALA`.
/// The section begins at the input offset `base` of the run. A site of which the linker has decided
/// has none of these shapes; an alignment has no instructions to be tested.
///
/// Where this is so of a site that [`relax`](crate::runs::relax()) made shorter, [`pack_run`](crate::runs::pack_run()) can write it: the instruction
/// reaches its target.
#[must_use]
pub fn has_its_instructions(machine: Machine, section: &[u8], base: u64, item: &Item) -> bool {
    let Item::Site(site) = item else {
        return true;
    };
    if site.len != 8 || !is_inside(section, base, item) {
        return false;
    }
    let offset = site.offset - base;
    match machine {
        #[cfg(feature = "riscv64")]
        Machine::RiscV(_) => riscv64::has_shapes(machine, section, offset, &site.shapes),
        #[cfg(feature = "loongarch64")]
        Machine::LoongArch64 => loongarch64::has_shapes(section, offset, &site.shapes),
    }
}

/// `crate::link::pack_run`, with more parameters.
#[cfg_attr(debug_assertions, track_caller)]
pub fn pack_run(
    machine: Machine,
    section: &[u8],
    base: u64,
    items: &[ItemNumbers],
    deltas: &[RelaxDelta],
    start: u64,
    relocations: &mut [u8],
    out: &mut [u8],
) -> Result<(), RejectedItem> {
    debug_assert!((base as u128) + (section.len() as u128) < 1 << 64);
    debug_assert!(!DeltaSlice::new(deltas).has_valid_deltas() || packed_run_len(base, section.len(), deltas) == out.len());
    let list = ItemList::new(items);
    let begin = position_of(deltas, base);
    test_items(machine, section, base, &list, deltas, start, &begin)?;
    copy_kept(section, base, deltas, out);
    put_items(machine, section, base, &list, deltas, start, &begin, out);
    move_relocations(machine, section, base, &list, deltas, &begin, relocations);
    Ok(())
}
