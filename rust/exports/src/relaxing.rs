// SPDX-License-Identifier: MIT OR Apache-2.0
// Made by tools/generate of crates/linker_utils_c/src/relaxing.rt.
//! A run of items that is relaxed, in arrays of the caller's.

use crate::status::{Status, at_fault, or_return};
use linker_utils::source::runs::ItemNumbers;
use linker_utils::source::runs::{Fault, Shapes, first_faulty, relax_into};
use linker_utils::source::runs::shapes::loongarch64::{CALL36, PCALA};
use linker_utils::source::runs::shapes::riscv64::{CALL, CALL_WITHOUT_C, TAIL_C};
use linker_utils::relaxation::RelaxDelta;

#[inline]
fn status_of(fault: Fault) -> u32 {
    match fault {
        Fault::Overlaps => Status::ItemsOverlap as u32,
        Fault::TooHigh => Status::EndsTooHigh as u32,
        Fault::TooManyShapes => Status::TooManyShapes as u32,
        Fault::ShapeTooLong => Status::ShapeTooLong as u32,
        Fault::ShapesNotAscending => Status::ShapesNotAscending as u32,
        Fault::BadGranularity => Status::BadGranularity as u32,
        Fault::BadReach => Status::BadReach as u32,
        Fault::BadAlignment => Status::BadAlignment as u32,
        Fault::UnevenShape => Status::UnevenShape as u32,
        Fault::Misaligned => Status::Misaligned as u32,
        Fault::AlignmentBelowGranularity => Status::AlignmentBelowGranularity as u32,
        Fault::UnevenEnd => Status::UnevenEnd as u32,
        Fault::TooFewNops => Status::TooFewNops as u32,
        Fault::UnevenNops => Status::UnevenNops as u32,
        Fault::TargetInside => Status::TargetInside as u32,
        Fault::MayBeMisaligned => Status::MayBeMisaligned as u32,
    }
}

#[inline]
fn shapes_named(number: u32) -> Option<Shapes> {
    match number {
        0 => Some(CALL),
        1 => Some(TAIL_C),
        2 => Some(CALL_WITHOUT_C),
        3 => Some(CALL36),
        4 => Some(PCALA),
        _ => None,
    }
}

/// Writes the shapes that a number names: 0 a call of RISC-V, 1 a tail call where the C extension
/// may be used, 2 a call or tail call where it isn't; 3 `R_LARCH_CALL36`, 4 `R_LARCH_PCALA_HI20`
/// and `_LO12`. The error is `UnknownShapes`, and `shapes` is unchanged then.
pub fn linker_utils_standard_shapes(number: u32, shapes: &mut Shapes) -> u32 {
    *shapes = or_return!(shapes_named(number), UnknownShapes);
    Status::Success as u32
}

/// Whether `linker_utils_relax` accepts the items of a run that begins at the address `start`. The
/// status is else that of the first fault of the first faulty item, whose index is `faulty`, in the
/// order of the statuses from `ItemsOverlap` on, with `Misaligned` after `UnevenShape` and
/// `MayBeMisaligned` as the last; those from `UnevenShape` on count only where no item has one of
/// those before.
pub fn linker_utils_items_relaxable_nonnull(
    items: &[ItemNumbers],
    start: u64,
    faulty: &mut usize,
) -> u32 {
    match first_faulty(items, start) {
        None => Status::Success as u32,
        Some(found) => at_fault(status_of(found.fault), found.index, faulty),
    }
}

/// Chooses a shape for each item that is a site, and says what stays of each item, as `relax_into`.
///
/// `shapes` and `kept` have an element for each item: the index of the shape that a site has, and
/// how many of the item's bytes stay. `freed` has one more: how many bytes those before each item
/// free, and at the end how many all do. `places` is room for the work, with an element for each
/// item.
///
/// The first that applies of `DifferentLengths`, where an array has another length; and those of
/// `linker_utils_items_relaxable`, of the item at `faulty`. The arrays are unchanged then. `faulty`
/// changes only with a status that is about an item.
pub fn linker_utils_relax_nonnull(
    items: &[ItemNumbers],
    start: u64,
    shapes: &mut [u8],
    kept: &mut [u64],
    places: &mut [usize],
    freed: &mut [u64],
    faulty: &mut usize,
) -> u32 {
    if !have_lengths(
        items.len(),
        shapes.len(),
        kept.len(),
        places.len(),
        freed.len(),
    ) {
        return Status::DifferentLengths as u32;
    }
    match first_faulty(items, start) {
        None => {
            relax_into(items, start, shapes, kept, places, freed);
            Status::Success as u32
        }
        Some(found) => at_fault(status_of(found.fault), found.index, faulty),
    }
}

#[inline]
fn have_lengths(len: usize, shapes: usize, kept: usize, places: usize, freed: usize) -> bool {
    shapes == len && kept == len && places == len && freed > 0 && freed - 1 == len
}

/// Writes the deltas of what a run loses where n bytes of each item stay: one for each item
/// that loses some. `len` is how many there are, and the elements of `deltas` from there on are
/// unchanged.
///
/// The error is `DifferentLengths`, where `kept` or `deltas` has not as many elements as there are
/// items. Nothing is written then. The contract of what is written requires items in order, as
/// those of a run that `linker_utils_items_relaxable` accepts are.
pub fn linker_utils_run_deltas_nonnull(
    items: &[ItemNumbers],
    kept: &[u64],
    deltas: &mut [RelaxDelta],
    len: &mut usize,
) -> u32 {
    if kept.len() != items.len() || deltas.len() != items.len() {
        return Status::DifferentLengths as u32;
    }
    *len = write_deltas(items, kept, deltas);
    Status::Success as u32
}

/// The delta of an item of which n bytes stay, after deletions of n bytes.
#[inline(always)]
fn delta_of(item: &ItemNumbers, stay: u64, before: u64) -> RelaxDelta {
    let bytes_deleted = item.len - stay as u32;
    RelaxDelta {
        input_offset: item.offset.saturating_add(stay),
        cumulative_deleted: before.saturating_add(u64::from(bytes_deleted)),
        bytes_deleted,
    }
}

fn write_deltas(items: &[ItemNumbers], kept: &[u64], deltas: &mut [RelaxDelta]) -> usize {
    let mut cumulative_deleted = 0;
    let mut count = 0;
    for index in 0..items.len() {
        let item = &items[index];
        let stay = kept[index];
        if stay < u64::from(item.len) {
            let delta = delta_of(item, stay, cumulative_deleted);
            cumulative_deleted = delta.cumulative_deleted;
            deltas[count] = delta;
            count += 1;
        }
    }
    count
}
