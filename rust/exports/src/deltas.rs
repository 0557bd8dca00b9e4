// SPDX-License-Identifier: MIT OR Apache-2.0
// Made by tools/generate of crates/linker_utils_c/src/deltas.rt.
//! Deletions in a section, in arrays of the caller's.
//!
//! Deltas that `linker_utils_deltas_create` or `linker_utils_deltas_merge` wrote are valid: they
//! list deletions. Each call is safe for any deltas, and returns one of the statuses that it names.
//! The contract of what else it returns requires valid ones.

use crate::status::{Status, or_return};
use linker_utils::source::rewriting::Deletion;
use linker_utils::relaxation::{DeltaSlice, RelaxDelta, first_invalid};

/// Whether `linker_utils_deltas_create` accepts the deletions. The error is `InvalidDeletions`, and
/// `faulty` the index of the first that ends above 2^64 - 1 or does not lie past the one before it.
pub fn linker_utils_deletions_valid_nonnull(
    deletions: &[Deletion],
    faulty: &mut usize,
) -> u32 {
    match first_invalid(deletions) {
        None => Status::Success as u32,
        Some(at) => {
            *faulty = at;
            Status::InvalidDeletions as u32
        }
    }
}

/// Writes the deltas of the deletions, as many as these. The first that applies of
/// `InvalidDeletions`, of the deletion at `faulty`, and `DifferentLengths`.
pub fn linker_utils_deltas_create_nonnull(
    deletions: &[Deletion],
    deltas: &mut [RelaxDelta],
    faulty: &mut usize,
) -> u32 {
    if let Some(at) = first_invalid(deletions) {
        *faulty = at;
        return Status::InvalidDeletions as u32;
    }
    if deltas.len() != deletions.len() {
        return Status::DifferentLengths as u32;
    }
    fill(deletions, deltas);
    Status::Success as u32
}

fn fill(deletions: &[Deletion], deltas: &mut [RelaxDelta]) {
    let mut cumulative_deleted = 0;
    for (at, &deletion) in deletions.iter().enumerate() {
        cumulative_deleted += u64::from(deletion.bytes);
        let delta = &mut deltas[at];
        delta.input_offset = deletion.offset;
        delta.cumulative_deleted = cumulative_deleted;
        delta.bytes_deleted = deletion.bytes;
    }
}

/// As `linker_utils_deltas_create`, but the deletions are read once, and after `InvalidDeletions`
/// the deltas may be anything, unless the lengths differ.
pub fn linker_utils_deltas_create_in_one_pass_nonnull(
    deletions: &[Deletion],
    deltas: &mut [RelaxDelta],
    faulty: &mut usize,
) -> u32 {
    if deltas.len() == deletions.len() && fill_valid(deletions, deltas) {
        return Status::Success as u32;
    }
    linker_utils_deltas_create_nonnull(deletions, deltas, faulty)
}

// Writes the deltas while the deletions are valid, and returns whether it wrote all. It also stops
// at a deletion of no bytes at `u64::MAX`, since no offset is left for another.
fn fill_valid(deletions: &[Deletion], deltas: &mut [RelaxDelta]) -> bool {
    let mut from = 0;
    let mut cumulative_deleted = 0;
    for (at, &deletion) in deletions.iter().enumerate() {
        if deletion.offset < from {
            return false;
        }
        let Some(next) = deletion
            .offset
            .checked_add(u64::from(deletion.bytes).max(1))
        else {
            return false;
        };
        from = next;
        cumulative_deleted += u64::from(deletion.bytes);
        let delta = &mut deltas[at];
        delta.input_offset = deletion.offset;
        delta.cumulative_deleted = cumulative_deleted;
        delta.bytes_deleted = deletion.bytes;
    }
    true
}

/// The offset in the output section of what is at an input offset, or, inside a deletion, of
/// what follows that. O(log n).
pub fn linker_utils_deltas_input_to_output_nonnull(
    deltas: &[RelaxDelta],
    input_offset: u64,
) -> u64 {
    DeltaSlice::new(deltas).input_to_output_offset(input_offset)
}

/// The offset in the input section of the kept byte at an output offset. The error is `TooLarge`.
/// O(log n).
pub fn linker_utils_deltas_output_to_input_nonnull(
    deltas: &[RelaxDelta],
    output_offset: u64,
    input_offset: &mut u64,
) -> u32 {
    *input_offset = or_return!(
        DeltaSlice::new(deltas).output_to_input_offset(output_offset),
        TooLarge
    );
    Status::Success as u32
}

/// Whether the deltas are valid: they list deletions that `linker_utils_deltas_create` accepts,
/// each with the sum of the bytes up to it. O(n).
pub fn linker_utils_has_valid_deltas_nonnull(deltas: &[RelaxDelta]) -> bool {
    DeltaSlice::new(deltas).has_valid_deltas()
}

/// The bytes that all deletions take together.
pub fn linker_utils_deltas_total_deleted_nonnull(deltas: &[RelaxDelta]) -> u64 {
    DeltaSlice::new(deltas).total_deleted()
}

/// Writes the output offset of each of the queries, which may not decrease, in one walk through the
/// deltas: O(n + q). The first that applies of `DifferentLengths` and `NotAscending`, where
/// `faulty` is the index of the first query that is less than the one before it.
pub fn linker_utils_deltas_translate_all_nonnull(
    deltas: &[RelaxDelta],
    queries: &[u64],
    outputs: &mut [u64],
    faulty: &mut usize,
) -> u32 {
    if outputs.len() != queries.len() {
        return Status::DifferentLengths as u32;
    }
    if !DeltaSlice::can_translate_all(queries) {
        *faulty = first_decrease(queries);
        return Status::NotAscending as u32;
    }
    DeltaSlice::new(deltas).translate_all(queries, outputs);
    Status::Success as u32
}

// The index of the first query that is less than the one before it.
fn first_decrease(queries: &[u64]) -> usize {
    let mut at = 1;
    while queries[at - 1] <= queries[at] {
        at += 1;
    }
    at
}
