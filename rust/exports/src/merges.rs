// SPDX-License-Identifier: MIT OR Apache-2.0
// Made by tools/generate of crates/linker_utils_c/src/merges.rt.
//! Deletions that are merged into deltas.

use alloc::vec::Vec;
use crate::support::*;
use crate::status::Status;
use linker_utils::source::rewriting::Deletion;
use linker_utils::relaxation::{AsDeletion, DeltaSlice, OutOfMemory, RelaxDelta, first_invalid};

/// Whether `linker_utils_deltas_merge` accepts the additional deletions, in any order. The first
/// that applies of `InvalidDeletions`, which the deltas' own are, and `NotMergeable`. For k
/// additional deletions and n deltas the work is O(n) and that of `DeltaSlice::can_merge_sorted`.
pub fn linker_utils_deletions_mergeable_nonnull(
    deltas: &[RelaxDelta],
    additional: &[Deletion],
) -> u32 {
    let slice = DeltaSlice::new(deltas);
    if slice.can_merge_ascending(additional) {
        return Status::Success as u32;
    }
    if let Some(_) = first_invalid(deltas) {
        return Status::InvalidDeletions as u32;
    }
    if !slice.can_merge_sorted(additional) {
        return Status::NotMergeable as u32;
    }
    Status::Success as u32
}

/// Writes the deltas of the old and the additional deletions, sorted, as many as both. The
/// additional ones may come in any order. The first that applies of `DifferentLengths`;
/// `InvalidDeletions`, of the delta at `faulty`; `NotMergeable`, of the additional deletion at
/// `faulty`, which overlaps a delta or an earlier one, or ends above 2^64 - 1; and `OutOfMemory`.
/// Where the additional deletions ascend and can be merged it doesn't allocate, else it allocates
/// one copy of them at a time, and where they can't be merged further ones of the first of them.
/// Where there is no memory for a copy the work is as in `linker_utils_deletions_mergeable`.
pub fn linker_utils_deltas_merge_nonnull(
    deltas: &[RelaxDelta],
    additional: &[Deletion],
    merged: &mut [RelaxDelta],
    faulty: &mut usize,
) -> u32 {
    if merged.len() < deltas.len() || merged.len() - deltas.len() != additional.len() {
        return Status::DifferentLengths as u32;
    }
    let slice = DeltaSlice::new(deltas);
    if slice.can_merge_ascending(additional) {
        slice.merge_ascending(additional, merged);
        return Status::Success as u32;
    }
    match merge_sorted(deltas, additional, merged) {
        Ok(()) => Status::Success as u32,
        Err(MergeError::Invalid(at)) => {
            *faulty = at;
            Status::InvalidDeletions as u32
        }
        Err(MergeError::Overlapping(at)) => {
            *faulty = at;
            Status::NotMergeable as u32
        }
        Err(MergeError::OutOfMemory) => Status::OutOfMemory as u32,
    }
}

// Why additional deletions aren't merged.
enum MergeError {
    // They can be merged.
    OutOfMemory,
    // The index of the first delta that isn't valid after those before it.
    Invalid(usize),
    // The index of the first that can't be merged.
    Overlapping(usize),
}

// Merges deletions in any order: sorted, as keys where all have one, they are tested in the fewest
// steps. Without memory to sort a copy of all, it is sorted copies of the first that are tested, or
// they as they are.
fn merge_sorted(
    deltas: &[RelaxDelta],
    additional: &[Deletion],
    merged: &mut [RelaxDelta],
) -> Result<(), MergeError> {
    if let Some(mut keys) = keys(additional) {
        keys.sort_unstable_by_key(|key| key.bits);
        return merge_copy(deltas, additional, &keys, merged);
    }
    let Ok(mut sorted) = pairs(additional) else {
        return Err(match why_not(deltas, additional) {
            Some(error) => error,
            None => MergeError::OutOfMemory,
        });
    };
    sorted.sort_unstable_by_key(|pair| pair.0);
    merge_copy(deltas, additional, &sorted, merged)
}

// Merges deletions of which there is a sorted copy.
fn merge_copy<D: AsDeletion>(
    deltas: &[RelaxDelta],
    additional: &[Deletion],
    sorted: &[D],
    merged: &mut [RelaxDelta],
) -> Result<(), MergeError> {
    let slice = DeltaSlice::new(deltas);
    if !slice.can_merge_ascending(sorted) {
        if let Some(error) = why_not(deltas, additional) {
            return Err(error);
        }
    }
    slice.merge_ascending(sorted, merged);
    Ok(())
}

// Why the deletions can't be merged, or none where they can.
fn why_not(deltas: &[RelaxDelta], additional: &[Deletion]) -> Option<MergeError> {
    if let Some(at) = first_invalid(deltas) {
        return Some(MergeError::Invalid(at));
    }
    match DeltaSlice::new(deltas).first_overlapping_sorted(additional) {
        Some(at) => Some(MergeError::Overlapping(at)),
        None => None,
    }
}

// A deletion in 64 bits: 40 of its offset, above 24 of how many bytes it is. Such numbers are
// sorted sooner than pairs.
#[derive(Clone, Copy)]
struct Key {
    bits: u64,
}

impl AsDeletion for Key {
    #[inline(always)]
    fn as_deletion(self) -> (u64, u32) {
        (self.bits / 0x100_0000, (self.bits % 0x100_0000) as u32)
    }
}

// The key of a deletion, or none where its offset or how many bytes it is has more bits than that.
#[inline(always)]
fn key_of(deletion: Deletion) -> Option<Key> {
    if deletion.offset >= 0x100_0000_0000 || deletion.bytes >= 0x100_0000 {
        return None;
    }
    Some(Key {
        bits: deletion.offset * 0x100_0000 + u64::from(deletion.bytes),
    })
}

// The keys of the deletions, or none where one has no key or there is no memory for them.
fn keys(deletions: &[Deletion]) -> Option<Vec<Key>> {
    let Ok(mut keys) = Vec::fallible_with_capacity(deletions.len()) else {
        return None;
    };
    for &deletion in deletions {
        let Some(key) = key_of(deletion) else {
            return None;
        };
        keys.push_reserved(key);
    }
    Some(keys)
}

fn pairs<D: AsDeletion>(deletions: &[D]) -> Result<Vec<(u64, u32)>, OutOfMemory> {
    let mut pairs = Vec::fallible_with_capacity(deletions.len())?;
    for deletion in deletions {
        pairs.push_reserved(deletion.as_deletion());
    }
    Ok(pairs)
}
