// SPDX-License-Identifier: MIT OR Apache-2.0
// Made by tools/generate of crates/linker_base/src/relaxation/merge.rt.
//! Merges: the growth of deltas in place, and lists apart.

use alloc::vec::Vec;
use crate::support::*;
use super::blocks::{BlockHead, count_blocks, count_heads, fill_heads};
use super::delta_slice::bytes_of_first;
use super::overlap::{AsDeletion, are_valid, pair_at};
use super::{OutOfMemory, RelaxDelta};

// How many pairs all batches have, or `usize::MAX` where they are more.
pub(super) fn count_pairs(batches: &[Vec<(u64, u32)>]) -> usize {
    let mut count = 0usize;
    for batch in batches {
        count = count.saturating_add(batch.len());
    }
    count
}

// The pairs of all batches, one batch after the other.
pub(super) fn all_pairs(
    batches: &[Vec<(u64, u32)>],
) -> Result<Vec<(u64, u32)>, OutOfMemory> {
    let mut pairs = Vec::fallible_with_capacity(count_pairs(batches))?;
    for batch in batches {
        pairs.fallible_extend_from_slice(batch)?;
    }
    Ok(pairs)
}

// The deletions as pairs.
pub(super) fn copy_deletions<D: AsDeletion>(
    deletions: &[D],
) -> Result<Vec<(u64, u32)>, OutOfMemory> {
    let mut copy = Vec::fallible_with_capacity(deletions.len())?;
    for at in 0..deletions.len() {
        copy.push_reserved(pair_at(deletions, at));
    }
    Ok(copy)
}

// The pairs in order.
pub(super) fn sorted(pairs: Vec<(u64, u32)>) -> Vec<(u64, u32)> {
    let mut sorted = pairs;
    if !are_valid(&sorted) {
        sorted.sort_unstable_by_key(|pair| pair.0);
    }
    sorted
}

// Adds pairs that ascend, and writes the heads from the first block on that changes. Both grow
// before anything changes.
#[cfg_attr(debug_assertions, track_caller)]
pub(super) fn insert_ascending(
    deltas: &mut Vec<RelaxDelta>,
    heads: &mut Vec<BlockHead>,
    pairs: &[(u64, u32)],
) -> Result<(), OutOfMemory> {
    debug_assert!(super::DeltaSlice::new(deltas).can_merge_ascending(pairs));
    let count = deltas.len();
    deltas.try_reserve(pairs.len())?;
    heads.try_reserve(count_heads(count + pairs.len()).saturating_sub(heads.len()))?;
    let bytes = append(deltas, pairs);
    let kept = merge_in_place(deltas, count, pairs, bytes);
    heads.truncate(count_blocks(kept));
    fill_heads(deltas, heads);
    Ok(())
}

// Appends the pairs to the deltas, with sums of their own bytes alone, and returns the last sum.
pub(super) fn append(deltas: &mut Vec<RelaxDelta>, pairs: &[(u64, u32)]) -> u64 {
    let mut cumulative_deleted = 0u64;
    for &(input_offset, bytes_deleted) in pairs {
        cumulative_deleted = cumulative_deleted.wrapping_add(u64::from(bytes_deleted));
        deltas.push_reserved(RelaxDelta {
            input_offset,
            cumulative_deleted,
            bytes_deleted,
        });
    }
    cumulative_deleted
}

// Merges ascending deletions, of `sum` bytes, and the first `count` deltas, from the back, in
// place: the rest of `merged` is room for as many as the additional ones. Returns how many of the
// first deltas are unchanged. Where many are additional, which of both comes next is unpredictable,
// and no branch depends on it.
#[inline(always)]
fn merge_in_place(
    merged: &mut [RelaxDelta],
    count: usize,
    additional: &[(u64, u32)],
    sum: u64,
) -> usize {
    let mut old = count;
    let mut left = additional.len();
    let mut bytes = sum + bytes_of_first(&merged[..count], count);
    let are_many = left > count / 16;
    while are_many && old > 0 && left > 0 {
        let listed = merged[old - 1].as_deletion();
        let added = additional[left - 1];
        let is_old = added.0 < listed.0;
        let (input_offset, bytes_deleted) = if is_old { listed } else { added };
        merged[old + left - 1] = RelaxDelta {
            input_offset,
            cumulative_deleted: bytes,
            bytes_deleted,
        };
        bytes -= u64::from(bytes_deleted);
        old -= usize::from(is_old);
        left -= usize::from(!is_old);
    }
    while left > 0 {
        let (input_offset, bytes_deleted) = additional[left - 1];
        while old > 0 && input_offset < merged[old - 1].input_offset {
            let delta = merged[old - 1];
            merged[old + left - 1] = RelaxDelta {
                cumulative_deleted: bytes,
                ..delta
            };
            bytes -= u64::from(delta.bytes_deleted);
            old -= 1;
        }
        merged[old + left - 1] = RelaxDelta {
            input_offset,
            cumulative_deleted: bytes,
            bytes_deleted,
        };
        bytes -= u64::from(bytes_deleted);
        left -= 1;
    }
    old
}
