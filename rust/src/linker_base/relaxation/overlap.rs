// SPDX-License-Identifier: MIT OR Apache-2.0
// Made by tools/generate of crates/linker_base/src/relaxation/overlap.rt.
//! Tests of lists of deletions. None allocates but those that sort a copy.
//!
//! Deletions in any order are tested in parts: each part is one that ascends, or a few that are
//! sorted on the stack, and a search in it finds what it overlaps.

use alloc::vec::Vec;
use super::RelaxDelta;
use super::delta_slice::DeltaSlice;
use super::merge::copy_deletions;

/// What records one deletion: a pair of its offset and its bytes, a delta, a caller's own struct.
pub trait AsDeletion: Copy {
    /// The offset of the first deleted byte, and how many bytes are deleted.
    #[must_use]
    fn as_deletion(self) -> (u64, u32);
}

impl AsDeletion for (u64, u32) {
    #[inline(always)]
    fn as_deletion(self) -> (u64, u32) {
        self
    }
}

impl AsDeletion for RelaxDelta {
    #[inline(always)]
    fn as_deletion(self) -> (u64, u32) {
        (self.input_offset, self.bytes_deleted)
    }
}

// Whether the first pair lies below the second: it has a lower offset and does not reach past it.
#[inline(always)]
fn is_before(first: (u64, u32), second: (u64, u32)) -> bool {
    (first.0 < second.0) & (u64::from(first.1) <= second.0.wrapping_sub(first.0))
}

// Whether the pair ends at `u64::MAX` or below.
#[inline(always)]
fn end_fits(pair: (u64, u32)) -> bool {
    u64::from(pair.1) <= u64::MAX - pair.0
}

/// The index of the first deletion that is not valid after those before it: its offset isn't above
/// that of the one before, that one reaches past it, or it ends above `u64::MAX`. None where the
/// list is valid.
#[must_use]
#[inline]
pub fn first_invalid<D: AsDeletion>(deletions: &[D]) -> Option<usize> {
    let rising = count_rising(deletions);
    if rising > 0 && !end_fits(pair_at(deletions, rising - 1)) {
        return Some(rising - 1);
    }
    if rising < deletions.len() {
        return Some(rising);
    }
    None
}

// Whether the list is valid.
#[inline]
pub(super) fn are_valid<D: AsDeletion>(deletions: &[D]) -> bool {
    first_invalid(deletions).is_none()
}

// The deletion at an index.
#[inline(always)]
pub(super) fn pair_at<D: AsDeletion>(deletions: &[D], at: usize) -> (u64, u32) {
    deletions[at].as_deletion()
}

// How many of the first deletions lie each below the next. So all of them but the last fit. Four
// are tested in a turn.
#[inline]
fn count_rising<D: AsDeletion>(deletions: &[D]) -> usize {
    if deletions.is_empty() {
        return 0;
    }
    let mut at = 1;
    while deletions.len() > 3 && at < deletions.len() - 3 && four_rise(deletions, at) {
        at += 4;
    }
    while at < deletions.len() && is_before(pair_at(deletions, at - 1), pair_at(deletions, at)) {
        at += 1;
    }
    at
}

// Whether each of the four deletions from `at` on lies above the one before it.
#[inline(always)]
fn four_rise<D: AsDeletion>(deletions: &[D], at: usize) -> bool {
    let before = pair_at(deletions, at - 1);
    let first = pair_at(deletions, at);
    let second = pair_at(deletions, at + 1);
    let third = pair_at(deletions, at + 2);
    let fourth = pair_at(deletions, at + 3);
    is_before(before, first)
        & is_before(first, second)
        & is_before(second, third)
        & is_before(third, fourth)
}

// The index of the first of the additional deletions that overlaps a delta or an earlier one of
// them, or doesn't fit. Most often it is the first that doesn't ascend; else it is searched for, by
// sorting copies of the first deletions, where there is memory for them.
pub(super) fn first_overlapping_sorted<D: AsDeletion>(
    deltas: &[RelaxDelta],
    additional: &[D],
) -> Option<usize> {
    if can_be_merged_sorted(deltas, additional) {
        return None;
    }
    let (mut low, mut high) = (0, additional.len());
    let mut middle = valid_len(additional).saturating_add(1);
    while high - low > 1 {
        middle = inner_or_middle(middle, low, high);
        if can_be_merged_sorted(deltas, &additional[..middle]) {
            low = middle;
        } else {
            high = middle;
        }
    }
    Some(low)
}

// Whether the deletions are disjoint, and none overlaps a delta. Those that the stack has no room
// for, and that neither ascend nor descend, are copied and sorted where there is memory for them.
pub(super) fn can_be_merged_sorted<D: AsDeletion>(
    deltas: &[RelaxDelta],
    additional: &[D],
) -> bool {
    if additional.len() > SORTED_LEN && !are_valid(additional) && !falls(additional) {
        if let Ok(pairs) = copy_deletions(additional) {
            return can_pairs_be_merged(deltas, pairs);
        }
    }
    can_be_merged(deltas, additional)
}

// The number if it lies between both, else that in their middle.
fn inner_or_middle(number: usize, low: usize, high: usize) -> usize {
    if low < number && number < high {
        return number;
    }
    low + (high - low) / 2
}

// Whether the deletions are disjoint, and none overlaps a delta. Many that ascend are met in a
// walk.
pub(super) fn can_be_merged<D: AsDeletion>(deltas: &[RelaxDelta], additional: &[D]) -> bool {
    if additional.len() > deltas.len() / 16 && rise_together(deltas, additional) {
        return true;
    }
    are_disjoint(additional) && are_beside(deltas, additional)
}

// Whether both are valid lists, and no deletion of one overlaps one of the other. A few among many
// are sooner searched for than met in a walk.
pub(super) fn are_valid_together<D: AsDeletion>(deltas: &[RelaxDelta], additional: &[D]) -> bool {
    if additional.len() > deltas.len() / 16 {
        return rise_together(deltas, additional);
    }
    are_valid(additional) && are_valid(deltas) && can_be_merged(deltas, additional)
}

// The same, by a walk through both. Only at the very end of the offsets are 64 bits too few.
fn rise_together<D: AsDeletion>(deltas: &[RelaxDelta], additional: &[D]) -> bool {
    let (mut passed, mut taken, mut low) = (0, 0, 0);
    while passed < deltas.len() && taken < additional.len() {
        let (deletion, is_old) = lower(deltas, additional, passed, taken);
        let Some(after) = deletion.0.checked_add(u64::from(deletion.1).max(1)) else {
            break;
        };
        if deletion.0 < low {
            return false;
        }
        low = after;
        passed += usize::from(is_old);
        taken += usize::from(!is_old);
    }
    let mut next = u128::from(low);
    while let Some((deletion, is_old)) = next_of(deltas, additional, passed, taken) {
        let begin = u128::from(deletion.0);
        if begin < next || !end_fits(deletion) {
            return false;
        }
        next = begin + u128::from(deletion.1).max(1);
        passed += usize::from(is_old);
        taken += usize::from(!is_old);
    }
    true
}

// The lower of the next deletions of both lists, and whether it is the first list's. Which of both
// it is is unpredictable, and no branch depends on it.
#[inline(always)]
pub(super) fn lower<D: AsDeletion>(
    deltas: &[RelaxDelta],
    additional: &[D],
    passed: usize,
    taken: usize,
) -> ((u64, u32), bool) {
    let old = pair_at(deltas, passed);
    let added = pair_at(additional, taken);
    let is_old = old.0 < added.0;
    (if is_old { old } else { added }, is_old)
}

// The same, also where one list has no more deletions. None where neither has.
#[inline(always)]
pub(super) fn next_of<D: AsDeletion>(
    deltas: &[RelaxDelta],
    additional: &[D],
    passed: usize,
    taken: usize,
) -> Option<((u64, u32), bool)> {
    if passed >= deltas.len() {
        if taken >= additional.len() {
            return None;
        }
        return Some((pair_at(additional, taken), false));
    }
    if taken >= additional.len() {
        return Some((pair_at(deltas, passed), true));
    }
    Some(lower(deltas, additional, passed, taken))
}

// How many of the first deletions make a valid list.
#[inline(always)]
fn valid_len<D: AsDeletion>(deletions: &[D]) -> usize {
    first_invalid(deletions).unwrap_or(deletions.len())
}

// Whether the deletions, in any order, make a valid list once sorted.
fn are_disjoint<D: AsDeletion>(deletions: &[D]) -> bool {
    falls(deletions) || are_disjoint_beside(deletions, &[])
}

// Whether there are deletions, they descend, and each of them fits.
fn falls<D: AsDeletion>(deletions: &[D]) -> bool {
    if deletions.is_empty() {
        return false;
    }
    for at in 1..deletions.len() {
        if !is_before(pair_at(deletions, at), pair_at(deletions, at - 1)) {
            return false;
        }
    }
    end_fits(pair_at(deletions, 0))
}

// Whether the deletion overlaps none of a valid list: the first that isn't below it decides.
fn is_beside<R: AsDeletion>(list: &[R], deletion: (u64, u32)) -> bool {
    let below = list.partition_point(|other| is_before(other.as_deletion(), deletion));
    below == list.len() || is_before(deletion, pair_at(list, below))
}

// Whether no other deletion overlaps one of a valid list.
fn are_beside<R: AsDeletion, D: AsDeletion>(list: &[R], others: &[D]) -> bool {
    others
        .iter()
        .all(|other| is_beside(list, other.as_deletion()))
}

// Whether no other deletion, and no pair of the batches, overlaps one of a valid list.
fn are_apart<R: AsDeletion, D: AsDeletion>(
    list: &[R],
    others: &[D],
    batches: &[Vec<(u64, u32)>],
) -> bool {
    are_beside(list, others) && are_beside_batches(list, batches)
}

// Whether no pair of the batch overlaps one of a valid list.
fn is_batch_beside<R: AsDeletion>(list: &[R], batch: &Vec<(u64, u32)>) -> bool {
    are_beside(list, batch.as_slice())
}

// Whether no pair of the batches overlaps one of a valid list.
fn are_beside_batches<R: AsDeletion>(list: &[R], batches: &[Vec<(u64, u32)>]) -> bool {
    batches.iter().all(|batch| is_batch_beside(list, batch))
}

// Whether the pairs of all batches, in any order, make a valid list once sorted. Pairs that
// ascend, from each batch to the next too, take one pass.
fn are_disjoint_batches(batches: &[Vec<(u64, u32)>]) -> bool {
    if are_ascending(batches) {
        return true;
    }
    for at in 0..batches.len() {
        if !are_disjoint_beside(&batches[at], &batches[at + 1..]) {
            return false;
        }
    }
    true
}

// Whether the deletions, in any order, are disjoint, and none overlaps a pair of the batches.
fn are_disjoint_beside<D: AsDeletion>(deletions: &[D], batches: &[Vec<(u64, u32)>]) -> bool {
    let mut at = 0;
    while at < deletions.len() {
        match first_disjoint(&deletions[at..], batches) {
            Some(count) => at += count,
            None => return false,
        }
    }
    true
}

// How many deletions the stack has room for, in 16 KB.
const SORTED_LEN: usize = 1024;

// How many of the first deletions were tested: they are disjoint, and none overlaps a later one or
// a pair of the batches. None where some deletion overlaps another or a pair, or doesn't fit.
// A long run that ascends is tested as it is, and else a part is sorted.
fn first_disjoint<D: AsDeletion>(deletions: &[D], batches: &[Vec<(u64, u32)>]) -> Option<usize> {
    let rising = valid_len(deletions);
    let count = deletions.len().min(SORTED_LEN);
    if rising < count {
        return are_sorted_apart(deletions, count, batches).then_some(count);
    }
    are_apart(&deletions[..rising], &deletions[rising..], batches).then_some(rising)
}

// Whether the first deletions are disjoint, and none overlaps a later one or a pair of the batches.
// It sorts a copy of them.
fn are_sorted_apart<D: AsDeletion>(
    deletions: &[D],
    count: usize,
    batches: &[Vec<(u64, u32)>],
) -> bool {
    let mut room = [(0, 0); SORTED_LEN];
    let sorted = &mut room[..count];
    copy_first(deletions, count, sorted);
    sorted.sort_unstable_by_key(|pair| pair.0);
    are_valid(sorted) && are_apart(sorted, &deletions[count..], batches)
}

// Writes the first deletions.
fn copy_first<D: AsDeletion>(deletions: &[D], count: usize, pairs: &mut [(u64, u32)]) {
    for at in 0..count {
        pairs[at] = pair_at(deletions, at);
    }
}

// Whether the batches make a valid list, one after the other.
fn are_ascending(batches: &[Vec<(u64, u32)>]) -> bool {
    let mut next = 0;
    for batch in batches {
        for &pair in batch {
            let begin = u128::from(pair.0);
            if begin < next || !end_fits(pair) {
                return false;
            }
            next = begin + u128::from(pair.1).max(1);
        }
    }
    true
}

// Whether the pairs, in any order, can be merged. It sorts them.
fn can_pairs_be_merged(deltas: &[RelaxDelta], pairs: Vec<(u64, u32)>) -> bool {
    let mut sorted = pairs;
    sorted.sort_unstable_by_key(|pair| pair.0);
    if sorted.len() > deltas.len() / 16 {
        return are_valid_together(deltas, sorted.as_slice());
    }
    can_be_merged(deltas, sorted.as_slice())
}

// Whether the pairs of all batches are disjoint, and none overlaps a delta.
pub(super) fn can_batches_be_merged(deltas: &[RelaxDelta], batches: &[Vec<(u64, u32)>]) -> bool {
    are_disjoint_batches(batches) && are_beside_batches(deltas, batches)
}
