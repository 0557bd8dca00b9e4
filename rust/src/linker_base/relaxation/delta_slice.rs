// SPDX-License-Identifier: MIT OR Apache-2.0
// Made by tools/generate of crates/linker_base/src/relaxation/delta_slice.rt.
//! Deltas that anyone owns, and the heads of their blocks.

use super::RelaxDelta;
use super::blocks::{BLOCK_LEN, BlockHead, count_blocks, write_heads};
use super::overlap::{self, AsDeletion, are_valid, lower, next_of};
use super::search::{Level, Probe, Test, count_passing};
use super::walk::Reached;

/// A borrowed list of deltas, of any contents, and the heads of their blocks, or none.
///
/// Each call is safe for any deltas and heads. What it returns is specified where the deltas are
/// valid: they list deletions as [`SectionRelaxDeltas::new`](crate::relaxation::SectionRelaxDeltas::new) requires them, each with the sum of the
/// bytes up to it. Searches also need the heads to be those that `write_heads` writes, if there
/// are any.
#[derive(Debug, Clone, Copy, PartialEq, Eq, Hash)]
pub struct DeltaSlice<'a> {
    deltas: &'a [RelaxDelta],
    heads: &'a [BlockHead],
}

impl<'a> Probe for DeltaSlice<'a> {
    #[inline(always)]
    fn len(&self) -> usize {
        self.deltas.len()
    }

    #[inline(always)]
    fn read(&mut self, level: Level, at: usize) -> BlockHead {
        match level {
            Level::Deltas => BlockHead::of(&self.deltas[at]),
            Level::Heads => match self.heads.get(at) {
                Some(head) => *head,
                None => BlockHead::of(&self.deltas[BLOCK_LEN * at]),
            },
        }
    }
}

impl<'a> DeltaSlice<'a> {
    /// The deltas as a slice that translates offsets.
    #[must_use]
    #[inline(always)]
    pub fn new(deltas: &'a [RelaxDelta]) -> DeltaSlice<'a> {
        DeltaSlice { deltas, heads: &[] }
    }

    // Requires as many heads as blocks, or none.
    #[inline(always)]
    pub(super) fn over(deltas: &'a [RelaxDelta], heads: &'a [BlockHead]) -> DeltaSlice<'a> {
        DeltaSlice { deltas, heads }
    }

    // The same lists.
    #[inline(always)]
    fn copy(&self) -> DeltaSlice<'a> {
        DeltaSlice {
            deltas: self.deltas,
            heads: self.heads,
        }
    }

    /// The deltas.
    #[must_use]
    #[inline(always)]
    pub fn deltas(&self) -> &'a [RelaxDelta] {
        self.deltas
    }

    /// Whether the deltas are valid: they list deletions as [`SectionRelaxDeltas::new`](crate::relaxation::SectionRelaxDeltas::new) requires
    /// them, each with the sum of the bytes up to it. O(n).
    #[must_use]
    pub fn has_valid_deltas(&self) -> bool {
        are_valid(self.deltas) && have_sums(self.deltas)
    }

    /// How many blocks of [`BLOCK_LEN`](crate::relaxation::BLOCK_LEN) deltas there are; the last may be shorter.
    #[must_use]
    #[inline]
    pub fn block_count(&self) -> usize {
        count_blocks(self.deltas.len())
    }

    /// Writes the head of each block, in order. Requires as many heads as blocks.
    ///
    /// # Requires
    ///
    /// - `heads.len() == self.block_count()`
    #[cfg_attr(debug_assertions, track_caller)]
    pub fn write_heads(&self, heads: &mut [BlockHead]) {
        debug_assert!(heads.len() == self.block_count());
        write_heads(self.deltas, heads);
    }

    /// The deltas with these heads of their blocks, or none where they aren't as many as blocks.
    #[must_use]
    #[inline(always)]
    pub fn with_heads(&self, heads: &'a [BlockHead]) -> Option<DeltaSlice<'a>> {
        if heads.len() != self.block_count() {
            return None;
        }
        Some(DeltaSlice::over(self.deltas(), heads))
    }

    /// How many deltas there are.
    #[must_use]
    #[inline]
    pub fn len(&self) -> usize {
        self.deltas.len()
    }

    /// Whether nothing is listed. A deletion of no bytes counts as listed.
    #[must_use]
    #[inline]
    pub fn is_empty(&self) -> bool {
        self.deltas.is_empty()
    }

    /// The bytes that all deletions take together.
    #[must_use]
    #[inline]
    pub fn total_deleted(&self) -> u64 {
        bytes_of_first(self.deltas(), self.len())
    }

    // How many deltas lie at offsets strictly below `offset`.
    #[inline(always)]
    pub(crate) fn count_below(&self, offset: u64) -> usize {
        count_passing(&mut self.copy(), Test::BeginsBelow(offset))
    }

    // The delta at the offset, if one is listed there. By itself: its search is compiled once.
    #[inline(never)]
    fn delta_at(&self, offset: u64) -> Option<RelaxDelta> {
        let below = self.count_below(offset);
        let deltas = self.deltas();
        if below < deltas.len() && deltas[below].input_offset == offset {
            Some(deltas[below])
        } else {
            None
        }
    }

    /// Whether a deletion is listed at the offset, be it one of no bytes. O(log n).
    #[must_use]
    #[inline]
    pub fn has_delta_at(&self, offset: u64) -> bool {
        self.delta_at(offset).is_some()
    }

    /// The bytes that are deleted at the offset: 0 where no deletion is listed there. O(log n).
    #[must_use]
    #[inline]
    pub fn delta_bytes_at(&self, offset: u64) -> u32 {
        match self.delta_at(offset) {
            Some(delta) => delta.bytes_deleted,
            None => 0,
        }
    }

    /// How many kept bytes lie below `input_offset`, which is the offset in the output section of
    /// what is there. For an offset inside a deletion it is that of what follows the deletion.
    /// O(log n).
    #[must_use]
    #[inline(always)]
    pub fn input_to_output_offset(&self, input_offset: u64) -> u64 {
        rank_past(self.deltas(), self.count_below(input_offset), input_offset)
    }

    /// The output offset of the `len` bytes from `input_offset` on, or none where one of them is
    /// deleted. Two searches, O(log n).
    ///
    /// # Requires
    ///
    /// - `(input_offset as u128) + (len as u128) < 1 << 64`
    #[inline]
    #[must_use]
    #[cfg_attr(debug_assertions, track_caller)]
    pub fn kept_output_offset(&self, input_offset: u64, len: u64) -> Option<u64> {
        debug_assert!((input_offset as u128) + (len as u128) < 1 << 64);
        let first = self.input_to_output_offset(input_offset);
        let past = self.input_to_output_offset(input_offset + len);
        if past.wrapping_sub(first) == len {
            Some(first)
        } else {
            None
        }
    }

    /// Whether the offset lies above the first byte of a deletion and below its end. O(log n).
    #[must_use]
    pub fn is_inside(&self, input_offset: u64) -> bool {
        match self.count_below(input_offset).checked_sub(1) {
            Some(last) => {
                let delta = self.deltas()[last];
                input_offset.wrapping_sub(delta.input_offset) < u64::from(delta.bytes_deleted)
            }
            None => false,
        }
    }

    // The bytes that are deleted before the kept byte at an output offset.
    #[inline(always)]
    pub(super) fn bytes_before(&self, output_offset: u64) -> u64 {
        let placed = count_passing(&mut self.copy(), Test::IsPlacedUpTo(output_offset));
        bytes_of_first(self.deltas(), placed)
    }

    /// The offset in the input section of the kept byte at `output_offset`, or none where that is
    /// above `u64::MAX`. O(log n).
    #[must_use]
    #[inline(always)]
    pub fn output_to_input_offset(&self, output_offset: u64) -> Option<u64> {
        output_offset.checked_add(self.bytes_before(output_offset))
    }

    /// As `input_to_output_offset`, with these heads of the blocks. It ignores them where they
    /// aren't as many as blocks. O(log n).
    #[must_use]
    #[inline(always)]
    pub fn input_to_output_by_heads(&self, heads: &'a [BlockHead], input_offset: u64) -> u64 {
        match self.with_heads(heads) {
            Some(slice) => slice.input_to_output_offset(input_offset),
            None => self.input_to_output_offset(input_offset),
        }
    }

    /// As `output_to_input_offset`, with these heads of the blocks. It ignores them where they
    /// aren't as many as blocks. O(log n).
    #[must_use]
    #[inline(always)]
    pub fn output_to_input_by_heads(
        &self,
        heads: &'a [BlockHead],
        output_offset: u64,
    ) -> Option<u64> {
        match self.with_heads(heads) {
            Some(slice) => slice.output_to_input_offset(output_offset),
            None => self.output_to_input_offset(output_offset),
        }
    }

    /// Writes the output offset of each of the queries, in order, in one walk through the deltas:
    /// O(n + q). What is written is specified where `can_translate_all` accepts the queries.
    ///
    /// # Requires
    ///
    /// - `queries.len() == out.len()`
    #[cfg_attr(debug_assertions, track_caller)]
    #[inline]
    pub fn translate_all(&self, queries: &[u64], out: &mut [u64]) {
        debug_assert!(queries.len() == out.len());
        Reached::new(self.deltas()).walk(queries, out);
    }

    /// Whether the queries don't decrease.
    #[must_use]
    #[inline]
    pub fn can_translate_all(queries: &[u64]) -> bool {
        queries.is_sorted()
    }

    /// Whether the additional deletions, in any order, may be merged: each ends at `u64::MAX` or
    /// below, and of any two deletions, of the list or additional, one has the lower offset and
    /// does not reach past the other's.
    ///
    /// It doesn't allocate. For k deletions and n deltas the work is O(k log n + k) where the
    /// deletions ascend or descend, as a pass over a section makes them, and else O(k log n + p k
    /// log k) for p parts of them: runs of 1,024 or more that ascend, and where no such run begins
    /// 1,024 deletions, which are sorted on the stack, in 16 KB.
    #[must_use]
    pub fn can_merge<D: AsDeletion>(&self, additional: &[D]) -> bool {
        overlap::can_be_merged(self.deltas(), additional)
    }

    /// As `can_merge`, in O(k log k + k log n) where there is memory for a copy of the deletions,
    /// which is sorted. Those that ascend or descend, and 1,024 or fewer, aren't copied.
    #[must_use]
    pub fn can_merge_sorted<D: AsDeletion>(&self, additional: &[D]) -> bool {
        overlap::can_be_merged_sorted(self.deltas(), additional)
    }

    /// The index of the first of the additional deletions, in any order, that can't be merged: it
    /// ends above `u64::MAX`, or overlaps a deletion of the list or an earlier additional one. None
    /// where all can be merged.
    ///
    /// Copies of the first deletions are sorted, where there is memory for them: O(k log k + k log
    /// n) where all can be merged, and else log k times as much. Deletions that ascend or descend,
    /// and 1,024 or fewer, aren't copied.
    #[must_use]
    pub fn first_overlapping_sorted<D: AsDeletion>(
        &self,
        additional: &[D],
    ) -> Option<usize> {
        overlap::first_overlapping_sorted(self.deltas(), additional)
    }

    /// Whether the list's deletions and the additional ones are two valid lists of which no two
    /// deletions overlap, as `merge_ascending` requires them.
    ///
    /// It doesn't allocate. For k deletions and n deltas the work is O(n + k log n).
    #[must_use]
    pub fn can_merge_ascending<D: AsDeletion>(&self, additional: &[D]) -> bool {
        overlap::are_valid_together(self.deltas(), additional)
    }

    /// Writes the deltas of the list's deletions and the additional ones, sorted, with sums made
    /// anew.
    ///
    /// It doesn't allocate. For k deletions and n deltas the work is O(n + k). Requires
    /// deletions that `can_merge_ascending` accepts, and `merged` as long as both.
    ///
    /// # Requires
    ///
    /// - places: `(merged.len() as u128) == (self.len() as u128) + (additional.len() as u128)`
    /// - valid: `self.can_merge_ascending(additional)`
    #[cfg_attr(debug_assertions, track_caller)]
    pub fn merge_ascending<D: AsDeletion>(&self, additional: &[D], merged: &mut [RelaxDelta]) {
        debug_assert!((merged.len() as u128) == (self.len() as u128) + (additional.len() as u128));
        debug_assert!(self.can_merge_ascending(additional));
        let deltas = self.deltas();
        let (mut passed, mut taken, mut bytes) = (0, 0, 0);
        while passed < deltas.len() && taken < additional.len() {
            let (deletion, is_old) = lower(deltas, additional, passed, taken);
            bytes += u64::from(deletion.1);
            merged[passed + taken] = RelaxDelta {
                input_offset: deletion.0,
                cumulative_deleted: bytes,
                bytes_deleted: deletion.1,
            };
            passed += usize::from(is_old);
            taken += usize::from(!is_old);
        }
        while let Some((deletion, is_old)) = next_of(deltas, additional, passed, taken) {
            bytes += u64::from(deletion.1);
            merged[passed + taken] = RelaxDelta {
                input_offset: deletion.0,
                cumulative_deleted: bytes,
                bytes_deleted: deletion.1,
            };
            passed += usize::from(is_old);
            taken += usize::from(!is_old);
        }
    }
}

// Whether each delta has the sum of the bytes of all up to it.
fn have_sums(deltas: &[RelaxDelta]) -> bool {
    let mut sum = 0;
    for &delta in deltas {
        if delta.cumulative_deleted < sum
            || delta.cumulative_deleted - sum != u64::from(delta.bytes_deleted)
        {
            return false;
        }
        sum = delta.cumulative_deleted;
    }
    true
}

// The bytes that the first `count` deltas delete.
#[inline(always)]
pub(super) fn bytes_of_first(deltas: &[RelaxDelta], count: usize) -> u64 {
    let last = count.wrapping_sub(1);
    if last < deltas.len() {
        deltas[last].cumulative_deleted
    } else {
        0
    }
}

// The rank of an offset by the last delta that begins below it: the greater of the offset and the
// end of that delta, less all bytes that are deleted up to there.
#[inline(always)]
pub(super) fn rank_after(last: RelaxDelta, offset: u64) -> u64 {
    let end = last
        .input_offset
        .wrapping_add(u64::from(last.bytes_deleted));
    offset.max(end).wrapping_sub(last.cumulative_deleted)
}

// The rank of an offset, where n deltas begin below it.
#[inline(always)]
pub(crate) fn rank_past(deltas: &[RelaxDelta], below: usize, offset: u64) -> u64 {
    let last = below.wrapping_sub(1);
    if last < deltas.len() {
        rank_after(deltas[last], offset)
    } else {
        offset
    }
}
