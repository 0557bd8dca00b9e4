// SPDX-License-Identifier: MIT OR Apache-2.0
// Made by tools/generate of crates/linker_base/src/relaxation.rt.
//! Deletions that relaxation makes in a section, and the offsets of what they leave.

mod blocks;
mod cursor;
mod delta_slice;
#[doc(hidden)]
pub mod laws;
mod map;
mod merge;
mod overlap;
mod search;
mod walk;

use alloc::vec::Vec;
use crate::support::*;
use blocks::{count_heads, fill_heads};
pub use blocks::{
    BLOCK_LEN, BlockHead, Counted, Looks, input_to_output_counted, output_to_input_counted,
};
pub use cursor::RelaxCursor;
pub use delta_slice::DeltaSlice;
pub(crate) use delta_slice::rank_past;
pub use map::RelaxDeltaMap;
use merge::{all_pairs, append, copy_deletions, count_pairs, insert_ascending, sorted};
use overlap::{are_valid, can_batches_be_merged, can_be_merged};
pub use overlap::{AsDeletion, first_invalid};

/// What a linker does with the relocation that follows a rewritten one.
#[derive(Debug, Clone, Copy, PartialEq, Eq, Hash)]
pub enum RelocationModifier {
    /// It is applied as usual.
    Normal,
    /// It is skipped: the rewrite did its work too.
    SkipNextRelocation,
}

/// Out of memory. The call that returns it has changed nothing.
#[derive(Debug, Clone, Copy, PartialEq, Eq, Hash)]
pub struct OutOfMemory;

impl From<AllocError> for OutOfMemory {
    fn from(_error: AllocError) -> OutOfMemory {
        OutOfMemory
    }
}

impl<T> From<AllocFailed<T>> for OutOfMemory {
    fn from(_error: AllocFailed<T>) -> OutOfMemory {
        OutOfMemory
    }
}

/// One deletion in an input section, with the sum of the deletions up to it.
#[repr(C)]
#[derive(Debug, Clone, Copy, PartialEq, Eq, Hash, PartialOrd, Ord)]
pub struct RelaxDelta {
    /// The offset in the input section of the first deleted byte.
    pub input_offset: u64,
    /// The bytes that this deletion and all at lower offsets delete.
    pub cumulative_deleted: u64,
    /// How many bytes are deleted here. A deletion of no bytes is listed all the same.
    pub bytes_deleted: u32,
}

/// The deletions in one input section, by ascending offset.
///
/// Two deletions have different offsets, none reaches past the offset of the next, and each ends
/// at `u64::MAX` or below.
#[derive(Debug, Clone, Default)]
pub struct SectionRelaxDeltas {
    deltas: Vec<RelaxDelta>,
    // None of a single block: a short list allocates once.
    heads: Vec<BlockHead>,
}

impl SectionRelaxDeltas {
    /// The deletions that `raw` lists, each as an offset and a count of bytes.
    ///
    /// It allocates once, twice for more than [`BLOCK_LEN`](crate::relaxation::BLOCK_LEN) deletions, of whose blocks it keeps the
    /// heads, and not at all where `raw` is empty. `is_valid` tests what it requires.
    ///
    /// # Requires
    ///
    /// - `SectionRelaxDeltas::is_valid(raw)`
    #[cfg_attr(debug_assertions, track_caller)]
    pub fn new(raw: &[(u64, u32)]) -> Result<Self, OutOfMemory> {
        debug_assert!(SectionRelaxDeltas::is_valid(raw));
        let mut deltas = Vec::fallible_with_capacity(raw.len())?;
        let mut heads = Vec::fallible_with_capacity(count_heads(raw.len()))?;
        append(&mut deltas, raw);
        fill_heads(&deltas, &mut heads);
        Ok(SectionRelaxDeltas { deltas, heads })
    }

    /// Whether `raw` may be given to `new`: its offsets strictly ascend, no pair reaches past the
    /// offset of the next, and each ends at `u64::MAX` or below.
    #[must_use]
    pub fn is_valid(raw: &[(u64, u32)]) -> bool {
        are_valid(raw)
    }

    /// Adds deletions, each an offset and a count of bytes, in any order.
    ///
    /// What is listed is then as `new` makes it of the old and the additional pairs, sorted. Before
    /// anything changes the list grows, and the heads of its blocks, and pairs that don't ascend
    /// are copied, to be sorted: memory is allocated at most once for each, and not at all where
    /// `additional` is empty. But for that growth, which is O(1) for each pair of many merges, the
    /// work is O(k + m) for k pairs and the m deltas after the first of them, and O(k log k) more
    /// where the pairs don't ascend. `is_mergeable` tests what it requires.
    ///
    /// # Requires
    ///
    /// - `self.is_mergeable(additional)`
    #[cfg_attr(debug_assertions, track_caller)]
    pub fn merge_additional(&mut self, additional: &[(u64, u32)]) -> Result<(), OutOfMemory> {
        let deltas = &mut self.deltas;
        let heads = &mut self.heads;
        if additional.is_empty() {
            return Ok(());
        }
        if are_valid(additional) {
            return insert_ascending(deltas, heads, additional);
        }
        deltas.try_reserve(additional.len())?;
        let pairs = sorted(copy_deletions(additional)?);
        insert_ascending(deltas, heads, &pairs)
    }

    /// Whether the pairs may be merged: their ends are at most `u64::MAX`, and of any two
    /// deletions, old or additional, one has the lower offset and does not reach past the other's.
    ///
    /// It doesn't allocate. For k pairs and n deltas the work is O(k log n + k) where the pairs
    /// ascend or descend, as a pass over a section makes them, and else O(k log n + p k log k) for
    /// p parts of the pairs: runs of 1,024 or more that ascend, and where no such run begins 1,024
    /// pairs, which are sorted on the stack, in 16 KB.
    #[must_use]
    pub fn is_mergeable(&self, additional: &[(u64, u32)]) -> bool {
        can_be_merged(&self.deltas, additional)
    }

    /// Adds the deletions of all batches, or of none where it runs out of memory.
    ///
    /// What is listed is then as `new` makes it of the old and all additional pairs, sorted. Before
    /// anything changes the list grows, and the heads of its blocks, and all pairs are copied:
    /// memory is allocated at most once for each, and not at all where no batch has a pair. But for
    /// that growth the work is O(k + m) for k pairs in all batches and the m deltas after the first
    /// of them, and O(k log k) more where the pairs don't ascend, from each batch to the next too.
    /// `are_mergeable` tests what it requires.
    ///
    /// # Requires
    ///
    /// - `self.are_mergeable(batches)`
    #[cfg_attr(debug_assertions, track_caller)]
    pub fn merge_all(&mut self, batches: &[Vec<(u64, u32)>]) -> Result<(), OutOfMemory> {
        let deltas = &mut self.deltas;
        let heads = &mut self.heads;
        let count = count_pairs(batches);
        if count == 0 {
            return Ok(());
        }
        deltas.try_reserve(count)?;
        let pairs = sorted(all_pairs(batches)?);
        insert_ascending(deltas, heads, &pairs)
    }

    /// Whether all batches together may be merged, as `is_mergeable` says of their pairs.
    ///
    /// It doesn't allocate. For k pairs in all batches and n deltas the work is O(k log n + k)
    /// where the pairs ascend, from each batch to the next too, and else O(k log n + p k log k) for
    /// p parts, which `is_mergeable` describes, of the batches: at least one of each batch.
    #[must_use]
    pub fn are_mergeable(&self, batches: &[Vec<(u64, u32)>]) -> bool {
        can_batches_be_merged(&self.deltas, batches)
    }

    /// A copy. It allocates as `new` does.
    pub fn try_clone(&self) -> Result<Self, OutOfMemory> {
        let mut deltas = Vec::fallible_with_capacity(self.deltas.len())?;
        let mut heads = Vec::fallible_with_capacity(self.heads.len())?;
        deltas.fallible_extend_from_slice(&self.deltas)?;
        heads.fallible_extend_from_slice(&self.heads)?;
        Ok(SectionRelaxDeltas { deltas, heads })
    }

    /// The deletions by ascending offset, each with the sum of the bytes up to it.
    #[must_use]
    pub fn deltas(&self) -> &[RelaxDelta] {
        &self.deltas[..]
    }

    /// The deltas, and the heads of their blocks where these are kept, as a slice that translates
    /// offsets too.
    #[must_use]
    #[inline(always)]
    pub fn as_delta_slice(&self) -> DeltaSlice<'_> {
        DeltaSlice::over(&self.deltas, &self.heads)
    }

    /// Whether a deletion is listed at the offset, be it one of no bytes.
    #[must_use]
    pub fn has_delta_at(&self, offset: u64) -> bool {
        self.as_delta_slice().has_delta_at(offset)
    }

    /// The bytes that are deleted at the offset: 0 where no deletion is listed there.
    #[must_use]
    pub fn delta_bytes_at(&self, offset: u64) -> u32 {
        self.as_delta_slice().delta_bytes_at(offset)
    }

    /// Whether nothing is listed. A deletion of no bytes counts as listed.
    #[must_use]
    pub fn is_empty(&self) -> bool {
        self.deltas.is_empty()
    }

    /// The bytes that all deletions take together.
    #[must_use]
    pub fn total_deleted(&self) -> u64 {
        self.as_delta_slice().total_deleted()
    }

    /// How many kept bytes lie below `input_offset`, which is the offset in the output section of
    /// what is there. For an offset inside a deletion it is that of what follows the deletion.
    /// The search takes O(log n).
    #[must_use]
    #[inline(never)]
    pub fn input_to_output_offset(&self, input_offset: u64) -> u64 {
        input_to_output_counted(&mut self.counted(), input_offset)
    }

    /// Whether the offset lies above the first byte of a deletion and below its end.
    #[must_use]
    pub fn is_inside(&self, input_offset: u64) -> bool {
        self.as_delta_slice().is_inside(input_offset)
    }

    /// The output offset of the `len` bytes from `input_offset` on, or none where one of them is
    /// deleted. Two searches, O(log n).
    ///
    /// # Requires
    ///
    /// - `(input_offset as u128) + (len as u128) < 1 << 64`
    #[must_use]
    #[cfg_attr(debug_assertions, track_caller)]
    pub fn kept_output_offset(&self, input_offset: u64, len: u64) -> Option<u64> {
        debug_assert!((input_offset as u128) + (len as u128) < 1 << 64);
        self.as_delta_slice().kept_output_offset(input_offset, len)
    }

    /// The offset in the input section of the kept byte at `output_offset`: that offset and the
    /// bytes of all deletions whose output offset is at most that.
    ///
    /// Requires an offset that `output_fits` accepts. The search takes O(log n).
    ///
    /// # Requires
    ///
    /// - `self.output_fits(output_offset)`
    #[must_use]
    #[cfg_attr(debug_assertions, track_caller)]
    #[inline(never)]
    pub fn output_to_input_offset(&self, output_offset: u64) -> u64 {
        debug_assert!(self.output_fits(output_offset));
        output_to_input_counted(&mut self.counted(), output_offset)
    }

    /// Whether the input offset of the kept byte at `output_offset` is at most `u64::MAX`.
    #[must_use]
    pub fn output_fits(&self, output_offset: u64) -> bool {
        self.as_delta_slice().bytes_before(output_offset) <= u64::MAX - output_offset
    }

    /// The deltas, with a count of the looks at them, 0 so far.
    #[doc(hidden)]
    #[must_use]
    #[inline(always)]
    pub fn counted(&self) -> Counted<'_> {
        Counted::new(&self.deltas, &self.heads)
    }

    /// A cursor before the first deletion.
    #[must_use]
    pub fn cursor(&self) -> RelaxCursor<'_> {
        RelaxCursor::new(&self.deltas)
    }
}

/// `input_to_output_offset` of the deltas, or `input_offset` itself where there are none.
#[must_use]
#[inline]
pub fn opt_input_to_output(deltas: Option<&SectionRelaxDeltas>, input_offset: u64) -> u64 {
    match deltas {
        Some(section) => section.input_to_output_offset(input_offset),
        None => input_offset,
    }
}
