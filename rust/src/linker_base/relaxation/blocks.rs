// SPDX-License-Identifier: MIT OR Apache-2.0
// Made by tools/generate of crates/linker_base/src/relaxation/blocks.rt.
//! Deltas in blocks of 64, and translations that look at the head of each block first.

use alloc::vec::Vec;
use crate::support::*;
use super::RelaxDelta;
use super::delta_slice::rank_after;
use super::search::{Level, Probe, Test, count_passing};

/// How many deltas a block has. The last block may have fewer.
pub const BLOCK_LEN: usize = 64;

/// The first delta of a block, as far as a search reads it.
#[repr(C)]
#[derive(Debug, Clone, Copy, Hash, PartialEq, Eq)]
pub struct BlockHead {
    /// The input offset of the block's first delta.
    pub input_offset: u64,
    /// Its output offset: the input offset less the bytes of all deletions before.
    pub output_offset: u64,
}

impl BlockHead {
    /// The head of a block that begins with the delta.
    #[inline(always)]
    pub(super) fn of(delta: &RelaxDelta) -> BlockHead {
        BlockHead {
            input_offset: delta.input_offset,
            output_offset: delta
                .input_offset
                .wrapping_add(u64::from(delta.bytes_deleted))
                .wrapping_sub(delta.cumulative_deleted),
        }
    }
}

/// A valid list of deltas of which each look is counted.
#[doc(hidden)]
pub trait Looks {
    /// How many deltas are listed.
    #[must_use]
    fn len(&self) -> usize;

    /// How many looks were taken.
    #[must_use]
    fn count(&self) -> u64;

    /// The input offset and the output offset of the first delta of block `block`, delta
    /// `64 * block`. One look.
    ///
    /// Requires that there is such a delta, and a count below `u64::MAX`.
    ///
    /// # Requires
    ///
    /// - within: `64 * (block as u128) < (Looks::len(self) as u128)`
    /// - room: `(self.count() as u128) + 1 < 1 << 64`
    fn head(&mut self, block: usize) -> (u64, u64);

    /// Delta `index`. One look.
    ///
    /// Requires that there is such a delta, and a count below `u64::MAX`.
    ///
    /// # Requires
    ///
    /// - within: `index < Looks::len(self)`
    /// - room: `(self.count() as u128) + 1 < 1 << 64`
    fn delta(&mut self, index: usize) -> RelaxDelta;
}

impl<K: Looks> Probe for K {
    #[inline(always)]
    fn len(&self) -> usize {
        Looks::len(self)
    }

    #[inline(always)]
    fn read(&mut self, level: Level, at: usize) -> BlockHead {
        match level {
            Level::Heads => {
                let (input_offset, output_offset) = self.head(at);
                BlockHead {
                    input_offset,
                    output_offset,
                }
            }
            Level::Deltas => BlockHead::of(&self.delta(at)),
        }
    }
}

/// The deltas of a section and the heads that it keeps, none of a single block, with a count of the
/// looks at them.
#[doc(hidden)]
pub struct Counted<'a> {
    deltas: &'a [RelaxDelta],
    heads: &'a [BlockHead],
    count: u64,
}

impl<'a> Counted<'a> {
    #[inline(always)]
    pub(super) fn new(deltas: &'a [RelaxDelta], heads: &'a [BlockHead]) -> Counted<'a> {
        Counted {
            deltas,
            heads,
            count: 0,
        }
    }
}

impl<'a> Looks for Counted<'a> {
    #[inline(always)]
    fn len(&self) -> usize {
        self.deltas.len()
    }

    #[inline(always)]
    fn count(&self) -> u64 {
        self.count
    }

    #[cfg_attr(debug_assertions, track_caller)]
    #[inline(always)]
    fn head(&mut self, block: usize) -> (u64, u64) {
        debug_assert!(64 * (block as u128) < (Looks::len(self) as u128));
        debug_assert!((self.count() as u128) + 1 < 1 << 64);
        self.count += 1;
        if self.deltas.len() > BLOCK_LEN {
            let head = self.heads[block];
            return (head.input_offset, head.output_offset);
        }
        // Nothing is deleted before the first delta.
        let first = self.deltas[BLOCK_LEN * block].input_offset;
        (first, first)
    }

    #[cfg_attr(debug_assertions, track_caller)]
    #[inline(always)]
    fn delta(&mut self, index: usize) -> RelaxDelta {
        debug_assert!(index < Looks::len(self));
        debug_assert!((self.count() as u128) + 1 < 1 << 64);
        self.count += 1;
        self.deltas[index]
    }
}

/// Puts the heads of the other blocks after those of the first blocks, if there is more than one.
pub(super) fn fill_heads(deltas: &[RelaxDelta], heads: &mut Vec<BlockHead>) {
    for block in heads.len()..count_heads(deltas.len()) {
        heads.push_reserved(BlockHead::of(&deltas[BLOCK_LEN * block]));
    }
}

/// Writes the head of each block.
pub(super) fn write_heads(deltas: &[RelaxDelta], heads: &mut [BlockHead]) {
    for block in 0..heads.len() {
        heads[block] = BlockHead::of(&deltas[BLOCK_LEN * block]);
    }
}

/// How many blocks n deltas take.
#[inline(always)]
pub(super) fn count_blocks(len: usize) -> usize {
    len / BLOCK_LEN + usize::from(len % BLOCK_LEN > 0)
}

/// How many heads a section keeps of n deltas.
#[inline(always)]
pub(super) fn count_heads(len: usize) -> usize {
    if len > BLOCK_LEN {
        count_blocks(len)
    } else {
        0
    }
}

/// The output offset of `input_offset`, as [`SectionRelaxDeltas::input_to_output_offset`](crate::relaxation::SectionRelaxDeltas::input_to_output_offset) returns it.
///
/// Requires a count of at most `u32::MAX`. With B blocks it takes at most as many looks as B has
/// binary digits, and eight.
///
/// # Requires
///
/// - room: `(looks.count() as u128) < 1 << 32`
#[doc(hidden)]
#[cfg_attr(debug_assertions, track_caller)]
#[inline(always)]
pub fn input_to_output_counted<K: Looks>(looks: &mut K, input_offset: u64) -> u64 {
    debug_assert!((looks.count() as u128) < 1 << 32);
    // What it ensures is that the list is valid.
    let _len = looks.len();
    match count_passing(looks, Test::BeginsBelow(input_offset)).checked_sub(1) {
        Some(last) => rank_after(looks.delta(last), input_offset),
        None => input_offset,
    }
}

/// The input offset of the kept byte at `output_offset`, as
/// [`SectionRelaxDeltas::output_to_input_offset`](crate::relaxation::SectionRelaxDeltas::output_to_input_offset) returns it.
///
/// Requires an offset that `output_fits` accepts, and a count of at most `u32::MAX`. With B blocks
/// it takes at most as many looks as B has binary digits, and eight.
///
/// # Requires
///
/// - fits: the input offset is at most `u64::MAX`, or an addition overflows
/// - room: `(looks.count() as u128) < 1 << 32`
#[doc(hidden)]
#[cfg_attr(debug_assertions, track_caller)]
#[inline(always)]
pub fn output_to_input_counted<K: Looks>(looks: &mut K, output_offset: u64) -> u64 {
    debug_assert!((looks.count() as u128) < 1 << 32);
    // What it ensures is that the list is valid.
    let _len = looks.len();
    match count_passing(looks, Test::IsPlacedUpTo(output_offset)).checked_sub(1) {
        Some(last) => output_offset + looks.delta(last).cumulative_deleted,
        None => output_offset,
    }
}
