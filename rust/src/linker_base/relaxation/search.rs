// SPDX-License-Identifier: MIT OR Apache-2.0
// Made by tools/generate of crates/linker_base/src/relaxation/search.rt.
//! The search among deltas: by the heads of their blocks, and then in one block.

use super::blocks::{BLOCK_LEN, BlockHead, count_blocks};

/// A test that the first deltas of a valid list pass, and the others fail.
#[derive(Clone, Copy)]
pub(super) enum Test {
    /// It begins strictly below an offset.
    BeginsBelow(u64),
    /// Its output offset, its offset less the bytes deleted before, is at most an offset.
    IsPlacedUpTo(u64),
}

impl Test {
    /// Whether a head passes; a delta passes where the head of a block that begins with it does.
    #[inline(always)]
    fn passes(self, head: BlockHead) -> bool {
        match self {
            Test::BeginsBelow(offset) => head.input_offset < offset,
            Test::IsPlacedUpTo(offset) => head.output_offset <= offset,
        }
    }
}

/// What is searched: the heads of blocks, or the deltas.
#[derive(Clone, Copy)]
pub(super) enum Level {
    Heads,
    Deltas,
}

/// Deltas and heads that are read one at a time. Their contents may be any.
pub(super) trait Probe {
    /// How many deltas there are.
    fn len(&self) -> usize;

    /// A head, or a delta as the head of a block that begins with it. One probe.
    fn read(&mut self, level: Level, at: usize) -> BlockHead;
}

/// Of the first `2 * width` of `count` indexes from `last` on, one of which is the last that
/// passes, the first of those that are left, `width` at most. No probe is taken where no more are
/// there. Where the widths are constants, LLVM compiles a step to a comparison and a choice,
/// without a branch.
#[inline(always)]
fn halve<P: Probe>(
    probe: &mut P,
    level: Level,
    test: Test,
    last: usize,
    count: usize,
    width: usize,
) -> usize {
    if count > 2 * width {
        let middle = last + width;
        let passes = test.passes(probe.read(level, middle));
        return if passes { middle } else { last };
    }
    if count > width {
        let middle = last + (count - width);
        let passes = test.passes(probe.read(level, middle));
        return if passes { middle } else { last };
    }
    last
}

/// Six times `halve`, from the first `64 * width` on. The steps are written out, as LLVM makes a
/// branch of what a loop chooses, and that is mispredicted half the time.
#[inline(always)]
fn narrow<P: Probe>(
    probe: &mut P,
    level: Level,
    test: Test,
    last: usize,
    count: usize,
    width: usize,
) -> usize {
    if count <= width {
        return last;
    }
    let half = halve(probe, level, test, last, count, 32 * width);
    let fourth = halve(probe, level, test, half, count, 16 * width);
    let eighth = halve(probe, level, test, fourth, count, 8 * width);
    let sixteenth = halve(probe, level, test, eighth, count, 4 * width);
    let some = halve(probe, level, test, sixteenth, count, 2 * width);
    halve(probe, level, test, some, count, width)
}

/// Of `len` deltas, the first of which passes, the first of 64, one of which is the last that
/// passes. It takes at most as many probes as there are binary digits in the number of blocks.
#[inline(always)]
fn find_block<P: Probe>(probe: &mut P, test: Test, len: usize) -> usize {
    let (mut last, mut count) = (0, count_blocks(len));
    // Of more heads, a branch that is mispredicted costs less than the wait for memory.
    while count > BLOCK_LEN * BLOCK_LEN {
        let width = count - count / 2;
        last = halve(probe, Level::Heads, test, last, count, width);
        count = width;
    }
    let some = narrow(probe, Level::Heads, test, last, count, BLOCK_LEN);
    let block = narrow(probe, Level::Heads, test, some, count, 1);
    // The last block may be shorter. Its search begins in the one before, so that all are alike.
    (BLOCK_LEN * block).min(len - BLOCK_LEN)
}

/// How many deltas pass. With B blocks it takes at most as many probes as B has binary digits, and
/// seven.
#[inline(always)]
pub(super) fn count_passing<P: Probe>(probe: &mut P, test: Test) -> usize {
    let len = probe.len();
    if len > BLOCK_LEN {
        if !test.passes(probe.read(Level::Heads, 0)) {
            return 0;
        }
        let first = find_block(probe, test, len);
        return narrow(probe, Level::Deltas, test, first, BLOCK_LEN, 1) + 1;
    }
    if len == 0 || !test.passes(probe.read(Level::Heads, 0)) {
        return 0;
    }
    narrow(probe, Level::Deltas, test, 0, len, 1) + 1
}
