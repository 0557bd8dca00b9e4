// SPDX-License-Identifier: MIT OR Apache-2.0
// Made by tools/generate of crates/linker_base/src/packing.rt.
//! What is packed by deltas that anyone owns: the positions of input offsets,
//! and the bytes that stay.

use crate::linker_base::relaxation::{DeltaSlice, RelaxDelta, rank_past};

/// An input offset, and where it goes by some deltas.
#[derive(Clone, Copy)]
pub struct Position {
    /// The input offset.
    pub input_offset: u64,
    /// How many of the deltas begin below it.
    pub begun: usize,
    /// The output offset.
    pub output_offset: u64,
}

/// How many of the deltas begin below an offset. By itself: the search is compiled once.
#[inline(never)]
fn count_begun(deltas: &[RelaxDelta], offset: u64) -> usize {
    DeltaSlice::new(deltas).count_below(offset)
}

/// The position of an input offset that n of the deltas begin below.
#[inline(always)]
fn position_at(deltas: &[RelaxDelta], begun: usize, input_offset: u64) -> Position {
    Position {
        input_offset,
        begun,
        output_offset: rank_past(deltas, begun, input_offset),
    }
}

/// The position of an input offset, by a search.
///
/// The deltas are as [`SectionRelaxDeltas::deltas`](crate::relaxation::SectionRelaxDeltas::deltas) lists them. With others the call is safe, but
/// what it returns isn't specified.
#[must_use]
pub fn position_of(deltas: &[RelaxDelta], input_offset: u64) -> Position {
    position_at(deltas, count_begun(deltas, input_offset), input_offset)
}

/// The position of an input offset that isn't below that of another position, by a walk from there.
/// Over deltas as `position_of` requires them.
#[must_use]
#[inline(always)]
pub fn position_from(deltas: &[RelaxDelta], from: &Position, input_offset: u64) -> Position {
    let mut begun = from.begun;
    while begun < deltas.len() && deltas[begun].input_offset < input_offset {
        begun += 1;
    }
    position_at(deltas, begun, input_offset)
}

/// The bytes of a section from an input offset up to another, as far as they lie in it.
#[inline(always)]
fn between(section: &[u8], base: u64, from: u64, to: u64) -> &[u8] {
    let len = section.len() as u64;
    let start = (from.saturating_sub(base).min(len)) as usize;
    let end = (to.saturating_sub(base).min(len)) as usize;
    if start < end {
        &section[start..end]
    } else {
        &[]
    }
}

/// Puts bytes at an offset, as far as they fit there, and returns the offset after them.
#[inline(always)]
fn put(packed: &mut [u8], at: usize, bytes: &[u8]) -> usize {
    let len = bytes.len().min(packed.len() - at);
    let end = at + len;
    packed[at..end].copy_from_slice(&bytes[..len]);
    end
}

/// The deltas that begin at the section's base or above, by the index of the first, and the offset
/// after what those before it delete, or the base.
fn first_run(deltas: &[RelaxDelta], base: u64) -> (usize, u64) {
    let first = count_begun(deltas, base);
    if first == 0 {
        return (first, base);
    }
    let before = &deltas[first - 1];
    let end = before
        .input_offset
        .saturating_add(u64::from(before.bytes_deleted));
    (first, end.max(base))
}

/// Copies the bytes of a section that stay. The section begins at the input offset `base`.
///
/// # Requires
///
/// - `(base as u128) + (section.len() as u128) < 1 << 64`
#[cfg_attr(debug_assertions, track_caller)]
pub fn copy_kept(section: &[u8], base: u64, deltas: &[RelaxDelta], packed: &mut [u8]) {
    debug_assert!((base as u128) + (section.len() as u128) < 1 << 64);
    let section_end = base + section.len() as u64;
    let (first, start) = first_run(deltas, base);
    let mut from = start;
    let mut at = 0;
    let following = count_begun(deltas, section_end);
    for index in first..following {
        let delta = &deltas[index];
        at = put(packed, at, between(section, base, from, delta.input_offset));
        from = delta
            .input_offset
            .saturating_add(u64::from(delta.bytes_deleted));
    }
    let _end = put(packed, at, between(section, base, from, section_end));
}
