// SPDX-License-Identifier: MIT OR Apache-2.0
// Made by tools/generate of crates/linker_utils_c/src/heads.rt.
//! Heads of the blocks of deltas, in arrays of the caller's. Searches in many deltas are faster
//! with them.
//!
//! Each call is safe for any heads. The contract of what it returns requires those that
//! `linker_utils_deltas_heads` wrote of the same deltas, or a number of them that isn't that of the
//! blocks.

use crate::status::{Status, or_return};
use linker_utils::relaxation::{BlockHead, DeltaSlice, RelaxDelta};

/// How many blocks of 64 the deltas have; the last may be shorter.
pub fn linker_utils_deltas_block_count_nonnull(deltas: &[RelaxDelta]) -> usize {
    DeltaSlice::new(deltas).block_count()
}

/// Writes the heads of the deltas' blocks, as many as `linker_utils_deltas_block_count` returns.
/// The error is `DifferentLengths`.
pub fn linker_utils_deltas_heads_nonnull(
    deltas: &[RelaxDelta],
    heads: &mut [BlockHead],
) -> u32 {
    let deltas = DeltaSlice::new(deltas);
    if heads.len() != deltas.block_count() {
        return Status::DifferentLengths as u32;
    }
    deltas.write_heads(heads);
    Status::Success as u32
}

/// `linker_utils_deltas_input_to_output` of deltas with the heads of their blocks. Where the heads
/// aren't as many as blocks, it searches only the deltas. O(log n).
pub fn linker_utils_deltas_input_to_output_by_heads_nonnull(
    deltas: &[RelaxDelta],
    heads: &[BlockHead],
    input_offset: u64,
) -> u64 {
    DeltaSlice::new(deltas).input_to_output_by_heads(heads, input_offset)
}

/// `linker_utils_deltas_output_to_input` of deltas with the heads of their blocks. The error is
/// `TooLarge`. Where the heads aren't as many as blocks, it searches only the deltas. O(log n).
pub fn linker_utils_deltas_output_to_input_by_heads_nonnull(
    deltas: &[RelaxDelta],
    heads: &[BlockHead],
    output_offset: u64,
    input_offset: &mut u64,
) -> u32 {
    *input_offset = or_return!(
        DeltaSlice::new(deltas).output_to_input_by_heads(heads, output_offset),
        TooLarge
    );
    Status::Success as u32
}
