// SPDX-License-Identifier: MIT OR Apache-2.0
// Made by tools/generate of crates/linker_utils/src/relaxation.rt.
//! Deletions that relaxation makes in a section, the offsets of what they leave, and sections that
//! are packed.
//!
#![doc = include_str!("../doc/relaxation.md")]

#[cfg(feature = "riscv64")]
pub use crate::riscv64::{
    AsChoice, Call, PackError, RejectedCall, calls_apart, calls_shrinkable, first_not_apart,
    first_not_shrinkable, pack_into, pack_section, packed_calls_reach_targets, packed_len,
    shrink_calls, shrink_calls_into, shrunk_calls_are_accepted,
};
pub use crate::linker_base::relaxation::{
    AsDeletion, BLOCK_LEN, BlockHead, Counted, DeltaSlice, Looks, OutOfMemory, RelaxCursor,
    RelaxDelta, RelaxDeltaMap, RelocationModifier, SectionRelaxDeltas, first_invalid,
    input_to_output_counted, laws, opt_input_to_output, output_to_input_counted,
};
