// SPDX-License-Identifier: MIT OR Apache-2.0
// Made by tools/generate of crates/linker_riscv64/src/lib.rt.
//! RISC-V: fields of instructions, and calls that become jumps.

mod calls;
pub mod fields;
mod packing;
mod shrinking;

pub use calls::{
    Call, CallError, JAL_MAX, JAL_MIN, JumpError, LinkRegister, distance_fits_jal, is_call_pair,
    is_plain_call, jal_site, jal_site_with, relax_call, relax_call_over,
};
pub use packing::{
    PackError, RejectedCall, calls_apart, first_not_apart, pack_into, pack_section,
    packed_calls_reach_targets, packed_len,
};
pub use shrinking::{
    AsChoice, calls_shrinkable, first_not_shrinkable, shrink_calls, shrink_calls_into,
    shrunk_calls_are_accepted,
};
