// SPDX-License-Identifier: MIT OR Apache-2.0
// Made by tools/generate of crates/linker_utils/src/riscv64.rt.
//! RISC-V: instruction forms, fields of instructions, relaxation rewrites, what relocations mean,
//! and calls that become jumps.
//!
#![doc = include_str!("../doc/riscv64.md")]

mod choices;
mod relaxation_kind;
mod rewrites;

use crate::elf::{RelocationKindInfo, upstream};
pub use choices::{choose, fits, relocations_are_chosen_alike};
pub use crate::linker_base::rewrite::DeletedBytes;
use crate::linker_elf::riscv64 as relocations;
pub use crate::linker_elf::riscv64::{RiscVInstruction, RiscVRelocation, clui_row, row};
pub use crate::linker_riscv64::{
    AsChoice, Call, CallError, JAL_MAX, JAL_MIN, JumpError, LinkRegister, PackError, RejectedCall,
    calls_apart, calls_shrinkable, distance_fits_jal, fields, first_not_apart,
    first_not_shrinkable, is_plain_call, jal_site, jal_site_with, pack_into, pack_section,
    packed_calls_reach_targets, packed_len, relax_call, relax_call_over, shrink_calls,
    shrink_calls_into, shrunk_calls_are_accepted,
};
pub use relaxation_kind::RelaxationKind;
pub use rewrites::{RewriteKind, may_be_skipped};

/// What a relocation means, as `row` says, or `None` for the four of TLS descriptors and for
/// `R_RISCV_RVC_LUI`.
#[must_use]
#[inline(always)]
pub const fn relocation_type_from_raw(name: RiscVRelocation) -> Option<RelocationKindInfo> {
    upstream(relocations::upstream_row(name))
}
