// SPDX-License-Identifier: MIT OR Apache-2.0
// Made by tools/generate of crates/linker_utils/src/aarch64.rt.
//! AArch64: instruction forms, relaxation rewrites, and the moves that load a number of 64 bits.
//!
#![doc = include_str!("../doc/aarch64.md")]

mod choices;
mod rewrites;
mod sequences;

use crate::elf::{RelocationKindInfo, upstream};
pub use choices::{choose, fits, is_tls_descriptor_sequence, relocations_are_chosen_alike};
use crate::linker_elf::aarch64 as relocations;
pub use crate::linker_elf::aarch64::{AArch64Instruction, AArch64Relocation, row};
pub use rewrites::{RewriteKind, RewriteKind as RelaxationKind, is_adrp_pair};
pub use sequences::write_mov_sequence;

/// The distance in bytes from the thread pointer to the first TLS block: the thread control block's
/// two words (System V ABI for the Arm 64-bit Architecture, "Thread-local storage").
pub const TLS_TCB_SIZE: u64 = 16;

const _: () = assert!(TLS_TCB_SIZE == 2 * size_of::<u64>() as u64);

/// What a relocation means, as `row` says.
#[must_use]
#[inline(always)]
pub const fn relocation_type_from_raw(name: AArch64Relocation) -> Option<RelocationKindInfo> {
    upstream(relocations::upstream_row(name))
}
