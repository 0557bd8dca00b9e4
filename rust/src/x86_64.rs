// SPDX-License-Identifier: MIT OR Apache-2.0
// Made by tools/generate of crates/linker_utils/src/x86_64.rt.
//! x86-64: relaxation rewrites, and what relocations mean.
//!
#![doc = include_str!("../doc/x86_64.md")]

mod choices;
mod relaxation_kind;
mod rewrites;

use crate::elf::{RelocationKindInfo, upstream};
pub use choices::{choose, fits};
use crate::linker_elf::x86_64 as relocations;
pub use crate::linker_elf::x86_64::{X86_64Relocation, row};
pub use relaxation_kind::RelaxationKind;
pub use rewrites::{RewriteKind, may_be_skipped};

/// What a relocation means, as `row` says, or `None` for `R_X86_64_TPOFF64`, which the crate
/// `linker-utils` has no row for.
#[must_use]
#[inline(always)]
pub const fn relocation_from_raw(name: X86_64Relocation) -> Option<RelocationKindInfo> {
    upstream(relocations::upstream_row(name))
}
