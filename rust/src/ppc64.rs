// SPDX-License-Identifier: MIT OR Apache-2.0
// Made by tools/generate of crates/linker_utils/src/ppc64.rt.
//! PowerPC64: instruction forms, what relocations mean, rewrites and their choice, and addresses in
//! two halves.
//!
#![doc = include_str!("../doc/ppc64.md")]

mod choices;
mod instruction;
mod relaxation_kind;
mod rewrites;

use crate::elf::{RelocationKindInfo, upstream};
pub use choices::{choose, fits, relocations_are_chosen_alike};
pub use instruction::Ppc64Instruction;
use crate::linker_elf::ppc64 as relocations;
pub use crate::linker_elf::ppc64::{Ppc64Form, Ppc64Relocation, row, write_ha_lo};
pub use relaxation_kind::RelaxationKind;
pub use rewrites::{RewriteKind, may_be_skipped};

/// What a relocation means, as `row` says, or `None` for those that the crate `linker-utils` has no
/// row for: `R_PPC64_NONE`, absolute addresses (`R_PPC64_ADDR24`, `R_PPC64_ADDR14` and the
/// `R_PPC64_ADDR16` with what follows it), the parts of 64 bits (`_HIGH`, `_HIGHER`, `_HIGHEST` and
/// those with an A), `R_PPC64_TOC16`, `R_PPC64_TOC16_HI`, `R_PPC64_TOC16_DS`, `R_PPC64_REL16`,
/// `R_PPC64_REL16_HI`, `R_PPC64_REL24_NOTOC`, the GOT and PLT entries (`R_PPC64_GOT16` and
/// `R_PPC64_PLT16` with what follows), marks (`R_PPC64_ENTRY`, `R_PPC64_PLTSEQ`, `R_PPC64_PLTCALL`,
/// their `_NOTOC`, and `R_PPC64_PCREL_OPT`), and all prefixed instructions (`R_PPC64_D34`,
/// `R_PPC64_PCREL34` and their like).
#[must_use]
#[inline(always)]
pub const fn relocation_type_from_raw(name: Ppc64Relocation) -> Option<RelocationKindInfo> {
    upstream(relocations::upstream_row(name))
}
