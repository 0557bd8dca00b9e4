// SPDX-License-Identifier: MIT OR Apache-2.0
// Made by tools/generate of crates/linker_utils/src/loongarch64.rt.
//! LoongArch: instruction forms, relaxation rewrites, what relocations mean, and addresses made by
//! five instructions.
//!
#![doc = include_str!("../doc/loongarch64.md")]

mod choices;
mod relaxation_kind;
mod rewrites;

use crate::elf::{RelocationKindInfo, upstream};
pub use choices::{choose, fits, relocations_are_chosen_alike};
use crate::linker_elf::loongarch64 as relocations;
pub use crate::linker_elf::loongarch64::{
    LoongArch64Instruction, LoongArch64Relocation, highest_relocation_with_bias, row,
    write_address_sequence,
};
pub use relaxation_kind::RelaxationKind;
pub use rewrites::RewriteKind;

/// What a relocation means, as `row` says, or `None` for those that the crate `linker-utils` has no
/// row for: `R_LARCH_MARK_LA`, and the GOT entries for TLS by `pcaddi`,
/// `R_LARCH_TLS_LD_PCREL20_S2`, `R_LARCH_TLS_GD_PCREL20_S2` and `R_LARCH_TLS_DESC_PCREL20_S2`. The
/// kind of `R_LARCH_ALIGN` is `None` there, and here.
#[must_use]
#[inline(always)]
pub const fn relocation_type_from_raw(name: LoongArch64Relocation) -> Option<RelocationKindInfo> {
    upstream(relocations::upstream_row(name))
}
