// SPDX-License-Identifier: MIT OR Apache-2.0
// Made by tools/generate of crates/linker_utils/src/riscv64/relaxation_kind.rt.
//! RISC-V: the rewrites of the crate `linker-utils`.

use super::RewriteKind;
use crate::elf::{RelocationKindInfo, RelocationSize};
use crate::rewrite_rows::same_name;
use crate::linker_base::bit_misc::BitExtraction;
use crate::linker_base::relaxation::RelocationModifier;
use crate::linker_elf::elf::{InstructionRewrite, RiscVInstruction};
use crate::linker_elf::riscv64 as relocations;

/// A rewrite that the crate `linker-utils` 0.11.0 has too: the `RewriteKind` of the same name. No
/// variants are added, so that a match of all needs no last arm.
#[derive(Debug, Default, Clone, Copy, PartialEq, Eq, Hash, PartialOrd, Ord)]
pub enum RelaxationKind {
    #[default]
    NoOp,
    ReplaceWithNop,
    CallToJal,
    Hi20ToCLui,
    Hi20Delete,
    Lo12Rs1ToZero,
}

impl RelaxationKind {
    /// The rewrite of the same name, of all that the library has.
    #[must_use]
    #[inline(always)]
    pub fn rewrite_kind(self) -> RewriteKind {
        same_name!(self => NoOp ReplaceWithNop CallToJal Hi20ToCLui Hi20Delete Lo12Rs1ToZero)
    }

    /// Rewrites the instruction at an offset of a section, as `RewriteKind::apply` says.
    ///
    /// # Requires
    ///
    /// - `self.can_apply(section_bytes, *offset_in_section)`
    #[cfg_attr(debug_assertions, track_caller)]
    #[inline(always)]
    pub fn apply(self, section_bytes: &mut [u8], offset_in_section: &mut u64, addend: &mut i64) {
        debug_assert!(self.can_apply(section_bytes, *offset_in_section));
        self.rewrite_kind()
            .apply(section_bytes, offset_in_section, addend);
    }

    /// Whether `apply` may be called at an offset of a section.
    #[must_use]
    #[inline(always)]
    pub fn can_apply(self, section: &[u8], offset: u64) -> bool {
        self.rewrite_kind().can_apply(section, offset)
    }

    /// What happens to the next relocation.
    #[must_use]
    #[inline(always)]
    pub fn next_modifier(&self) -> RelocationModifier {
        self.rewrite_kind().next_modifier()
    }

    /// Whether the high part of a value is 0: bits 12 to 31 of the value plus 0x800, modulo 2^64.
    /// If so, a value of 32 signed bits equals its signed low 12 bits, and `Hi20Delete` with
    /// `Lo12Rs1ToZero` computes it.
    #[must_use]
    #[inline]
    pub fn hi20_is_zero(value: u64) -> bool {
        value.wrapping_add(0x800).extract_bit_range(12..32) == 0
    }

    /// Whether `c.lui` holds the high part of a value: the value plus 0x800, modulo 2^64 and read
    /// signed, divided by 4096 and rounded down, is from -32 to 31 and is not 0. If so, the
    /// immediate of `CluiType`, and also that of `UType`, makes the value with its signed low 12
    /// bits.
    #[must_use]
    #[inline]
    pub fn hi20_fits_clui(value: u64) -> bool {
        // above the least such value, with the bit flipped that parts those below 0 from the others
        let flipped = value.wrapping_add(0x2_0800) ^ 0x2_0000;
        flipped.wrapping_sub(0x1000) < 0x3_f000
    }

    /// Whether a register can be the destination of `c.lui`: neither x0 nor x2, the stack pointer.
    #[must_use]
    #[inline]
    pub fn rd_valid_for_clui(rd: u32) -> bool {
        rd != 0 && rd != 2
    }

    /// What `R_RISCV_HI20` means once its `lui` has become a `c.lui` (`Hi20ToCLui`). Its range is
    /// wider than what `c.lui` holds: `hi20_fits_clui` is the test.
    #[must_use]
    #[inline]
    pub fn clui_rel_info() -> RelocationKindInfo {
        let row = relocations::clui_row().info();
        let bits = RelocationSize::bit_mask_riscv(0, 32, RiscVInstruction::CluiType);
        RelocationKindInfo::of_size(row, bits)
    }
}
