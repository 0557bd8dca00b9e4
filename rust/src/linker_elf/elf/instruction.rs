// SPDX-License-Identifier: MIT OR Apache-2.0
// Made by tools/generate of crates/linker_elf/src/elf/instruction.rt.
//! What a form says of an instruction, for all architectures.

use crate::linker_elf::elf::{AnyForm, InstructionForm, of_form};
use crate::linker_base::bit_misc::BitRange;

impl AnyForm {
    /// The bits that a write of a row may change in the instruction that `bytes` begins with, where
    /// those of a range are taken.
    ///
    /// # Requires
    ///
    /// - `self.window() <= bytes.len()`
    #[doc(hidden)]
    #[must_use]
    #[cfg_attr(debug_assertions, track_caller)]
    #[inline]
    pub fn field_mask(self, range: BitRange, bytes: &[u8]) -> u64 {
        debug_assert!(self.window() <= bytes.len());
        match self {
            #[cfg(feature = "aarch64")]
            AnyForm::AArch64(insn) => insn.field_mask(),
            #[cfg(feature = "riscv64")]
            AnyForm::RiscV(insn) => insn.field_mask(),
            #[cfg(feature = "ppc64")]
            AnyForm::Ppc64(insn) => insn.field_mask(bytes),
            #[cfg(feature = "loongarch64")]
            AnyForm::LoongArch64(insn) => insn.field_mask(range),
        }
    }

    /// Which bits of its number an instruction has.
    #[doc(hidden)]
    #[must_use]
    #[inline]
    pub fn value_bits(self) -> BitRange {
        of_form!(self, insn => insn.value_bits())
    }

    /// Whether the value goes into a branch.
    #[inline(always)]
    pub(crate) fn is_branch(self, range: BitRange) -> bool {
        match self {
            #[cfg(feature = "aarch64")]
            AnyForm::AArch64(insn) => insn.is_branch(),
            #[cfg(feature = "riscv64")]
            AnyForm::RiscV(insn) => insn.is_branch(),
            #[cfg(feature = "ppc64")]
            AnyForm::Ppc64(insn) => insn.is_branch(),
            #[cfg(feature = "loongarch64")]
            AnyForm::LoongArch64(insn) => insn.is_branch(range),
        }
    }
}
