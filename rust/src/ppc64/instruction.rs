// SPDX-License-Identifier: MIT OR Apache-2.0
// Made by tools/generate of crates/linker_utils/src/ppc64/instruction.rt.
//! The forms of PowerPC64's instructions that the crate `linker-utils` has.

use crate::linker_elf::elf::InstructionForm;
use crate::linker_elf::ppc64::Ppc64Form;

/// The forms of [`Ppc64Form`](crate::elf::Ppc64Form) that the crate `linker-utils` has too. No variants are added, so that a
/// match of all needs no last arm.
#[derive(Debug, Clone, Copy, PartialEq, Eq, Hash, PartialOrd, Ord)]
pub enum Ppc64Instruction {
    /// As `addi`.
    D,
    /// As `ld`.
    Ds,
    /// As `bc`.
    Branch14,
    /// As `b`.
    Branch24,
}

impl Ppc64Instruction {
    /// The same among all forms.
    #[must_use]
    #[inline(always)]
    pub fn form(self) -> Ppc64Form {
        match self {
            Ppc64Instruction::D => Ppc64Form::D,
            Ppc64Instruction::Ds => Ppc64Form::Ds,
            Ppc64Instruction::Branch14 => Ppc64Form::Branch14,
            Ppc64Instruction::Branch24 => Ppc64Form::Branch24,
        }
    }

    /// A form, if the crate `linker-utils` has it.
    #[must_use]
    #[inline(always)]
    pub const fn of(form: Ppc64Form) -> Option<Ppc64Instruction> {
        match form {
            Ppc64Form::D => Some(Ppc64Instruction::D),
            Ppc64Form::Ds => Some(Ppc64Instruction::Ds),
            Ppc64Form::Branch14 => Some(Ppc64Instruction::Branch14),
            Ppc64Form::Branch24 => Some(Ppc64Instruction::Branch24),
            Ppc64Form::Prefixed | Ppc64Form::DUnsigned => None,
        }
    }

    /// Writes a value into the instruction that `dest` begins with. Only the form's bits change.
    /// `negative` is ignored.
    ///
    /// # Requires
    ///
    /// - `self.window() <= dest.len()`
    #[cfg_attr(debug_assertions, track_caller)]
    #[inline(always)]
    pub fn write_to_value(self, extracted_value: u64, negative: bool, dest: &mut [u8]) {
        debug_assert!(self.window() <= dest.len());
        self.form().write_to_value(extracted_value, negative, dest);
    }

    /// The value in the instruction that `bytes` begins with, unsigned: bits of the value that the
    /// form does not hold are 0. The flag is always false.
    ///
    /// # Requires
    ///
    /// - `self.window() <= bytes.len()`
    #[must_use]
    #[cfg_attr(debug_assertions, track_caller)]
    #[inline]
    pub fn read_value(self, bytes: &[u8]) -> (u64, bool) {
        debug_assert!(self.window() <= bytes.len());
        self.form().read_value(bytes)
    }
}

impl InstructionForm for Ppc64Instruction {
    #[inline]
    fn window(self) -> usize {
        self.form().window()
    }

    #[cfg_attr(debug_assertions, track_caller)]
    #[inline]
    fn fits(self, value: u64, bytes: &[u8]) -> bool {
        debug_assert!(self.window() <= bytes.len());
        self.form().fits(value, bytes)
    }

    #[cfg_attr(debug_assertions, track_caller)]
    #[inline]
    fn write(self, value: u64, negative: bool, dest: &mut [u8]) {
        debug_assert!(self.window() <= dest.len());
        debug_assert!(self.fits(value, dest));
        self.write_to_value(value, negative, dest);
    }

    #[cfg_attr(debug_assertions, track_caller)]
    #[inline]
    fn read(self, bytes: &[u8]) -> (u64, bool) {
        debug_assert!(self.window() <= bytes.len());
        self.read_value(bytes)
    }
}
