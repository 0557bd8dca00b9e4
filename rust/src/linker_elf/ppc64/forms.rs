// SPDX-License-Identifier: MIT OR Apache-2.0
// Made by tools/generate of crates/linker_elf/src/ppc64/forms.rt.
//! PowerPC64 instructions that hold a value.

use crate::linker_elf::elf::engine::{self, Encoding, Step, Window, form};
use crate::linker_elf::elf::{AnyForm, InstructionForm};
use crate::linker_base::bit_misc::BitRange;

/// PowerPC64 instructions that hold a displacement. The window is 4 bytes, and 8 for `Prefixed`.
/// Every value fits: except for `Prefixed` its bits are in the word where they are in the value,
/// and all other bits are unchanged.
/// Bits are numbered from the least significant one.
#[derive(Debug, Clone, Copy, PartialEq, Eq, Hash, PartialOrd, Ord)]
pub enum Ppc64Form {
    /// D-form, as `addi`: value bits 0 to 15 at bit 0 and up. A signed number of 16 bits (Power
    /// ISA, "D-Form").
    D,
    /// DS-form, as `ld`: value bits 2 to 15 at bit 2 and up. A signed number of 16 bits, whose
    /// lowest two are 0 (Power ISA, "DS-Form").
    Ds,
    /// B-form, as `bc`: value bits 2 to 15 at bit 2 and up. A signed distance of 16 bits, whose
    /// lowest two are 0 (Power ISA, "B-Form").
    Branch14,
    /// I-form, as `b`: value bits 2 to 25 at bit 2 and up. A signed distance of 26 bits, whose
    /// lowest two are 0 (Power ISA, "I-Form").
    Branch24,
    /// A prefixed instruction, as `paddi` and `pld`: value bits 16 to 33 at bit 0 and up of word
    /// one, the prefix, and 0 to 15 at bit 0 and up of word two. A signed number of 34 bits (Power
    /// ISA 3.1, "8LS:D-Form" and "MLS:D-Form").
    Prefixed,
    /// D-form with an unsigned immediate, as `oris`: value bits 0 to 15 at bit 0 and up. A number
    /// of 16 bits without a sign (Power ISA, "D-Form", the field UI).
    DUnsigned,
}

/// A form by its name, or with `each` all in the order of their enum.
macro_rules! form_of {
    (D $part:tt) => { form!($part (D Four, 0..16, [0, 0, 16])) };
    (Ds $part:tt) => { form!($part (Ds Four, 2..16, [2, 2, 14])) };
    (Branch14 $part:tt) => { form!($part (Branch14 Four, 2..16, [2, 2, 14])) };
    (Branch24 $part:tt) => { form!($part (Branch24 Four, 2..26, [2, 2, 24])) };
    (Prefixed $part:tt) => { form!($part (Prefixed Eight, 0..34, [0, 32, 16] [16, 0, 18])) };
    (DUnsigned $part:tt) => { form!($part (DUnsigned Four, 0..16, [0, 0, 16])) };
    (each $($part:tt)+) => { form_of!(@ [$($part)+] D Ds Branch14 Branch24 Prefixed DUnsigned) };
    (@ $part:tt $($name:ident)+) => { [$(form_of!($name $part)),+] };
}

pub(super) use form_of;

// Tables, since with a match LLVM would jump by the form.
const CODES: [Encoding; 6] = form_of!(each code);

const STEPS: [[Step; 2]; 6] = form_of!(each 2 steps);

/// The forms by their numbers. A table, since a match becomes a jump by the number where what
/// follows differs by the form.
const FORMS: &[Ppc64Form] = &form_of!(each variant Ppc64Form);

/// The unit of the displacements of DQ-form: the lowest four bits of such a word are others.
pub const DQ_UNIT: u64 = 16;

impl Ppc64Form {
    /// What the form is beside its steps.
    #[inline(always)]
    fn code(self) -> &'static Encoding {
        &CODES[self as usize]
    }

    /// How its bits move.
    #[inline(always)]
    fn steps(self) -> &'static [Step; 2] {
        &STEPS[self as usize]
    }

    /// Writes a value into the instruction that `dest` begins with. Only the form's bits change.
    /// `negative` is ignored.
    ///
    /// # Requires
    ///
    /// - `self.window() <= dest.len()`
    #[cfg_attr(debug_assertions, track_caller)]
    #[inline(always)]
    pub fn write_to_value(self, extracted_value: u64, negative: bool, dest: &mut [u8]) {
        debug_assert!(self.window() <= dest.len());
        let insn = AnyForm::Ppc64(self);
        let (code, steps) = (self.code(), self.steps());
        engine::write(insn, code, steps, extracted_value, negative, dest);
    }

    /// The value in the instruction that `bytes` begins with, unsigned: bits of the value that the
    /// form does not hold are 0. The flag is always false.
    ///
    /// # Requires
    ///
    /// - `self.window() <= bytes.len()`
    #[must_use]
    #[cfg_attr(debug_assertions, track_caller)]
    #[inline]
    pub fn read_value(self, bytes: &[u8]) -> (u64, bool) {
        debug_assert!(self.window() <= bytes.len());
        let insn = AnyForm::Ppc64(self);
        engine::read(insn, self.code(), self.steps(), bytes)
    }

    /// The form with a number, its place in the enum. None above the last.
    #[must_use]
    #[inline(always)]
    pub fn from_number(number: u32) -> Option<Ppc64Form> {
        FORMS.get(number as usize).copied()
    }

    /// Whether an instruction of DQ-form (Power ISA, "DQ-Form") is where one of DS-form is
    /// expected: `lq`, `lxvp`, `stxvp`, `lxv` or `stxv`.
    ///
    /// # Requires
    ///
    /// - `self.window() <= bytes.len()`
    #[doc(hidden)]
    #[must_use]
    #[cfg_attr(debug_assertions, track_caller)]
    #[inline(always)]
    pub fn is_dq_form(self, bytes: &[u8]) -> bool {
        debug_assert!(self.window() <= bytes.len());
        match self {
            Ppc64Form::Ds => {
                let word = Window::Four.load(bytes);
                let opcode = word >> 26;
                opcode == 56 || opcode == 6 || (opcode == 61 && word % 4 == 1)
            }
            _ => false,
        }
    }

    /// The bits that a write of the form may change in the instruction that `bytes` begins with.
    ///
    /// # Requires
    ///
    /// - `self.window() <= bytes.len()`
    #[doc(hidden)]
    #[must_use]
    #[cfg_attr(debug_assertions, track_caller)]
    #[inline]
    pub fn field_mask(self, bytes: &[u8]) -> u64 {
        debug_assert!(self.window() <= bytes.len());
        let mask = self.code().replaced;
        if self.is_dq_form(bytes) {
            mask & !(DQ_UNIT - 1)
        } else {
            mask
        }
    }

    /// Which bits of its number the immediate has.
    #[doc(hidden)]
    #[must_use]
    #[inline]
    pub fn value_bits(self) -> BitRange {
        self.code().bits
    }

    /// Whether the form is that of a branch.
    #[inline(always)]
    pub(crate) fn is_branch(self) -> bool {
        matches!(self, Ppc64Form::Branch14 | Ppc64Form::Branch24)
    }

    /// The number that an instruction gets. The lowest four bits of one of DQ-form are kept: they
    /// aren't its displacement's.
    #[inline(always)]
    pub(crate) fn number_placed(self, number: u64, dest: &[u8]) -> u64 {
        if let Ppc64Form::Ds = self {
            if self.is_dq_form(dest) {
                let word = Window::Four.load(dest);
                return number - number % DQ_UNIT + word % DQ_UNIT;
            }
        }
        number
    }
}

impl InstructionForm for Ppc64Form {
    #[inline]
    fn window(self) -> usize {
        match self {
            Ppc64Form::Prefixed => 8,
            _ => 4,
        }
    }

    #[cfg_attr(debug_assertions, track_caller)]
    #[inline]
    fn fits(self, _value: u64, _bytes: &[u8]) -> bool {
        debug_assert!(self.window() <= _bytes.len());
        true
    }

    #[cfg_attr(debug_assertions, track_caller)]
    #[inline]
    fn write(self, value: u64, negative: bool, dest: &mut [u8]) {
        debug_assert!(self.window() <= dest.len());
        debug_assert!(self.fits(value, dest));
        self.write_to_value(value, negative, dest);
    }

    #[cfg_attr(debug_assertions, track_caller)]
    #[inline]
    fn read(self, bytes: &[u8]) -> (u64, bool) {
        debug_assert!(self.window() <= bytes.len());
        self.read_value(bytes)
    }
}
