// SPDX-License-Identifier: MIT OR Apache-2.0
// Made by tools/generate of crates/linker_elf/src/loongarch64/forms.rt.
//! LoongArch: the immediates of instructions.

use crate::linker_elf::elf::engine::{self, Encoding, Step, Window, form};
use crate::linker_elf::elf::{AnyForm, InstructionForm};
use crate::linker_base::bit_misc::BitRange;

/// LoongArch instructions with an immediate, and the pairs of long calls (LoongArch Reference
/// Manual, volume 1, "Instruction Encoding"). The window is 4 bytes, and 8 for a pair.
#[derive(Debug, Clone, Copy, PartialEq, Eq, Hash, PartialOrd, Ord)]
pub enum LoongArch64Instruction {
    /// An immediate of 20 bits: value bits 0 to 19 at bit 5 and up. Values below 2^20 fit.
    Shift5,
    /// An immediate of 12 bits at bit 10 and up, or of 16 there: value bits 0 to 11 are replaced,
    /// and 12 to 15 are only ORed at bit 22 and up, where an immediate of 12 bits has its opcode.
    /// Values below 2^16 fit. A read returns bits 0 to 11.
    Shift10,
    /// The offset of `b` and `bl` in units of 4 bytes: value bits 0 to 15 at bit 10 and up, 16 to
    /// 25 at bit 0 and up. Signed, of 26 bits. Values below 2^26 fit.
    Branch26,
    /// The offset of `beqz` and `bnez` in units of 4 bytes: value bits 0 to 15 at bit 10 and up, 16
    /// to 20 at bit 0 and up. Signed, of 21 bits. Values below 2^21 fit.
    Branch21,
    /// The pair of a call of `R_LARCH_CALL30`: value bits 9 to 19 at bit 14 and up of word one,
    /// whose bits 5 to 13 become 0, and 0 to 8 at bit 10 and up of word two. Values below 2^20 fit.
    Call30,
    /// `pcaddu18i` and `jirl`, in units of 4 bytes: bits 16 to 35 of the value plus 0x8000 at bit 5
    /// and up of word one, value bits 0 to 15 at bit 10 and up of word two. 0x8000 is added for the
    /// high part because `jirl` reads the low part signed; a carry out of it is dropped. Values
    /// below 2^36 fit. A read returns the high part times 2^16 plus the signed low part, modulo
    /// 2^36.
    Call36,
}

/// A form by its name, or with `each` all in the order of their enum.
macro_rules! form_of {
    (Shift5 $part:tt) => { form!($part (Shift5 Four, 0..20, [0, 5, 20])) };
    (Shift10 $part:tt) => { form!($part
        (Shift10 Four, 0..16, [0, 10, 12; 12, 22, 4 or]; returned: 0xfff)) };
    (Branch26 $part:tt) => { form!($part
        (Branch26 Four, 0..26, [0, 10, 16] [16, 0, 10]; signs: 1 << 25, flag: 1 << 25)) };
    (Branch21 $part:tt) => { form!($part
        (Branch21 Four, 0..21, [0, 10, 16] [16, 0, 5]; signs: 1 << 20, flag: 1 << 20)) };
    (Call30 $part:tt) => { form!($part (Call30 Eight, 0..20, [9, 14, 11] [0, 42, 9] clear 5, 9)) };
    (Call36 $part:tt) => { form!($part
        (Call36 Eight, 0..36, [added 0x8000: 16, 5, 20] [0, 42, 16];
            signs: 1 << 15, returned: (1 << 36) - 1)) };
    (each $($part:tt)+) => {
        form_of!(@ [$($part)+] Shift5 Shift10 Branch26 Branch21 Call30 Call36)
    };
    (@ $part:tt $($name:ident)+) => { [$(form_of!($name $part)),+] };
}

pub(super) use form_of;

// Tables, since with a match LLVM would jump by the form.
const CODES: [Encoding; 6] = form_of!(each code);

const STEPS: [[Step; 2]; 6] = form_of!(each 2 steps);

/// The forms by their numbers. A table, since a match becomes a jump by the number where what
/// follows differs by the form.
const FORMS: &[LoongArch64Instruction] = &form_of!(each variant LoongArch64Instruction);

/// Whether the immediate of a `Shift10` has 16 bits, where those of a range are taken, and not 12.
#[inline(always)]
fn has_16_bits(bits: BitRange) -> bool {
    bits.end as u32 > bits.start as u32 + 12
}

/// Whether an instruction is `jirl` (LoongArch Reference Manual, volume 1, "JIRL").
#[inline(always)]
pub(crate) fn is_jirl(word: u64) -> bool {
    word >> 26 == 19
}

impl LoongArch64Instruction {
    /// What the form is beside its steps.
    #[inline(always)]
    fn code(self) -> &'static Encoding {
        &CODES[self as usize]
    }

    /// How its bits move.
    #[inline(always)]
    fn steps(self) -> &'static [Step; 2] {
        &STEPS[self as usize]
    }

    /// Writes a value into the instruction or pair that `dest` begins with. Only the form's bits
    /// change. `negative` is ignored.
    ///
    /// # Requires
    ///
    /// - room: `self.window() <= dest.len()`
    /// - fits: `self.fits(extracted_value, dest)`
    #[cfg_attr(debug_assertions, track_caller)]
    #[inline(always)]
    pub fn write_to_value(self, extracted_value: u64, negative: bool, dest: &mut [u8]) {
        debug_assert!(self.window() <= dest.len());
        debug_assert!(self.fits(extracted_value, dest));
        let insn = AnyForm::LoongArch64(self);
        let (code, steps) = (self.code(), self.steps());
        engine::write(insn, code, steps, extracted_value, negative, dest);
    }

    /// The value in the instruction or pair that `bytes` begins with, modulo 2^64, and a flag: for
    /// the branches whether the value is below 0, for the other forms false.
    ///
    /// # Requires
    ///
    /// - `self.window() <= bytes.len()`
    #[must_use]
    #[cfg_attr(debug_assertions, track_caller)]
    #[inline]
    pub fn read_value(self, bytes: &[u8]) -> (u64, bool) {
        debug_assert!(self.window() <= bytes.len());
        match self {
            // the form of most relocations: LLVM makes a shift and a mask of what its table has
            LoongArch64Instruction::Shift10 => LoongArch64Instruction::Shift10.read_by_table(bytes),
            _ => self.read_by_table(bytes),
        }
    }

    // The same of any form.
    #[inline(always)]
    fn read_by_table(self, bytes: &[u8]) -> (u64, bool) {
        let insn = AnyForm::LoongArch64(self);
        engine::read(insn, self.code(), self.steps(), bytes)
    }

    /// The form with a number, its place in the enum. None above the last.
    #[must_use]
    #[inline(always)]
    pub fn from_number(number: u32) -> Option<LoongArch64Instruction> {
        FORMS.get(number as usize).copied()
    }

    /// The bits of an instruction, or of a pair, that a write of the form may change, where those
    /// of a range are taken.
    #[doc(hidden)]
    #[must_use]
    #[inline]
    pub fn field_mask(self, range: BitRange) -> u64 {
        let code = self.code();
        if has_16_bits(range) {
            code.replaced | code.ored
        } else {
            code.replaced
        }
    }

    /// Which bits of its number the immediate has.
    #[doc(hidden)]
    #[must_use]
    #[inline]
    pub fn value_bits(self) -> BitRange {
        self.code().bits
    }

    /// Whether the form is that of a branch, where bits of a range are taken. Other instructions
    /// than branches have an immediate of 12 bits in a `Shift10`.
    #[inline(always)]
    pub(crate) fn is_branch(self, range: BitRange) -> bool {
        match self {
            LoongArch64Instruction::Shift5 => false,
            LoongArch64Instruction::Shift10 => has_16_bits(range),
            LoongArch64Instruction::Branch26
            | LoongArch64Instruction::Branch21
            | LoongArch64Instruction::Call30
            | LoongArch64Instruction::Call36 => true,
        }
    }

    /// Clears the bits of an instruction that the form only ORs. An immediate of 12 bits has its
    /// opcode there.
    #[inline(always)]
    pub(crate) fn clear_immediate(self, range: BitRange, dest: &mut [u8]) {
        if let LoongArch64Instruction::Shift10 = self {
            if has_16_bits(range) {
                let word = Window::Four.load(dest) & !self.code().ored;
                Window::Four.store(word, dest);
            }
        }
    }
}

impl InstructionForm for LoongArch64Instruction {
    #[inline]
    fn window(self) -> usize {
        match self {
            LoongArch64Instruction::Call30 | LoongArch64Instruction::Call36 => 8,
            _ => 4,
        }
    }

    #[cfg_attr(debug_assertions, track_caller)]
    #[inline]
    fn fits(self, value: u64, _bytes: &[u8]) -> bool {
        debug_assert!(self.window() <= _bytes.len());
        value < 1 << self.code().bits.end
    }

    #[cfg_attr(debug_assertions, track_caller)]
    #[inline]
    fn write(self, value: u64, negative: bool, dest: &mut [u8]) {
        debug_assert!(self.window() <= dest.len());
        debug_assert!(self.fits(value, dest));
        self.write_to_value(value, negative, dest);
    }

    #[cfg_attr(debug_assertions, track_caller)]
    #[inline]
    fn read(self, bytes: &[u8]) -> (u64, bool) {
        debug_assert!(self.window() <= bytes.len());
        self.read_value(bytes)
    }
}
