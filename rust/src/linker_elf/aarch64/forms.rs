// SPDX-License-Identifier: MIT OR Apache-2.0
// Made by tools/generate of crates/linker_elf/src/aarch64/forms.rt.
//! AArch64 instructions that hold a value.

use crate::linker_elf::elf::engine::{self, Encoding, Step, Window, form};
use crate::linker_elf::elf::{AnyForm, InstructionForm};
use crate::linker_base::bit_misc::{BitExtraction, BitRange};

/// AArch64 instructions with an immediate (Arm Architecture Reference Manual for A-profile, DDI
/// 0487, C6.2 and C7.2). The window is one instruction of 4 bytes. Except for `Movnz` and
/// `MachOLow12` the value's bits are only ORed into it: the immediate has to be 0 before.
#[derive(Debug, Clone, Copy, PartialEq, Eq, Hash, PartialOrd, Ord)]
pub enum AArch64Instruction {
    /// `adr` and `adrp`: value bits 0 and 1 at bit 29 and up, 2 to 20 at bit 5 and up. Signed 21
    /// bits, in bytes for `adr` and in pages of 4 KiB for `adrp`. Values below 2^21 fit.
    Adr,
    /// `movk` and `movz`: 16 bits at bit 5 and up. The machine reads them unsigned and shifts them
    /// left by the instruction's shift; a read sign-extends them. Values below 2^16 fit.
    Movkz,
    /// `movn` and `movz` of 64 bits: the low 16 bits of the value at bit 5 and up, complemented for
    /// a negative value. The sign sets the opcode. The register, bits 0 to 4, and the shift, bits
    /// 21 and 22, are unchanged. Every value fits.
    Movnz,
    /// LDR (literal): signed 19 bits at bit 5 and up, in units of 4 bytes. Values below 2^19 fit.
    Ldr,
    /// LDR (immediate), unsigned offset: unsigned 12 bits at bit 10 and up, in units of the access
    /// size. Values below 2^12 fit.
    LdrRegister,
    /// ADD (immediate): unsigned 12 bits at bit 10 and up. Values below 2^12 fit.
    Add,
    /// Loads and stores with an unsigned offset: 12 bits at bit 10 and up, in units of the access
    /// size. The machine reads them unsigned; a read sign-extends them. Values below 2^12 fit.
    LdSt,
    /// `tbz` and `tbnz`: signed 14 bits at bit 5 and up, in units of 4 bytes. Values below 2^14
    /// fit.
    TstBr,
    /// `b.cond`, `cbz` and `cbnz`: signed 19 bits at bit 5 and up, in units of 4 bytes. Values
    /// below 2^19 fit.
    Bcond,
    /// `b` and `bl`: signed 26 bits at bit 0 and up, in units of 4 bytes. Values below 2^26 fit.
    JumpCall,
    /// The offset in a page, in bytes, of `add`, loads and stores: value bits scale to scale + 11
    /// at bit 10 and up. The bits below the scale are dropped. The scale is log2 of the access size
    /// of the old instruction, 0 to 4, and 0 for `add`. Values below 2^(12 + scale) fit.
    MachOLow12,
}

/// A form by its name, or with `each` all in the order of their enum.
macro_rules! form_of {
    (Adr $part:tt) => { form!($part
        (Adr Four, 0..21, [0, 29, 2 or] [2, 5, 19 or]; signs: 1 << 20)) };
    (Movkz $part:tt) => { form!($part (Movkz Four, 0..16, [0, 5, 16 or]; signs: 1 << 15)) };
    (Movnz $part:tt) => { form!($part (Movnz Four, 0..16, [0, 5, 16])) };
    (Ldr $part:tt) => { form!($part (Ldr Four, 0..19, [0, 5, 19 or]; signs: 1 << 18)) };
    (LdrRegister $part:tt) => { form!($part (LdrRegister Four, 0..12, [0, 10, 12 or])) };
    (Add $part:tt) => { form!($part (Add Four, 0..12, [0, 10, 12 or])) };
    (LdSt $part:tt) => { form!($part (LdSt Four, 0..12, [0, 10, 12 or]; signs: 1 << 11)) };
    (TstBr $part:tt) => { form!($part (TstBr Four, 0..14, [0, 5, 14 or]; signs: 1 << 13)) };
    (Bcond $part:tt) => { form!($part (Bcond Four, 0..19, [0, 5, 19 or]; signs: 1 << 18)) };
    (JumpCall $part:tt) => { form!($part (JumpCall Four, 0..26, [0, 0, 26 or]; signs: 1 << 25)) };
    (MachOLow12 $part:tt) => { form!($part (MachOLow12 Four, 0..12, [0, 10, 12])) };
    (each $($part:tt)+) => {
        form_of!(
            @ [$($part)+] Adr Movkz Movnz Ldr LdrRegister Add LdSt TstBr Bcond JumpCall MachOLow12
        )
    };
    (@ $part:tt $($name:ident)+) => { [$(form_of!($name $part)),+] };
}

pub(super) use form_of;

// Tables, since with a match LLVM would jump by the form.
const CODES: [Encoding; 11] = form_of!(each code);

const STEPS: [[Step; 2]; 11] = form_of!(each 2 steps);

/// The forms by their numbers. A table, since a match becomes a jump by the number where what
/// follows differs by the form.
const FORMS: &[AArch64Instruction] = &form_of!(each variant AArch64Instruction);

/// The 16 bits and the opcode that `Movnz` writes, the latter where it stands in the instruction
/// (DDI 0487, "MOVN" and "MOVZ").
#[inline(always)]
fn move_bits(value: u64, negative: bool) -> (u64, u64) {
    if negative {
        (!value & 0xffff, 0x9280_0000)
    } else {
        (value & 0xffff, 0xd280_0000)
    }
}

/// The scale of the offset of a load or store: log2 of its access size in bytes. 0 for other
/// instructions (DDI 0487, "Load/store register (unsigned immediate)").
#[inline(always)]
fn scale_of(word: u64) -> u32 {
    if word.extract_bit_range(27..30) != 7 || word.extract_bit_range(24..26) != 1 {
        return 0;
    }
    let size = word.extract_bit_range(30..32) as u32;
    if size == 0 && word.extract_bit(26) == 1 && word.extract_bit(23) == 1 {
        4
    } else {
        size
    }
}

/// The step of an offset's 12 bits, from its scale up.
#[inline(always)]
fn scaled(step: Step, scale: u32) -> [Step; 1] {
    [Step {
        up: step.up - scale,
        ..step
    }]
}

impl AArch64Instruction {
    /// What the form is beside its steps.
    #[inline(always)]
    fn code(self) -> &'static Encoding {
        &CODES[self as usize]
    }

    /// How its bits move.
    #[inline(always)]
    fn steps(self) -> &'static [Step; 2] {
        &STEPS[self as usize]
    }

    /// An instruction with the bits cleared that the form only ORs.
    #[inline(always)]
    pub(crate) fn clear_immediate(self, word: u64) -> u64 {
        word & !self.code().ored
    }

    /// An instruction with a value in the form's bits.
    #[inline(always)]
    pub(crate) fn word_with(self, value: u64, negative: bool, word: u64) -> u64 {
        let (code, steps) = (self.code(), self.steps());
        match self {
            AArch64Instruction::Movnz => {
                let (bits, opcode) = move_bits(value, negative);
                engine::window_with(code.replaced, steps, bits, word & 0x007f_ffff | opcode)
            }
            AArch64Instruction::MachOLow12 => {
                engine::window_with(
                    code.replaced,
                    &scaled(steps[0], scale_of(word)),
                    value,
                    word,
                )
            }
            _ => engine::window_with(code.replaced, steps, value, word),
        }
    }

    /// Writes a value into the instruction that `dest` begins with. Only the form's bits change;
    /// for `Movnz` the opcode too, by `negative`. The other forms ignore `negative`.
    ///
    /// # Requires
    ///
    /// - room: `self.window() <= dest.len()`
    /// - fits: `self.fits(extracted_value, dest)`
    #[cfg_attr(debug_assertions, track_caller)]
    #[inline]
    pub fn write_to_value(self, extracted_value: u64, negative: bool, dest: &mut [u8]) {
        debug_assert!(self.window() <= dest.len());
        debug_assert!(self.fits(extracted_value, dest));
        let word = self.word_with(extracted_value, negative, Window::Four.load(dest));
        Window::Four.store(word, dest);
    }

    /// The value in the instruction that `bytes` begins with, modulo 2^64, and a flag. The flag is
    /// true only for `Movnz` on a `movn`, whose bit 30 is clear: the value is then the complement
    /// of the 16 bits.
    ///
    /// # Requires
    ///
    /// - `self.window() <= bytes.len()`
    #[must_use]
    #[cfg_attr(debug_assertions, track_caller)]
    #[inline]
    pub fn read_value(self, bytes: &[u8]) -> (u64, bool) {
        debug_assert!(self.window() <= bytes.len());
        let (code, steps) = (self.code(), self.steps());
        let word = Window::Four.load(bytes);
        match self {
            AArch64Instruction::Movnz => {
                let moved = engine::number_in(steps, word);
                if word.extract_bit(30) == 0 {
                    (!moved, true)
                } else {
                    (moved, false)
                }
            }
            AArch64Instruction::MachOLow12 => {
                (
                    engine::number_in(&scaled(steps[0], scale_of(word)), word),
                    false,
                )
            }
            _ => engine::read(AnyForm::AArch64(self), code, steps, bytes),
        }
    }

    /// The form with a number, its place in the enum. None above the last.
    #[must_use]
    #[inline(always)]
    pub fn from_number(number: u32) -> Option<AArch64Instruction> {
        FORMS.get(number as usize).copied()
    }

    /// The bits of an instruction that a write of the form may change: of `Movnz` also those of the
    /// opcode except for the size of the register.
    #[doc(hidden)]
    #[must_use]
    #[inline]
    pub fn field_mask(self) -> u64 {
        let code = self.code();
        let opcode = if let AArch64Instruction::Movnz = self {
            0x7f80_0000
        } else {
            0
        };
        code.replaced | code.ored | opcode
    }

    /// Which bits of its number the immediate has.
    #[doc(hidden)]
    #[must_use]
    #[inline]
    pub fn value_bits(self) -> BitRange {
        self.code().bits
    }

    /// Whether the form is that of a branch.
    #[inline(always)]
    pub(crate) fn is_branch(self) -> bool {
        matches!(
            self,
            AArch64Instruction::TstBr | AArch64Instruction::Bcond | AArch64Instruction::JumpCall
        )
    }

    /// Whether an instruction is MOVN or MOVZ of 32 bits, which bit 31 tells.
    #[inline(always)]
    pub(crate) fn is_32_bit_move(self, word: u64) -> bool {
        self == AArch64Instruction::Movnz && word >> 31 == 0
    }
}

/// Whether an instruction is MOVK (DDI 0487, "MOVK").
#[inline(always)]
pub(crate) fn is_movk(word: u64) -> bool {
    (word >> 23) % 256 == 0xe5
}

impl InstructionForm for AArch64Instruction {
    #[inline]
    fn window(self) -> usize {
        4
    }

    #[cfg_attr(debug_assertions, track_caller)]
    #[inline]
    fn fits(self, value: u64, bytes: &[u8]) -> bool {
        debug_assert!(self.window() <= bytes.len());
        match self {
            AArch64Instruction::Movnz => true,
            AArch64Instruction::MachOLow12 => value
                < 1 << (12 + scale_of(Window::Four.load(bytes))),
            _ => value < 1 << self.code().bits.end,
        }
    }

    #[cfg_attr(debug_assertions, track_caller)]
    #[inline]
    fn write(self, value: u64, negative: bool, dest: &mut [u8]) {
        debug_assert!(self.window() <= dest.len());
        debug_assert!(self.fits(value, dest));
        self.write_to_value(value, negative, dest);
    }

    #[cfg_attr(debug_assertions, track_caller)]
    #[inline]
    fn read(self, bytes: &[u8]) -> (u64, bool) {
        debug_assert!(self.window() <= bytes.len());
        self.read_value(bytes)
    }
}
