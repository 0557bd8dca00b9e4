// SPDX-License-Identifier: MIT OR Apache-2.0
// Made by tools/generate of crates/linker_elf/src/riscv64/forms.rt.
//! RISC-V: the immediates of instructions.

use crate::linker_elf::elf::engine::{self, Encoding, Step, form};
use crate::linker_elf::elf::{AnyForm, InstructionForm};
use crate::linker_base::bit_misc::BitRange;

/// RISC-V instructions with an immediate (RISC-V unprivileged ISA, "Immediate Encoding Variants"
/// and "Compressed Instruction Formats"). Every value fits. The window is 4 bytes unless said
/// otherwise. `a..b to c` means: value bits a to b, both included, are at window bits c and up.
#[derive(Debug, Clone, Copy, PartialEq, Eq, Hash, PartialOrd, Ord)]
pub enum RiscVInstruction {
    /// The U-immediate, of `lui` and `auipc`: 12..31 to 12 of the value plus 0x800, because the low
    /// part is signed.
    UType,
    /// The I-immediate, of `addi`, loads and `jalr`: 0..11 to 20, signed.
    IType,
    /// The S-immediate, of stores: 0..4 to 7, 5..11 to 25, signed.
    SType,
    /// The B-immediate, of conditional branches: 11 to 7, 1..4 to 8, 5..10 to 25, 12 to 31. A
    /// signed distance of 13 bits, whose lowest is 0.
    BType,
    /// The J-immediate, of `jal`: 12..19 to 12, 11 to 20, 1..10 to 21, 20 to 31. A signed distance
    /// of 21 bits, whose lowest is 0.
    JType,
    /// The distance of `c.beqz` and `c.bnez`, in 2 bytes: 5 to 2, 1..2 to 3, 6..7 to 5, 3..4 to 10,
    /// 8 to 12. Signed, of 9 bits, whose lowest is 0.
    CbType,
    /// The distance of `c.j`, in 2 bytes: 5 to 2, 1..3 to 3, 7 to 6, 6 to 7, 10 to 8, 8..9 to 9, 4
    /// to 11, 11 to 12. Signed, of 12 bits, whose lowest is 0.
    CjType,
    /// The immediate of `c.lui`, in 2 bytes: of the value plus 0x800, 12..16 to 2 and 17 to 12.
    CluiType,
    /// A `UType` instruction and the `IType` instruction after it, in 8 bytes, as `auipc` with
    /// `jalr`: both parts of one value.
    UiType,
}

/// A form by its name, or with `each` all in the order of their enum.
macro_rules! form_of {
    (UType $part:tt) => { form!($part
        (UType Four, 12..32, [added 0x800: 12, 12, 20]; signs: 1 << 31, rounded: 0x800)) };
    (IType $part:tt) => { form!($part
        (IType Four, 0..12, [0, 20, 12]; signs: 1 << 11, flag: 1 << 11)) };
    (SType $part:tt) => { form!($part
        (SType Four, 0..12, [0, 7, 5] [5, 25, 7]; signs: 1 << 11, flag: 1 << 11)) };
    (BType $part:tt) => { form!($part
        (BType Four, 1..13, [11, 7, 1] [1, 8, 4] [5, 25, 6] [12, 31, 1];
            signs: 1 << 12, flag: 1 << 12)) };
    (JType $part:tt) => { form!($part
        (JType Four, 1..21, [12, 12, 8] [11, 20, 1] [1, 21, 10] [20, 31, 1];
            signs: 1 << 20, flag: 1 << 20)) };
    (CbType $part:tt) => { form!($part
        (CbType Two, 1..9, [5, 2, 1] [1, 3, 2] [6, 5, 2] [3, 10, 2] [8, 12, 1];
            signs: 1 << 8, flag: 1 << 8)) };
    (CjType $part:tt) => { form!($part
        (CjType Two, 1..12, [5, 2, 1] [1, 3, 3] [7, 6, 1] [6, 7, 1; 8, 9, 2; 11, 12, 1]
            [10, 8, 1] [4, 11, 1]; signs: 1 << 11, flag: 1 << 11)) };
    (CluiType $part:tt) => { form!($part
        (CluiType Two, 12..18, [added 0x800: 12, 2, 5] [added 0x800: 17, 12, 1];
            signs: 1 << 17, rounded: 0x800, flag: 1 << 17)) };
    (UiType $part:tt) => { form!($part
        (UiType Eight, 0..32, [added 0x800: 12, 12, 20] [0, 52, 12]; signs: 1 << 31 | 1 << 11)) };
    (each $($part:tt)+) => {
        form_of!(@ [$($part)+] UType IType SType BType JType CbType CjType CluiType UiType)
    };
    (@ [by $value:expr, $form:ident: $done:expr] $($name:ident)+) => {
        match $value {
            $(RiscVInstruction::$name => {
                let $form = RiscVInstruction::$name;
                $done
            })+
        }
    };
    (@ $part:tt $($name:ident)+) => { [$(form_of!($name $part)),+] };
}

pub(super) use form_of;

const CODES: [Encoding; 9] = form_of!(each code);

const STEPS: [[Step; 6]; 9] = form_of!(each 6 steps);

/// The forms by their numbers. A table, since a match becomes a jump by the number where what
/// follows differs by the form.
const FORMS: &[RiscVInstruction] = &form_of!(each variant RiscVInstruction);

impl RiscVInstruction {
    /// What the form is beside its steps.
    #[inline(always)]
    fn code(self) -> &'static Encoding {
        &CODES[self as usize]
    }

    /// How its bits move.
    #[inline(always)]
    fn steps(self) -> &'static [Step; 6] {
        &STEPS[self as usize]
    }

    /// Writes the bits of a value.
    #[inline(always)]
    fn insert_into(self, value: u64, negative: bool, dest: &mut [u8]) {
        let insn = AnyForm::RiscV(self);
        form_of!(
            each by self,
            form: engine::write(insn, form.code(), form.steps(), value, negative, dest)
        );
    }

    /// Writes a value into the instruction that `dest` begins with. Only the form's bits change.
    /// `negative` is ignored.
    ///
    /// `UType`, and `IType` or `SType`, of one value make a pair; `UiType` is both (RISC-V ELF
    /// psABI, "Absolute Addresses" and "PC-Relative Symbol Addresses"). The two instructions add up
    /// to the value modulo 2^32, and to the value itself from -2^31 - 0x800 to 2^31 - 0x801.
    ///
    /// # Requires
    ///
    /// - `self.window() <= dest.len()`
    #[cfg_attr(debug_assertions, track_caller)]
    #[inline]
    pub fn write_to_value(self, extracted_value: u64, negative: bool, dest: &mut [u8]) {
        debug_assert!(self.window() <= dest.len());
        self.insert_into(extracted_value, negative, dest);
    }

    /// The value in the instruction that `bytes` begins with, sign-extended to 64 bits, and whether
    /// it is below 0. For `UType` and `CluiType` it is the least value that gives those bits. For
    /// `CluiType` the flag is whether the immediate itself is below 0; for `UType` and `UiType` it
    /// is false.
    ///
    /// # Requires
    ///
    /// - `self.window() <= bytes.len()`
    #[must_use]
    #[cfg_attr(debug_assertions, track_caller)]
    #[inline(always)]
    pub fn read_value(self, bytes: &[u8]) -> (u64, bool) {
        debug_assert!(self.window() <= bytes.len());
        let insn = AnyForm::RiscV(self);
        form_of!(
            each by self, form: engine::read(insn, form.code(), form.steps(), bytes)
        )
    }

    /// The form with a number, its place in the enum. None above the last.
    #[must_use]
    #[inline(always)]
    pub fn from_number(number: u32) -> Option<RiscVInstruction> {
        FORMS.get(number as usize).copied()
    }

    /// The bits of an instruction, or of a pair, that a write of the form may change.
    #[doc(hidden)]
    #[must_use]
    #[inline]
    pub fn field_mask(self) -> u64 {
        self.code().replaced
    }

    /// Which bits of its number the immediate has.
    #[doc(hidden)]
    #[must_use]
    #[inline]
    pub fn value_bits(self) -> BitRange {
        self.code().bits
    }

    /// Whether the form is that of a branch.
    #[inline(always)]
    pub(crate) fn is_branch(self) -> bool {
        matches!(
            self,
            RiscVInstruction::BType
                | RiscVInstruction::JType
                | RiscVInstruction::CbType
                | RiscVInstruction::CjType
                | RiscVInstruction::UiType
        )
    }
}

/// The lengths of the windows, by the forms' places in their enum. LLVM compiles a match to
/// branches, and a processor may not predict the form.
const WINDOWS: [usize; 9] = form_of!(each window);

impl InstructionForm for RiscVInstruction {
    #[inline]
    fn window(self) -> usize {
        WINDOWS[self as usize]
    }

    #[cfg_attr(debug_assertions, track_caller)]
    #[inline]
    fn fits(self, _value: u64, _bytes: &[u8]) -> bool {
        debug_assert!(self.window() <= _bytes.len());
        true
    }

    #[cfg_attr(debug_assertions, track_caller)]
    #[inline]
    fn write(self, value: u64, negative: bool, dest: &mut [u8]) {
        debug_assert!(self.window() <= dest.len());
        debug_assert!(self.fits(value, dest));
        self.write_to_value(value, negative, dest);
    }

    #[cfg_attr(debug_assertions, track_caller)]
    #[inline(always)]
    fn read(self, bytes: &[u8]) -> (u64, bool) {
        debug_assert!(self.window() <= bytes.len());
        self.read_value(bytes)
    }
}
