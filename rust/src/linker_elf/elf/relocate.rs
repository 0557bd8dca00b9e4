// SPDX-License-Identifier: MIT OR Apache-2.0
// Made by tools/generate of crates/linker_elf/src/elf/relocate.rt.
//! Writes the value of a relocation.

#[cfg(feature = "aarch64")]
use crate::linker_elf::aarch64::is_movk;
use crate::linker_elf::elf::engine::Window;
use crate::linker_elf::elf::{
    AnyForm, FormulaError, InstructionForm, RelocationKind, Row, RowInfo, RowSize,
};
#[cfg(feature = "aarch64")]
use crate::linker_elf::elf::AArch64Instruction;
#[cfg(feature = "loongarch64")]
use crate::linker_elf::elf::LoongArch64Instruction;
#[cfg(feature = "riscv64")]
use crate::linker_elf::elf::RiscVInstruction;
#[cfg(feature = "loongarch64")]
use crate::linker_elf::loongarch64::is_jirl;
#[cfg(feature = "ppc64")]
use crate::linker_elf::ppc64::DQ_UNIT;
use crate::linker_base::bit_misc::{BitExtraction, BitRange};

/// Why a relocation's value isn't written.
#[cfg_attr(not(exhaustive), non_exhaustive)]
#[derive(Clone, Copy, PartialEq, Eq, Debug, Hash)]
pub enum RelocateError {
    /// The relocation is one of a pair that computes a ULEB128 number, whose length is not the
    /// row's to know: `utils::write_uleb128` writes it. Or it is `R_LARCH_CALL30`: no manual says
    /// how far its pair of instructions goes.
    Unsupported,
    /// There are fewer bytes than the relocation writes.
    TooShort,
    /// The value isn't a multiple of the row's alignment, or not one of 16 where a PowerPC64
    /// instruction of DQ-form (`lq`, `lxv`, `stxv`, `lxvp`, `stxvp`) is at a relocation of
    /// DS-form, or not one of 4 where a `jirl` is at `R_LARCH_PCALA_LO12`.
    Misaligned,
    /// The value is outside `reach`, or its high part in a `c.lui` is 0.
    OutOfReach,
}

/// Why a relocation isn't applied.
#[cfg_attr(not(exhaustive), non_exhaustive)]
#[derive(Clone, Copy, PartialEq, Eq, Debug, Hash)]
pub enum ApplyError {
    /// It has no value.
    Formula(FormulaError),
    /// Its value isn't written.
    Write(RelocateError),
}

/// The number of the first `len` bytes.
#[inline(always)]
fn load(len: usize, bytes: &[u8]) -> u64 {
    let mut word = [0u8; 8];
    word[..len].copy_from_slice(&bytes[..len]);
    u64::from_le_bytes(word)
}

/// Sets the first `len` bytes to the lowest of a number.
#[inline(always)]
pub(crate) fn store(len: usize, number: u64, bytes: &mut [u8]) {
    // a copy of a known length is one store
    match len {
        8 => bytes[..8].copy_from_slice(&number.to_le_bytes()[..8]),
        4 => bytes[..4].copy_from_slice(&number.to_le_bytes()[..4]),
        _ => bytes[..len].copy_from_slice(&number.to_le_bytes()[..len]),
    }
}

/// The number that a relocation of whole bytes writes over the existing ones.
#[inline(always)]
fn number_over(kind: RelocationKind, len: usize, value: i64, dest: &[u8]) -> u64 {
    let number = value as u64;
    match kind {
        RelocationKind::AbsoluteAddition => load(len, dest).wrapping_add(number),
        RelocationKind::AbsoluteSubtraction => load(len, dest).wrapping_sub(number),
        RelocationKind::AbsoluteSetWord6 => {
            let old = load(len, dest);
            old - old % 64 + number % 64
        }
        RelocationKind::AbsoluteAdditionWord6 => {
            let old = load(len, dest);
            old - old % 64 + old.wrapping_add(number) % 64
        }
        RelocationKind::AbsoluteSubtractionWord6 => {
            let old = load(len, dest);
            old - old % 64 + old.wrapping_sub(number) % 64
        }
        _ => number,
    }
}

/// Writes whole bytes.
#[inline(never)]
pub(crate) fn write_number(kind: RelocationKind, len: usize, value: i64, dest: &mut [u8]) {
    let number = number_over(kind, len, value, dest);
    store(len, number, dest);
}

/// The bits of a value that a relocation takes.
#[inline(always)]
fn taken_bits(bits: BitRange, value: i64) -> u64 {
    (value as u64)
        .extract_bit_range(bits.start as u32..bits.end as u32)
}

/// Writes bits of a number into an instruction.
#[inline(always)]
pub(crate) fn write_field(insn: AnyForm, bits: BitRange, value: i64, dest: &mut [u8]) {
    let number = taken_bits(bits, value);
    let negative = value < 0;
    match insn {
        #[cfg(feature = "aarch64")]
        AnyForm::AArch64(insn) => {
            let old = Window::Four.load(dest);
            let word = insn.word_with(number, negative, insn.clear_immediate(old));
            // a move keeps its size
            let new = if insn.is_32_bit_move(old) {
                word - (1 << 31)
            } else {
                word
            };
            Window::Four.store(new, dest);
        }
        #[cfg(feature = "riscv64")]
        AnyForm::RiscV(insn) => insn.write_to_value(number, negative, dest),
        #[cfg(feature = "ppc64")]
        AnyForm::Ppc64(insn) => {
            let number = insn.number_placed(number, dest);
            insn.write_to_value(number, negative, dest);
        }
        #[cfg(feature = "loongarch64")]
        AnyForm::LoongArch64(insn) => {
            insn.clear_immediate(bits, dest);
            insn.write_to_value(number, negative, dest);
        }
    }
}

/// Whether an instruction is a MOVK, where a row is for MOVN and MOVZ.
#[inline(always)]
fn stays_movk(insn: AnyForm, bits: BitRange, dest: &[u8]) -> bool {
    match insn {
        #[cfg(feature = "aarch64")]
        AnyForm::AArch64(AArch64Instruction::Movnz) => {
            is_movk(Window::Four.load(dest)) && bits.end.saturating_sub(bits.start) < 17
        }
        _ => false,
    }
}

impl AnyForm {
    /// The form in which a row's bits are written: that of MOVK where one stands and the row is for
    /// MOVN and MOVZ, and else the row's.
    ///
    /// # Requires
    ///
    /// - `self.window() <= dest.len()`
    #[doc(hidden)]
    #[must_use]
    #[cfg_attr(debug_assertions, track_caller)]
    #[inline(always)]
    pub fn written_at(self, bits: BitRange, dest: &[u8]) -> AnyForm {
        #[cfg(not(feature = "aarch64"))]
        {
            self
        }
        #[cfg(feature = "aarch64")]
        {
        debug_assert!(self.window() <= dest.len());
        if stays_movk(self, bits, dest) {
            AnyForm::AArch64(AArch64Instruction::Movkz)
        } else {
            self
        }
        }
    }

    /// Whether an instruction is a `jirl`, where a row is for the low 12 bits of an address.
    ///
    /// # Requires
    ///
    /// - `self.window() <= dest.len()`
    #[doc(hidden)]
    #[must_use]
    #[cfg_attr(debug_assertions, track_caller)]
    #[inline(always)]
    pub fn is_low_jump(self, kind: RelocationKind, dest: &[u8]) -> bool {
        debug_assert!(self.window() <= dest.len());
        match self {
            #[cfg(feature = "loongarch64")]
            AnyForm::LoongArch64(LoongArch64Instruction::Shift10) => {
                kind == RelocationKind::AbsoluteLowPart && is_jirl(Window::Four.load(dest))
            }
            _ => false,
        }
    }

    /// The bits of a value that a row's write places: a `jirl` at the low part
    /// of an address gets 16.
    ///
    /// # Requires
    ///
    /// - `self.window() <= dest.len()`
    #[doc(hidden)]
    #[must_use]
    #[cfg_attr(debug_assertions, track_caller)]
    #[inline(always)]
    pub fn placed_bits(self, kind: RelocationKind, bits: BitRange, dest: &[u8]) -> BitRange {
        debug_assert!(self.window() <= dest.len());
        if self.is_low_jump(kind, dest) {
            JUMP_BITS
        } else {
            bits
        }
    }
}

/// The bits of an address's low part that a `jirl` gets.
const JUMP_BITS: BitRange = BitRange { start: 2, end: 18 };

/// The low 12 bits of a value in two's complement.
#[inline(always)]
fn low_part(value: i64) -> i64 {
    let low = taken_bits(BitRange { start: 0, end: 12 }, value);
    low.low_bits_signed(12) as i64
}

/// Writes bits of a value into an instruction: a MOVK stays one, and a `jirl` gets the low part of
/// an address. By itself, so that `write` is small enough to be inlined, and its row is never in
/// memory.
pub(crate) fn write_bits(
    kind: RelocationKind,
    insn: AnyForm,
    bits: BitRange,
    value: i64,
    dest: &mut [u8],
) {
    let form = insn.written_at(bits, dest);
    let (taken, number) = if insn.is_low_jump(kind, dest) {
        (JUMP_BITS, low_part(value))
    } else {
        (bits, value)
    };
    write_field(form, taken, number, dest);
}

/// Whether a value is a multiple of 4, where a `jirl` gets the low part of an address.
#[inline(always)]
fn is_in_words(size: RowSize, kind: RelocationKind, value: i64, dest: &[u8]) -> bool {
    match size {
        RowSize::ByteSize(_) => true,
        RowSize::BitMasking { insn, .. } => {
            !insn.is_low_jump(kind, dest) || value.rem_euclid(4) == 0
        }
    }
}

/// Whether an encoding that isn't reserved holds a value: `c.lui` has no immediate 0.
#[inline(always)]
pub(crate) fn is_encoded(size: RowSize, value: i64) -> bool {
    match size {
        #[cfg(feature = "riscv64")]
        RowSize::BitMasking {
            insn: AnyForm::RiscV(RiscVInstruction::CluiType),
            ..
        } => value < -0x800 || 0x800 <= value,
        _ => true,
    }
}

/// Whether a value is a multiple of 16, where an instruction of DQ-form stands.
#[inline(always)]
fn is_in_units(size: RowSize, value: i64, dest: &[u8]) -> bool {
    match size {
        #[cfg(feature = "ppc64")]
        RowSize::BitMasking {
            insn: AnyForm::Ppc64(insn),
            ..
        } => !insn.is_dq_form(dest) || value.rem_euclid(DQ_UNIT as i64) == 0,
        _ => true,
    }
}

impl RowInfo {
    /// Whether a value is a multiple of the row's alignment.
    #[inline(always)]
    pub(crate) fn is_aligned(&self, value: i64) -> bool {
        // no division where the alignment is a power of two
        let exponent = self.alignment.trailing_zeros() % 64;
        let unit = 1u64 << exponent;
        if self.alignment == unit {
            value as u64 & (unit - 1) == 0
        } else {
            value.rem_euclid(self.alignment as i64) == 0
        }
    }

    /// Whether a value is a multiple of the alignment of the row and of its instruction.
    #[inline(always)]
    pub(crate) fn is_multiple(&self, value: i64, dest: &[u8]) -> bool {
        self.is_aligned(value)
            && is_in_units(self.size, value, dest)
            && is_in_words(self.size, self.kind, value, dest)
    }
}

/// Why a relocation's value isn't written, and which values can be.
#[derive(Clone, Copy, PartialEq, Eq, Debug, Hash)]
pub struct WriteError {
    /// Why.
    pub error: RelocateError,
    /// The value.
    pub value: i64,
    /// The least value within the row's `reach`; that of 64 bits where it has no bounds.
    pub least: i64,
    /// The greatest one; the greatest multiple of `alignment` may be below it.
    pub greatest: i64,
    /// What each value has to be a multiple of.
    pub alignment: u64,
}

impl WriteError {
    /// What is to be said of a value that `write` of a row rejected with an error.
    ///
    /// ```
    /// use linker_utils::elf::{Architecture, WriteError};
    ///
    /// // R_AARCH64_TSTBR14 reaches 32 KiB
    /// let row = Architecture::AArch64.row(279).unwrap();
    /// let mut tbz = 0x3600_0000u32.to_le_bytes();
    /// let error = row.write(0x8000, &mut tbz).unwrap_err();
    /// let error = WriteError::new(&row, 0x8000, error);
    /// assert_eq!((error.least, error.greatest, error.alignment), (-0x8000, 0x7fff, 4));
    /// ```
    #[must_use]
    pub fn new(row: &Row, value: i64, error: RelocateError) -> WriteError {
        let (least, greatest) = match row.reach().bounds {
            Some((min, end)) => (min, (end as u64).wrapping_sub(1) as i64),
            None => (i64::MIN, i64::MAX),
        };
        WriteError {
            error,
            value,
            least,
            greatest,
            alignment: row.numbers().alignment,
        }
    }
}
