// SPDX-License-Identifier: MIT OR Apache-2.0
// Made by tools/generate of crates/linker_reading/src/reading.rt.
//! The value of a relocation, read from the bytes at its place.

#[cfg(feature = "aarch64")]
mod aarch64;
#[cfg(feature = "loongarch64")]
mod loongarch64;
#[cfg(feature = "ppc64")]
mod ppc64;
#[cfg(feature = "riscv64")]
mod riscv64;

use crate::linker_reading::fields::{FieldValue, bits_of, power_of_two};
use crate::linker_base::bit_misc::{BitExtraction, BitRange};
use crate::linker_base::utils::u32_from_slice;
use crate::linker_elf::elf::{AllowedRange, AnyForm, RelocationKind, Row, RowInfo, RowSize, Sign};
#[cfg(feature = "aarch64")]
use crate::linker_elf::elf::AArch64Instruction;
#[cfg(feature = "loongarch64")]
use crate::linker_elf::elf::LoongArch64Instruction;
#[cfg(feature = "ppc64")]
use crate::linker_elf::elf::Ppc64Form;
#[cfg(feature = "riscv64")]
use crate::linker_elf::elf::RiscVInstruction;

/// Whether bytes hold the value, or its low bits, and not a sum of it and what stood there.
#[inline(always)]
fn holds_value(kind: RelocationKind) -> bool {
    !matches!(
        kind,
        RelocationKind::AbsoluteAddition
            | RelocationKind::AbsoluteAdditionWord6
            | RelocationKind::AbsoluteSubtraction
            | RelocationKind::AbsoluteSubtractionWord6
            | RelocationKind::PairSubtractionULEB128RiscV
            | RelocationKind::PairSubtractionULEB128LoongArch
    )
}

/// Whether an instruction holds bits of a value from the range's start up.
#[inline(always)]
fn holds_bits(insn: AnyForm, bits: BitRange) -> bool {
    match insn {
        #[cfg(feature = "aarch64")]
        AnyForm::AArch64(AArch64Instruction::Movnz) => { bits.end as u32 == bits.start as u32 + 16 }
        #[cfg(feature = "aarch64")]
        AnyForm::AArch64(AArch64Instruction::MachOLow12) => false,
        #[cfg(feature = "loongarch64")]
        AnyForm::LoongArch64(LoongArch64Instruction::Call30) => false,
        #[cfg(feature = "ppc64")]
        AnyForm::Ppc64(Ppc64Form::Ds) => bits.start == 0,
        #[cfg(feature = "riscv64")]
        AnyForm::RiscV(RiscVInstruction::UType | RiscVInstruction::CluiType) => bits.start == 0,
        _ => true,
    }
}

/// What the machine reads of an instruction, in units of the first bit of its range, modulo 2^64.
#[inline(always)]
pub(crate) fn number_held(insn: AnyForm, bytes: &[u8]) -> u64 {
    match insn {
        #[cfg(feature = "aarch64")]
        AnyForm::AArch64(insn) => aarch64::number(insn, bytes),
        #[cfg(feature = "riscv64")]
        AnyForm::RiscV(insn) => riscv64::number(insn, bytes),
        #[cfg(feature = "ppc64")]
        AnyForm::Ppc64(insn) => ppc64::number(insn, bytes),
        #[cfg(feature = "loongarch64")]
        AnyForm::LoongArch64(insn) => loongarch64::number(insn, bytes),
    }
}

/// Whether every allowed value is a number of `count` signed bits.
#[inline(always)]
fn are_signed(count: u32, reach: AllowedRange) -> bool {
    let all = AllowedRange::from_bit_size(count, Sign::Signed);
    match (all.bounds, reach.bounds) {
        (Some((least, end)), Some((min, max))) => least <= min && max <= end,
        _ => false,
    }
}

/// Which bits of a value, of a range, an immediate has.
#[inline(always)]
fn bits_within(immediate: BitRange, bits: BitRange) -> BitRange {
    let end = bits.start as u32 + immediate.end as u32;
    BitRange {
        start: bits.start + immediate.start,
        end: if (bits.end as u32) < end {
            bits.end
        } else {
            end as u8
        },
    }
}

/// Which bits of the value, rounded, an instruction holds.
#[inline(always)]
fn bits_held(insn: AnyForm, bits: BitRange, reach: AllowedRange) -> BitRange {
    match insn {
        #[cfg(feature = "aarch64")]
        AnyForm::AArch64(AArch64Instruction::Movnz) => {
            if bits.end < 49 && are_signed(bits.end as u32 + 1, reach) {
                BitRange {
                    start: bits.start,
                    end: bits.end + 1,
                }
            } else {
                bits
            }
        }
        _ => bits_within(insn.value_bits(), bits),
    }
}

/// Whether a field holds a value, or some of its bits.
#[inline(always)]
fn holds_field(kind: RelocationKind, size: RowSize, reach: AllowedRange) -> bool {
    match size {
        RowSize::ByteSize(len) => 0 < len && len < 9 && holds_value(kind),
        RowSize::BitMasking { range, insn } => {
            if range.start >= range.end {
                return false;
            }
            if range.end > 64 {
                return false;
            }
            let known = bits_held(insn, range, reach);
            known.start < known.end && holds_bits(insn, range)
        }
    }
}

/// What is added to a value before an instruction takes its bits.
#[inline(always)]
fn rounding_of(insn: AnyForm) -> u64 {
    match insn {
        #[cfg(feature = "riscv64")]
        AnyForm::RiscV(RiscVInstruction::UType | RiscVInstruction::CluiType) => 0x800,
        _ => 0,
    }
}

/// The number of the first `len` bytes.
#[inline(always)]
pub(crate) fn number_of_bytes(len: usize, bytes: &[u8]) -> u64 {
    let mut word = [0u8; 8];
    word[..len].copy_from_slice(&bytes[..len]);
    u64::from_le_bytes(word)
}

/// What stands in a `jirl` at the low part of an address: bits 2 to 11 of the value, of which bits
/// 0 and 1 are 0.
#[inline(always)]
fn jump_read(bytes: &[u8]) -> FieldValue {
    let word = u32_from_slice(bytes) as u64;
    FieldValue {
        known: BitRange { start: 0, end: 12 },
        bits: word.extract_bit_range(10..20) * 4,
        rounding: 0,
    }
}

/// What stands in an instruction of a form.
#[inline(always)]
fn instruction_read(insn: AnyForm, range: BitRange, reach: AllowedRange, bytes: &[u8]) -> FieldValue {
    let known = bits_held(insn, range, reach);
    let number = number_held(insn, bytes);
    FieldValue {
        known,
        bits: bits_of(number, known.start - range.start, known.end - range.start),
        rounding: rounding_of(insn),
    }
}

/// What stands in the field.
#[inline(always)]
fn field_read(row: &RowInfo, reach: AllowedRange, bytes: &[u8]) -> FieldValue {
    match row.size {
        RowSize::ByteSize(len) => {
            let count = match row.kind {
                RelocationKind::AbsoluteSetWord6 => 6,
                _ => 8 * len,
            };
            FieldValue {
                known: BitRange {
                    start: 0,
                    end: count,
                },
                bits: bits_of(number_of_bytes(len as usize, bytes), 0, count),
                rounding: 0,
            }
        }
        RowSize::BitMasking { range, insn } => {
            if insn.is_low_jump(row.kind, bytes) {
                return jump_read(bytes);
            }
            instruction_read(insn.written_at(range, bytes), range, reach, bytes)
        }
    }
}

/// Whether the values from `min` up, below `max`, with the known bits differ below the first of
/// these only.
#[inline(always)]
fn leaves_one(min: i64, max: i64, field: FieldValue) -> bool {
    if field.known.end >= 64 {
        return false;
    }
    let least = (min as u64).wrapping_add(field.rounding);
    let count = (max as u64).wrapping_sub(min as u64);
    count <= power_of_two(field.known.end) && least % power_of_two(field.known.start) == 0
}

/// Adds all bits above the known ones.
#[inline(always)]
fn up_to_sign(min: i64, max: i64, field: FieldValue) -> FieldValue {
    let unit = power_of_two(field.known.start);
    let least = (min as u64).wrapping_add(field.rounding);
    let steps = field.bits.wrapping_sub(least / unit)
        % power_of_two(field.known.end - field.known.start);
    FieldValue {
        known: BitRange {
            start: field.known.start,
            end: 64,
        },
        bits: least.wrapping_add(steps * unit) / unit,
        rounding: field.rounding,
    }
}

/// Adds the bits above that the reach leaves.
#[inline(always)]
fn with_reach(reach: AllowedRange, field: FieldValue) -> FieldValue {
    match reach.bounds {
        Some((min, max)) => {
            if leaves_one(min, max, field) {
                up_to_sign(min, max, field)
            } else {
                field
            }
        }
        None => field,
    }
}

/// Adds the bits below that are 0 in multiples of the alignment.
#[inline(always)]
fn with_alignment(alignment: u64, field: FieldValue) -> FieldValue {
    let unit = power_of_two(field.known.start);
    if field.rounding == 0 && alignment % unit == 0 {
        FieldValue {
            known: BitRange {
                start: 0,
                end: field.known.end,
            },
            bits: field.bits * unit,
            rounding: 0,
        }
    } else {
        field
    }
}

/// What is known of a relocation's value from the bytes that begin with its field. Whatever value
/// `write` wrote there, it has these bits. Of instructions it is what the machine reads:
///
/// - Bits of an instruction are those of the value from the first of the relocation's bits up. They
///   are known up to bit 63 if `reach` leaves one choice, as a sign does, and down to bit 0 if the
///   row's alignment says that the bits below are 0. Then `number` returns the value.
/// - RISC-V's `lui`, `auipc` and `c.lui` have the upper bits of the value plus 0x800, which is the
///   `rounding`. The other half has its low 12 bits. `UiType` and LoongArch's `Call36` have both
///   halves, so that all bits are known.
/// - PowerPC64's and LoongArch's adjusted high halves need no rounding: the row's bias is part of
///   the value, and [`solve`](crate::reading::solve()) takes it off.
/// - MOVN and MOVZ have 16 bits and the sign, whatever their shift is; a MOVK has 16 bits.
/// - A `jirl` at `R_LARCH_PCALA_LO12` has bits 2 to 11, and bits 0 and 1 are 0.
/// - Whole bytes have the low bits of the value, as a little-endian number; `R_RISCV_SET6` has 6.
///
/// `None` if there are fewer bytes than the window. Also `None` of rows whose field isn't the
/// value: those of no bytes, those that add or subtract, those of ULEB128 numbers, and
/// `R_LARCH_CALL30`.
///
/// ```
/// use linker_utils::reading::read;
/// use linker_utils::riscv64::{self, RiscVRelocation};
///
/// // `jal ra, 8`
/// let jal = 0x0080_00efu32.to_le_bytes();
/// let row = riscv64::row(RiscVRelocation::R_RISCV_JAL).unwrap();
/// assert_eq!(read(&row, &jal).unwrap().number(), Some(8));
/// ```
#[must_use]
pub fn read(row: &Row, bytes: &[u8]) -> Option<FieldValue> {
    // in each arm the compiler knows the architecture, and tests it no more
    match row.info().size {
        RowSize::ByteSize(_) => read_as(row, bytes),
        RowSize::BitMasking { insn, .. } => match insn {
            #[cfg(feature = "aarch64")]
            AnyForm::AArch64(_) => read_as(row, bytes),
            #[cfg(feature = "riscv64")]
            AnyForm::RiscV(_) => read_as(row, bytes),
            #[cfg(feature = "ppc64")]
            AnyForm::Ppc64(_) => read_as(row, bytes),
            #[cfg(feature = "loongarch64")]
            AnyForm::LoongArch64(_) => read_as(row, bytes),
        },
    }
}

#[inline(always)]
fn read_as(row: &Row, bytes: &[u8]) -> Option<FieldValue> {
    let info = row.info();
    let reach = row.reach();
    if !holds_field(info.kind, info.size, reach) {
        return None;
    }
    if bytes.len() < row.window() {
        return None;
    }
    let field = field_read(&info, reach, bytes);
    Some(with_alignment(info.alignment, with_reach(reach, field)))
}
