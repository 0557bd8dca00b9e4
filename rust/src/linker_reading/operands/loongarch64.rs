// SPDX-License-Identifier: MIT OR Apache-2.0
// Made by tools/generate of crates/linker_reading/src/operands/loongarch64.rt.
//! The instructions of LoongArch with an immediate, the numbers that these
//! are, and what they count.

use crate::linker_reading::operands::{Base, Encoding, encoding};
use crate::linker_base::bit_misc::BitExtraction;
use crate::linker_elf::elf::{AnyForm, LoongArch64Instruction};

macro_rules! la {
    ($mask:literal, $bits:literal, $form:ident) => {
        encoding!(4, $mask, $bits, LoongArch64 [LoongArch64Instruction::$form])
    };
}

/// LoongArch Reference Manual, volume 1, "Table of Instruction Encoding", and volume 2.
pub(super) static ENCODINGS: &[Encoding] = &[
    // r0 is no base
    la!(0xfe00_001f, 0x1e00_0000, Shift5),
    // PCADDU18I and JIRL
    Encoding {
        len: 8,
        mask: 0xfc00_0000 << 32 | 0xfe00_0000,
        bits: 0x4c00_0000 << 32 | 0x1e00_0000,
        base: Base::From0And37,
        forms: &[
            AnyForm::LoongArch64(LoongArch64Instruction::Shift5),
            AnyForm::LoongArch64(LoongArch64Instruction::Call36),
        ],
    },
    la!(0xfc00_0000, 0x1400_0000, Shift5),
    la!(0xf800_0000, 0x1800_0000, Shift5),
    la!(0xff00_0000, 0x0200_0000, Shift10),
    la!(0xffc0_0000, 0x0300_0000, Shift10),
    la!(0xffc0_0000, 0x0340_0000, Shift10),
    la!(0xff80_0000, 0x0380_0000, Shift10),
    la!(0xfc00_0000, 0x2800_0000, Shift10),
    la!(0xff00_0000, 0x2c00_0000, Shift10),
    la!(0xfc00_0000, 0x1000_0000, Shift10),
    la!(0xfc00_0000, 0x4c00_0000, Shift10),
    la!(0xf800_0000, 0x5800_0000, Shift10),
    la!(0xf000_0000, 0x6000_0000, Shift10),
    la!(0xf800_0000, 0x4000_0000, Branch21),
    la!(0xfc00_0200, 0x4800_0000, Branch21),
    la!(0xf800_0000, 0x5000_0000, Branch26),
];

/// Whether the immediate of a `Shift10` has 16 bits.
fn has_si16(word: u64) -> bool {
    let opcode = word.extract_bit_range(26..32);
    opcode == 4 || 11 < opcode
}

/// Whether that of 12 bits has no sign.
fn is_logical(word: u64) -> bool {
    let opcode = word.extract_bit_range(22..32);
    12 < opcode && opcode < 16
}

/// The immediate of a `Shift10`, modulo 2^64.
pub(super) fn shift10_number(word: u64) -> u64 {
    if has_si16(word) {
        return word.extract_bit_range(10..26).low_bits_signed(16);
    }
    let number = word.extract_bit_range(10..22);
    if is_logical(word) {
        number
    } else {
        number.low_bits_signed(12)
    }
}

/// Log2 of what an immediate of 20 bits counts.
fn shift5_scale(word: u64) -> u64 {
    match word.extract_bit_range(25..32) {
        11 => 32,
        12 => 2,
        15 => 18,
        _ => 12,
    }
}

/// The scale of an immediate of 12 or 16 bits.
fn shift10_scale(word: u64) -> u64 {
    if word.extract_bit_range(22..32) == 12 {
        return 52;
    }
    if word.extract_bit_range(26..32) == 4 {
        return 16;
    }
    if has_si16(word) { 2 } else { 0 }
}

/// The scale of an instruction.
pub(super) fn scale(form: LoongArch64Instruction, word: u64) -> u64 {
    match form {
        LoongArch64Instruction::Shift5 => shift5_scale(word),
        LoongArch64Instruction::Shift10 => shift10_scale(word),
        LoongArch64Instruction::Branch26
        | LoongArch64Instruction::Branch21
        | LoongArch64Instruction::Call36 => 2,
        LoongArch64Instruction::Call30 => 0,
    }
}
