// SPDX-License-Identifier: MIT OR Apache-2.0
// Made by tools/generate of crates/linker_reading/src/operands/aarch64.rt.
//! The instructions of AArch64 with an immediate, the numbers that these are, and what they count.

use crate::linker_reading::operands::{Base, Encoding, encoding};
use crate::linker_base::bit_misc::BitExtraction;
use crate::linker_elf::elf::{AArch64Instruction, AnyForm};

macro_rules! a64 {
    ($mask:literal, $bits:literal, $($form:ident)*) => {
        encoding!(4, $mask, $bits, AArch64 [$(AArch64Instruction::$form),*])
    };
}

/// DDI 0487, C4.1.
pub(super) static ENCODINGS: &[Encoding] = &[
    // PC-rel. addressing
    a64!(0x1f00_0000, 0x1000_0000, Adr),
    // Add/subtract (immediate)
    a64!(0x7fc0_0000, 0x1100_0000, Add MachOLow12),
    a64!(0x7fc0_0000, 0x1140_0000, Add),
    // Move wide (immediate)
    a64!(0xff80_0000, 0x9280_0000, Movnz),
    a64!(0xff80_0000, 0xd280_0000, Movkz Movnz),
    a64!(0xff80_0000, 0xf280_0000, Movkz),
    a64!(0xffc0_0000, 0x1280_0000, Movnz),
    a64!(0xffc0_0000, 0x5280_0000, Movkz Movnz),
    a64!(0xffc0_0000, 0x7280_0000, Movkz),
    // branches
    a64!(0xff00_0000, 0x5400_0000, Bcond),
    a64!(0x7e00_0000, 0x3400_0000, Bcond),
    a64!(0x7e00_0000, 0x3600_0000, TstBr),
    a64!(0x7c00_0000, 0x1400_0000, JumpCall),
    // Load register (literal)
    a64!(0x3f00_0000, 0x1800_0000, Ldr),
    a64!(0xbf00_0000, 0x1c00_0000, Ldr),
    a64!(0xff00_0000, 0x9c00_0000, Ldr),
    // Load/store register (unsigned immediate)
    a64!(0xbfc0_0000, 0xb940_0000, LdrRegister LdSt MachOLow12),
    a64!(0x3f80_0000, 0x3900_0000, LdSt MachOLow12),
    a64!(0x3fc0_0000, 0x3980_0000, LdSt MachOLow12),
    a64!(0xbfc0_0000, 0x39c0_0000, LdSt MachOLow12),
    a64!(0x3f80_0000, 0x3d00_0000, LdSt MachOLow12),
    a64!(0xff80_0000, 0x3d80_0000, LdSt MachOLow12),
];

/// What MOVN or MOVZ moves, modulo 2^64.
pub(super) fn moved_number(word: u64) -> u64 {
    let moved = word.extract_bit_range(5..21) << (16 * word.extract_bit_range(21..23));
    if word.extract_bit(30) == 0 {
        !moved
    } else {
        moved
    }
}

/// Log2 of the bytes that a load or store accesses, and 0 of other instructions.
fn access_scale(word: u64) -> u64 {
    if word.extract_bit_range(27..30) != 7 {
        return 0;
    }
    if word.extract_bit_range(24..26) != 1 {
        return 0;
    }
    let size = word.extract_bit_range(30..32);
    if size == 0 && word.extract_bit(26) == 1 && word.extract_bit(23) == 1 {
        4
    } else {
        size
    }
}

/// Log2 of what the immediate of an instruction of AArch64 counts.
pub(super) fn scale(form: AArch64Instruction, word: u64) -> u64 {
    match form {
        AArch64Instruction::Adr => 12 * word.extract_bit(31),
        AArch64Instruction::Movkz => 16 * word.extract_bit_range(21..23),
        AArch64Instruction::Add => 12 * word.extract_bit(22),
        AArch64Instruction::LdrRegister | AArch64Instruction::LdSt => access_scale(word),
        AArch64Instruction::Ldr
        | AArch64Instruction::TstBr
        | AArch64Instruction::Bcond
        | AArch64Instruction::JumpCall => 2,
        AArch64Instruction::Movnz | AArch64Instruction::MachOLow12 => 0,
    }
}
