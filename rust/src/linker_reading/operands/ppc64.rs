// SPDX-License-Identifier: MIT OR Apache-2.0
// Made by tools/generate of crates/linker_reading/src/operands/ppc64.rt.
//! The instructions of PowerPC64 with an immediate, and what these count.

use crate::linker_reading::operands::{Base, Encoding, encoding};
use crate::linker_base::bit_misc::BitExtraction;
use crate::linker_elf::elf::{AnyForm, Ppc64Form};

macro_rules! power {
    ($mask:literal, $bits:literal, $form:ident) => {
        encoding!(4, $mask, $bits, Ppc64 [Ppc64Form::$form])
    };
}

/// A prefix of a type, R and d0 aside, and the opcode of the suffix.
macro_rules! prefixed {
    ($prefix:literal, $mask:literal, $bits:literal) => {
        encoding!(
            8,
            $mask << 32 | 0xffec_0000,
            $bits << 32 | $prefix,
            Ppc64 [Ppc64Form::Prefixed]
        )
    };
}

/// Power ISA 3.1, Book I, "Instruction Formats" and the pages of the instructions.
pub(super) static ENCODINGS: &[Encoding] = &[
    power!(0xf800_0000, 0x0800_0000, D),
    power!(0xfc00_0000, 0x1c00_0000, D),
    power!(0xfc00_0000, 0x2000_0000, D),
    power!(0xfc00_0000, 0x2c00_0000, D),
    power!(0xf800_0000, 0x3000_0000, D),
    power!(0xf800_0000, 0x3800_0000, D),
    power!(0xc000_0000, 0x8000_0000, D),
    power!(0xe000_0000, 0xc000_0000, D),
    power!(0xfc00_0000, 0x2800_0000, DUnsigned),
    power!(0xf000_0000, 0x6000_0000, DUnsigned),
    power!(0xf800_0000, 0x7000_0000, DUnsigned),
    power!(0xfc00_000e, 0x1800_0000, Ds),
    power!(0xfc00_0000, 0xe000_0000, Ds),
    power!(0xfc00_0002, 0xe400_0002, Ds),
    power!(0xfc00_0002, 0xe800_0000, Ds),
    power!(0xfc00_0003, 0xe800_0002, Ds),
    power!(0xfc00_0001, 0xf400_0001, Ds),
    power!(0xfc00_0003, 0xf400_0002, Ds),
    power!(0xfc00_0002, 0xf800_0000, Ds),
    power!(0xfc00_0003, 0xf800_0002, Ds),
    power!(0xfc00_0000, 0x4000_0000, Branch14),
    power!(0xfc00_0000, 0x4800_0000, Branch24),
    // MLS:D-form
    prefixed!(0x0600_0000, 0xfc00_0000, 0x3800_0000),
    prefixed!(0x0600_0000, 0xe400_0000, 0x8000_0000),
    prefixed!(0x0600_0000, 0xf400_0000, 0xa000_0000),
    prefixed!(0x0600_0000, 0xfc00_0000, 0xb000_0000),
    prefixed!(0x0600_0000, 0xe400_0000, 0xc000_0000),
    // 8LS:D-form
    prefixed!(0x0400_0000, 0xfc00_0000, 0xa400_0000),
    prefixed!(0x0400_0000, 0xf800_0000, 0xa800_0000),
    prefixed!(0x0400_0000, 0xf800_0000, 0xb800_0000),
    prefixed!(0x0400_0000, 0xf800_0000, 0xc800_0000),
    prefixed!(0x0400_0000, 0xf800_0000, 0xd800_0000),
    prefixed!(0x0400_0000, 0xf800_0000, 0xe000_0000),
    prefixed!(0x0400_0000, 0xfc00_0000, 0xe800_0000),
    prefixed!(0x0400_0000, 0xf800_0000, 0xf000_0000),
    prefixed!(0x0400_0000, 0xfc00_0000, 0xf800_0000),
];

/// Log2 of what the immediate of an instruction counts.
pub(super) fn scale(form: Ppc64Form, word: u64) -> u64 {
    match form {
        Ppc64Form::D => {
            if word.extract_bit_range(26..32) == 15 {
                16
            } else {
                0
            }
        }
        Ppc64Form::DUnsigned => 16 * word.extract_bit(26),
        _ => 0,
    }
}
