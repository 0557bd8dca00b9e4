// SPDX-License-Identifier: MIT OR Apache-2.0
// Made by tools/generate of crates/linker_reading/src/reading/aarch64.rt.
//! What an instruction of AArch64 holds.

use crate::linker_base::bit_misc::BitExtraction;
use crate::linker_elf::elf::{AArch64Instruction, AnyForm, InstructionForm};

/// What an instruction holds.
#[inline(always)]
pub(super) fn number(insn: AArch64Instruction, bytes: &[u8]) -> u64 {
    let (number, _) = insn.read(bytes);
    match insn {
        // the machine reads these without a sign
        AArch64Instruction::Movkz => number.low_bits(16),
        AArch64Instruction::LdSt => number.low_bits(12),
        _ => number,
    }
}
