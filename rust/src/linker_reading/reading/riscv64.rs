// SPDX-License-Identifier: MIT OR Apache-2.0
// Made by tools/generate of crates/linker_reading/src/reading/riscv64.rt.
//! What an instruction of RISC-V holds.

use crate::linker_elf::elf::{AnyForm, InstructionForm, RiscVInstruction};

/// What an instruction holds, its value rounded.
#[inline(always)]
pub(super) fn number(insn: RiscVInstruction, bytes: &[u8]) -> u64 {
    let (number, _) = insn.read(bytes);
    match insn {
        RiscVInstruction::UType => number.wrapping_add(0x800),
        RiscVInstruction::CluiType => number.wrapping_add(0x800),
        _ => number,
    }
}
