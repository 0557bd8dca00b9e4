// SPDX-License-Identifier: MIT OR Apache-2.0
// Made by tools/generate of crates/linker_reading/src/reading/loongarch64.rt.
//! What an instruction of LoongArch holds.

use crate::linker_base::bit_misc::BitExtraction;
use crate::linker_base::utils::{u32_from_slice, u64_from_slice};
use crate::linker_elf::elf::{AnyForm, InstructionForm, LoongArch64Instruction};

/// What an instruction, or a pair, holds, in two's complement.
#[inline(always)]
pub(super) fn number(insn: LoongArch64Instruction, bytes: &[u8]) -> u64 {
    match insn {
        LoongArch64Instruction::Shift5 => insn.read(bytes).0.low_bits_signed(20),
        LoongArch64Instruction::Shift10 => {
            let word = u32_from_slice(bytes) as u64;
            word.extract_bit_range(10..26).low_bits_signed(16)
        }
        LoongArch64Instruction::Call36 => {
            let pair = u64_from_slice(bytes);
            let high = pair.extract_bit_range(5..25).low_bits_signed(20);
            let low = pair.extract_bit_range(42..58).low_bits_signed(16);
            high.wrapping_mul(1 << 16).wrapping_add(low)
        }
        _ => insn.read(bytes).0,
    }
}
