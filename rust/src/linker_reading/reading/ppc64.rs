// SPDX-License-Identifier: MIT OR Apache-2.0
// Made by tools/generate of crates/linker_reading/src/reading/ppc64.rt.
//! What an instruction of PowerPC64 holds.

use crate::linker_base::bit_misc::BitExtraction;
use crate::linker_elf::elf::{InstructionForm, Ppc64Form};
use crate::linker_elf::ppc64::DQ_UNIT;

/// What an instruction holds, in two's complement.
#[inline(always)]
pub(super) fn number(insn: Ppc64Form, bytes: &[u8]) -> u64 {
    let (number, _) = insn.read(bytes);
    match insn {
        Ppc64Form::Ds => {
            if insn.is_dq_form(bytes) {
                (number - number % DQ_UNIT).low_bits_signed(16)
            } else {
                number.low_bits_signed(16)
            }
        }
        Ppc64Form::D => number.low_bits_signed(16),
        Ppc64Form::Branch14 => number.low_bits_signed(16),
        Ppc64Form::Branch24 => number.low_bits_signed(26),
        Ppc64Form::Prefixed => number.low_bits_signed(34),
        Ppc64Form::DUnsigned => number,
    }
}
