// SPDX-License-Identifier: MIT OR Apache-2.0
// Made by tools/generate of crates/linker_elf/src/loongarch64/sequences.rt.
//! LoongArch: addresses made by five instructions.

use crate::linker_elf::elf::{LoongArch64Instruction, PAGE_MASK_4KB, SIZE_2GB, SIZE_2KB, SIZE_4GB, SIZE_4KB};
use crate::linker_base::bit_misc::BitExtraction;

/// The address of the page of 4 KiB that contains an address.
#[inline(always)]
fn page_of(address: u64) -> u64 {
    address & !PAGE_MASK_4KB
}

/// The number whose bits 32 to 51 and 52 to 63 are the values of `R_LARCH_PCALA64_LO20` and
/// `R_LARCH_PCALA64_HI12` (LoongArch ELF psABI, "Relocation Types"). They complete an address that
/// is made relative to `pc`. `s` is the symbol's address plus the addend, and `pc` the address of
/// the first instruction plus 8. Modulo 2^64 the number is the page of `s + 2^31 + c` less the page
/// of `pc - 8`, where `c` is `2^12 - 2^32` if bit 11 of `s` is set, and 0 otherwise.
#[must_use]
#[inline]
pub fn highest_relocation_with_bias(s: u64, pc: u64) -> u64 {
    let correction = if s.extract_bit(11) == 1 {
        SIZE_4KB.wrapping_sub(SIZE_4GB)
    } else {
        0
    };
    let target = page_of(s.wrapping_add(SIZE_2GB).wrapping_add(correction));
    target.wrapping_sub(page_of(pc.wrapping_sub(8)))
}

/// Writes the immediates of the five instructions that compute an address in the extreme code model
/// (LoongArch ELF psABI): `pcalau12i a`, `addi.d t` from zero, `lu32i.d t`, `lu52i.d t` and `add.d`
/// of both. With the first instruction at `pc` they compute `target`, for every `pc` and `target`.
/// Requires 20 bytes. The caller provides the opcodes, the registers and the fifth instruction;
/// these are unchanged.
///
/// # Requires
///
/// - `20 <= dest.len()`
#[cfg_attr(debug_assertions, track_caller)]
pub fn write_address_sequence(dest: &mut [u8], pc: u64, target: u64) {
    debug_assert!(20 <= dest.len());
    let distance = page_of(target.wrapping_add(SIZE_2KB)).wrapping_sub(page_of(pc));
    let high = highest_relocation_with_bias(target, pc.wrapping_add(8));
    write_20_bits(dest, 0, distance.extract_bit_range(12..32));
    write_12_bits(dest, 4, target.extract_bit_range(0..12));
    write_20_bits(dest, 8, high.extract_bit_range(32..52));
    write_12_bits(dest, 12, high.extract_bit_range(52..64));
}

/// Writes an immediate of 20 bits into the instruction at byte `at`.
#[inline(always)]
fn write_20_bits(dest: &mut [u8], at: usize, value: u64) {
    LoongArch64Instruction::Shift5.write_to_value(value, false, &mut dest[at..at + 4]);
}

/// Writes an immediate of 12 bits into the instruction at byte `at`.
#[inline(always)]
fn write_12_bits(dest: &mut [u8], at: usize, value: u64) {
    LoongArch64Instruction::Shift10.write_to_value(value, false, &mut dest[at..at + 4]);
}
