// SPDX-License-Identifier: MIT OR Apache-2.0
// Made by tools/generate of crates/linker_utils_c/src/sequences.rt.
//! Sequences of instructions that load a number or make an address.

use crate::status::Status;
use linker_utils::{aarch64, loongarch64, ppc64};

/// AArch64: writes the four instructions that load a number into register `rd`. The error is the
/// first that applies of `TooShort` with fewer than 16 bytes, and `BadRegister` for one above 30.
pub fn linker_utils_write_mov_sequence_nonnull(
    dest: &mut [u8],
    rd: u32,
    value: u64,
) -> u32 {
    if dest.len() < 16 {
        return Status::TooShort as u32;
    }
    if rd > 30 {
        return Status::BadRegister as u32;
    }
    aarch64::write_mov_sequence(dest, rd, value);
    Status::Success as u32
}

/// LoongArch: makes the five instructions compute the address `target`, with the first at
/// `pc`. The error is `TooShort` with fewer than 20 bytes.
pub fn linker_utils_write_address_sequence_nonnull(
    dest: &mut [u8],
    pc: u64,
    target: u64,
) -> u32 {
    if dest.len() < 20 {
        return Status::TooShort as u32;
    }
    loongarch64::write_address_sequence(dest, pc, target);
    Status::Success as u32
}

/// LoongArch: the number whose bits 32 to 51 and 52 to 63 complete the address `s`, relative to
/// `pc`.
pub fn linker_utils_highest_relocation_with_bias(s: u64, pc: u64) -> u64 {
    loongarch64::highest_relocation_with_bias(s, pc)
}

/// PowerPC64: writes a value into a pair of D-form instructions, its adjusted high half into `ha`
/// and its low half into `lo`. The error is `TooShort` where one has fewer than 4 bytes.
pub fn linker_utils_write_ha_lo_nonnull(ha: &mut [u8], lo: &mut [u8], value: u64) -> u32 {
    if ha.len() < 4 || lo.len() < 4 {
        return Status::TooShort as u32;
    }
    ppc64::write_ha_lo(ha, lo, value);
    Status::Success as u32
}
