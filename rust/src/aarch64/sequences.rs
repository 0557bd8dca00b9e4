// SPDX-License-Identifier: MIT OR Apache-2.0
// Made by tools/generate of crates/linker_utils/src/aarch64/sequences.rt.
//! Moves that load a number of 64 bits.

use crate::linker_base::bit_misc::BitExtraction;
use crate::linker_base::rewrite::overwrite;

/// Writes an instruction at an offset of a section.
#[inline(always)]
fn put_word(section: &mut [u8], offset: u64, word: u32) {
    overwrite(section, offset, &word.to_le_bytes());
}

/// A move of 16 bits into a register.
#[inline(always)]
fn mov(opcode: u32, rd: u32, bits: u64) -> u32 {
    opcode + ((bits as u32) << 5) + rd
}

/// Writes the four instructions that load a number into register `rd`: `movz` of bits 0 to 15, and
/// `movk` of bits 16 to 31, 32 to 47 and 48 to 63 (DDI 0487, "MOVZ" and "MOVK"). Requires 16 bytes
/// and a register from 0 to 30. The following bytes are unchanged.
///
/// # Requires
///
/// - room: `16 <= dest.len()`
/// - register: `rd <= 30`
#[cfg_attr(debug_assertions, track_caller)]
#[inline]
pub fn write_mov_sequence(dest: &mut [u8], rd: u32, value: u64) {
    debug_assert!(16 <= dest.len());
    debug_assert!(rd <= 30);
    put_word(
        dest,
        0,
        mov(0xd280_0000, rd, value.extract_bit_range(0..16)),
    );
    put_word(
        dest,
        4,
        mov(0xf2a0_0000, rd, value.extract_bit_range(16..32)),
    );
    put_word(
        dest,
        8,
        mov(0xf2c0_0000, rd, value.extract_bit_range(32..48)),
    );
    put_word(
        dest,
        12,
        mov(0xf2e0_0000, rd, value.extract_bit_range(48..64)),
    );
}
