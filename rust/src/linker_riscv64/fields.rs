// SPDX-License-Identifier: MIT OR Apache-2.0
// Made by tools/generate of crates/linker_riscv64/src/fields.rt.
//! RISC-V: the fields of an instruction of four bytes, as its base formats have them (RISC-V
//! unprivileged ISA, "Base Instruction Formats").
//!
//! ```
//! use linker_utils::riscv64::fields::{base, destination, function, opcode, source};
//!
//! let ld = 0x0085b503; // ld a0, 8(a1)
//! assert_eq!((opcode(ld), function(ld), destination(ld), base(ld)), (0x03, 3, 10, 11));
//! let sd = 0x00a5b423; // sd a0, 8(a1)
//! assert_eq!((opcode(sd), function(sd), source(sd), base(sd)), (0x23, 3, 10, 11));
//! ```

use crate::linker_base::utils::u32_from_slice;

/// The instruction at an offset of a section. Requires its four bytes in the section.
///
/// # Requires
///
/// - `(offset as u128) + 4 <= (section.len() as u128)`
#[must_use]
#[cfg_attr(debug_assertions, track_caller)]
#[inline(always)]
pub fn word_at(section: &[u8], offset: u64) -> u32 {
    debug_assert!((offset as u128) + 4 <= (section.len() as u128));
    u32_from_slice(&section[offset as usize..])
}

/// The opcode: bits 0 to 6.
#[must_use]
#[inline(always)]
pub fn opcode(word: u32) -> u32 {
    word % 0x80
}

/// The register that an instruction of the formats R, I, U and J writes, rd: bits 7 to 11. Those of
/// the formats S and B have bits of their immediate there.
#[must_use]
#[inline(always)]
pub fn destination(word: u32) -> u32 {
    (word >> 7) % 0x20
}

/// The function of an instruction of the formats R, I, S and B, funct3: bits 12 to 14.
#[must_use]
#[inline(always)]
pub fn function(word: u32) -> u32 {
    (word >> 12) % 8
}

/// The first register that an instruction of the formats R, I, S and B reads, rs1: bits 15 to 19.
/// It is the base of loads, of stores and of `jalr`.
#[must_use]
#[inline(always)]
pub fn base(word: u32) -> u32 {
    (word >> 15) % 0x20
}

/// The second register that an instruction of the formats R, S and B reads, rs2: bits 20 to 24. It
/// is the one that a store stores.
#[must_use]
#[inline(always)]
pub fn source(word: u32) -> u32 {
    (word >> 20) % 0x20
}

/// Whether an instruction is a store of the register that is its base: `sb`, `sh`, `sw` or `sd`.
#[must_use]
#[inline(always)]
pub fn stores_base(word: u32) -> bool {
    opcode(word) == 0x23 && source(word) == base(word)
}
