// SPDX-License-Identifier: MIT OR Apache-2.0
// Made by tools/generate of crates/vectors/src/poke.rt.
//! Values written into the instructions of a section, for any instruction form. It uses the trait
//! `InstructionForm` alone.
//!
//! ```
//! use linker_utils::elf::RiscVInstruction;
//! use vectors::poke::poke;
//!
//! // jal x0, 0 at offset 4 becomes jal x0, 8
//! let mut section = [0x00, 0x00, 0x00, 0x00, 0x6f, 0x00, 0x00, 0x00];
//! assert!(poke(RiscVInstruction::JType, 8, false, &mut section, 4));
//! assert_eq!(section[4..], [0x6f, 0x00, 0x80, 0x00]);
//! ```

#[cfg(test)]
use crate::rows::expect_eq;
use linker_utils::elf::InstructionForm;
#[cfg(test)]
use linker_utils::elf::RiscVInstruction;

fn has_window<F: InstructionForm>(form: F, section: &[u8], offset: usize) -> bool {
    let window = form.window();
    window <= section.len() && offset <= section.len() - window
}

/// Writes a value and its sign into the instruction at an offset of a section.
///
/// Returns `false`, with the section unchanged, if the form's window does not lie in the section or
/// the value does not fit. Otherwise the machine reads the value at that offset, provided that bits
/// which are only ORed were 0. Other bytes are unchanged, as are the bits of the window that are
/// neither immediate bits of the form nor in an opcode that the form sets.
pub fn poke<F: InstructionForm>(
    form: F,
    value: u64,
    negative: bool,
    section: &mut [u8],
    offset: usize,
) -> bool {
    if !has_window(form, section, offset) || !form.fits(value, &section[offset..]) {
        return false;
    }
    form.write(value, negative, &mut section[offset..]);
    true
}

/// The low bits of a value, as many as the form's width.
fn truncate<F: InstructionForm>(form: F, value: u64, bytes: &[u8]) -> u64 {
    let mut mask = u64::MAX;
    while !form.fits(mask, bytes) {
        mask >>= 1;
    }
    value & mask
}

/// Reads the value in the instruction at an offset of a section, truncates it to the form's width,
/// and writes it back.
///
/// Returns `false`, with the section unchanged, if the form's window does not lie in the section.
/// The section is also unchanged where the form restores the window. Every form does, except for
/// AArch64's `Movnz` on other opcodes and LoongArch's `Call30` where a bit that it clears is set.
pub fn write_back<F: InstructionForm>(form: F, section: &mut [u8], offset: usize) -> bool {
    if !has_window(form, section, offset) {
        return false;
    }
    let bytes = &section[offset..];
    let (value, negative) = form.read(bytes);
    let field = truncate(form, value, bytes);
    poke(form, field, negative, section, offset)
}

// jal x0, 0 at offset 4 becomes jal x0, 8, and stays so
#[test]
fn a_jump_is_poked_and_written_back() {
    let (mut section, jump) = ([0, 0, 0, 0, 0x6f, 0, 0, 0], [0, 0, 0, 0, 0x6f, 0, 0x80, 0]);
    let is_poked = poke(RiscVInstruction::JType, 8, false, &mut section, 4);
    let poked = section;
    let is_written = write_back(RiscVInstruction::JType, &mut section, 4);
    let found = (is_poked, poked, is_written, section);
    expect_eq(4, found, (true, jump, true, jump));
}
