// SPDX-License-Identifier: MIT OR Apache-2.0
// Made by tools/generate of crates/linker_elf/src/elf/numbers.rt.
//! Relocations in plain numbers, for callers without this library's enums.

/// What a relocation means, in numbers.
#[repr(C)]
#[derive(Clone, Copy, Debug, PartialEq, Eq, Hash)]
pub struct RelocationNumbers {
    /// What its value is computed from: the place of the kind in the enum [`RelocationKind`](crate::elf::RelocationKind).
    pub kind: u32,
    /// The place of the instruction's form in the enum of its architecture's forms; 0 for bytes.
    pub form: u32,
    /// Which addresses are cut to their page: 0 for none, else the place in the enum [`PageMask`](crate::elf::PageMask) and
    /// 1.
    pub mask: u32,
    /// `e_machine` of the form's architecture; 0 for bytes.
    pub machine: u16,
    /// 1 if its value goes into bits of an instruction, 0 if into whole bytes.
    pub is_bits: u8,
    /// How many bytes; 0 for bits.
    pub byte_size: u8,
    /// The first bit of the value that is taken; 0 for bytes.
    pub first_bit: u8,
    /// The first bit of the value above those that are taken; 0 for bytes.
    pub end_bit: u8,
    /// 1 if only values from `min` up, below `max`, are allowed; else 0.
    pub has_range: u8,
    /// 1 if a thunk may replace a target that is out of range, else 0.
    pub thunkable: u8,
    /// 1 if the addend is in the section, else 0.
    pub implicit_addend: u8,
    /// The least allowed value; 0 if every value is allowed.
    pub min: i64,
    /// The first value above the allowed ones; 0 if every value is allowed.
    pub max: i64,
    /// What the value has to be a multiple of.
    pub alignment: u64,
    /// What is added to the value first; 0 if nothing is.
    pub bias: u64,
}
