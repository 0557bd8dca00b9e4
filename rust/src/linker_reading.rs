// SPDX-License-Identifier: MIT OR Apache-2.0
// Made by tools/generate of crates/linker_reading/src/lib.rt.
//! Linked bytes read back: which forms an instruction has and the number in its immediate, the bits
//! of a value that stand in a relocation's field, the addresses that have such a value, and what a
//! linker made of a relocation.

pub mod fields;
pub mod operands;
pub mod reading;
pub mod recognise;
pub mod solving;
pub mod windows;
