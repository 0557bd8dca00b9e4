// SPDX-License-Identifier: MIT OR Apache-2.0
// Made by tools/generate of crates/linker_elf/src/x86_64.rt.
//! x86-64: what relocations mean.

mod relocations;

pub use relocations::{X86_64Relocation, row, upstream_row};
