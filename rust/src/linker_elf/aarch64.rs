// SPDX-License-Identifier: MIT OR Apache-2.0
// Made by tools/generate of crates/linker_elf/src/aarch64.rt.
//! AArch64: instruction forms, and what relocations mean.

mod forms;
mod relocations;

pub use forms::AArch64Instruction;
pub(crate) use forms::is_movk;
pub use relocations::{AArch64Relocation, row, upstream_row};
