// SPDX-License-Identifier: MIT OR Apache-2.0
// Made by tools/generate of crates/linker_elf/src/riscv64.rt.
//! RISC-V: instruction forms, and what relocations mean.

pub(crate) mod forms;
mod relocations;

pub use forms::RiscVInstruction;
pub use relocations::{RiscVRelocation, clui_row, row, upstream_row};
