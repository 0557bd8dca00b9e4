// SPDX-License-Identifier: MIT OR Apache-2.0
// Made by tools/generate of crates/linker_elf/src/loongarch64.rt.
//! LoongArch: instruction forms, what relocations mean, and addresses made by five instructions.

mod forms;
mod relocations;
mod sequences;

pub use forms::LoongArch64Instruction;
pub(crate) use forms::is_jirl;
pub use relocations::{LoongArch64Relocation, row, upstream_row};
pub use sequences::{highest_relocation_with_bias, write_address_sequence};
