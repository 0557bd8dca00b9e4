// SPDX-License-Identifier: MIT OR Apache-2.0
// Made by tools/generate of crates/linker_elf/src/ppc64.rt.
//! PowerPC64: instruction forms, what relocations mean, and addresses in two halves.

mod forms;
mod relocations;
mod sequences;

pub use forms::{DQ_UNIT, Ppc64Form};
pub use relocations::{Ppc64Relocation, row, upstream_row};
pub use sequences::write_ha_lo;
