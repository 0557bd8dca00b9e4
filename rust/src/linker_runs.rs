// SPDX-License-Identifier: MIT OR Apache-2.0
// Made by tools/generate of crates/linker_runs/src/lib.rt.
//! Runs of code that become shorter: the items that a section's relocations make, which
//! instructions become shorter and how many nops each alignment keeps, and sections without the
//! bytes that they lose.

pub mod items;
#[cfg(feature = "loongarch64")]
mod loongarch64;
pub mod packing;
pub mod relaxation;
#[cfg(feature = "riscv64")]
mod riscv64;
pub mod shapes;
