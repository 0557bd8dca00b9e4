// SPDX-License-Identifier: MIT OR Apache-2.0
// Made by tools/generate of crates/linker_elf/src/lib.rt.
//! What relocations mean, the forms of instructions that hold their values, and writing these.

#[cfg(feature = "aarch64")]
pub mod aarch64;
pub mod elf;
#[cfg(feature = "loongarch64")]
pub mod loongarch64;
#[cfg(feature = "ppc64")]
pub mod ppc64;
#[cfg(feature = "riscv64")]
pub mod riscv64;
#[cfg(feature = "x86_64")]
pub mod x86_64;
