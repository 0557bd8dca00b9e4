// SPDX-License-Identifier: MIT OR Apache-2.0
// Made by tools/generate of crates/linker_output/src/lib.rt.
//! What a linker adds to an output, by architecture: the types of dynamic relocations, words of the
//! GOT, origins of thread-local storage, `e_flags`, lazy PLTs, and the code of stubs; how a branch
//! goes, and where stubs stand; the words of packed relative relocations;
//! notes of program properties.

#[cfg(feature = "aarch64")]
mod aarch64;
pub mod addresses;
pub mod description;
pub mod dynamic;
pub mod flags;
pub mod got;
pub mod layout;
pub mod lazy_plt;
mod lazy_plts;
#[cfg(feature = "loongarch64")]
mod loongarch64;
pub mod placement;
#[cfg(feature = "ppc64")]
mod ppc64;
pub mod properties;
mod r_types;
pub mod relr;
#[cfg(feature = "riscv64")]
mod riscv32;
#[cfg(feature = "riscv64")]
mod riscv64;
pub mod routes;
pub mod stubs;
pub mod tags;
#[cfg(feature = "x86_64")]
mod x86_64;
