// SPDX-License-Identifier: MIT OR Apache-2.0
// Made by tools/generate of crates/linker_reading/src/recognise/recognisers.rt.
//! What is recognised of each architecture.

#[cfg(feature = "aarch64")]
mod aarch64;
#[cfg(feature = "loongarch64")]
mod loongarch64;
#[cfg(feature = "ppc64")]
mod ppc64;
#[cfg(feature = "riscv64")]
mod riscv64;
#[cfg(feature = "x86_64")]
mod x86_64;

/// Where a rewrite is applied, the value of the relocation after it is written, and the deleted
/// bytes are taken out, the choice of both leaves the bytes that stay. So [`recognise`](crate::recognise::recognise()) returns what
/// `choose` chose, after `apply` and `write`.
#[doc(hidden)]
pub fn written_choices_are_left() {}
