// SPDX-License-Identifier: MIT OR Apache-2.0
//! Tests of the crate over what assemblers and linkers wrote, over values worked by hand, and over
//! random runs. Nothing here is proved: the library is, and these tests are of what no contract says.

mod aarch64;
mod deltas;
mod forms;
mod growth;
mod jumps;
mod loongarch64;
mod packing;
mod ppc64;
mod ratio;
mod readers;
mod reading;
mod recognise;
mod riscv64;
mod runs;
mod shrinking;
mod windows;
mod x86_64;
