// SPDX-License-Identifier: MIT OR Apache-2.0
// Made by tools/generate of crates/vectors/src/lib.rt.
//! What a user of the library writes over it: `poke`, which uses only the interface of instruction
//! forms, and `clients`; values worked by hand; and tests of calls that take memory, which have to
//! run as the prover's compiler built them. It uses `linker_utils` alone.

#![allow(unused_imports, reason = "some are there for contracts alone")]
#![allow(clippy::complexity, clippy::style, reason = "the text is that of the proved source")]

extern crate alloc;

#[macro_use]
#[path = "../../src/support.rs"]
mod support;

#[cfg(test)]
mod calls;
pub mod clients;
#[cfg(test)]
mod deltas;
pub mod poke;
#[cfg(test)]
mod readers;
#[cfg(test)]
mod refused_growth;
#[cfg(test)]
mod rewrites;
#[cfg(test)]
mod rows;
#[cfg(test)]
mod taken_memory;
#[cfg(test)]
mod words;
