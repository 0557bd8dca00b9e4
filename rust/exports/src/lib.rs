// SPDX-License-Identifier: MIT OR Apache-2.0
// Made by tools/generate of crates/linker_utils_c/src/lib.rt.
//! The core of a linker for programs in C and C++: numbers and slices of bytes in, a status out.

#![no_std]
#![deny(unsafe_code)]
#![allow(dead_code, reason = "each export is a function of its module")]
#![allow(unused_imports, reason = "some are there for contracts alone")]
#![allow(clippy::complexity, clippy::style, reason = "the text is that of the proved source")]
#![allow(clippy::suspicious, reason = "the text is that of the proved source")]

extern crate alloc;

#[macro_use]
#[path = "../../src/support.rs"]
mod support;

#[cfg(feature = "archive")]
mod exported;
#[cfg(feature = "archive")]
mod runtime;

pub mod architectures;
pub mod calls;
pub mod choices;
pub mod crel;
pub mod deltas;
pub mod forms;
pub mod global_pointer;
pub mod heads;
pub mod kept;
pub mod lazy_plt;
pub mod merges;
pub mod output;
pub mod pack_runs;
pub mod packing;
pub mod placement;
pub mod properties;
pub mod readers;
pub mod reading;
pub mod recognising;
pub mod relaxing;
pub mod relocate;
pub mod relocations;
pub mod relr;
pub mod rewrites;
pub mod rewriting;
pub mod riscv32;
pub mod routes;
pub mod rows;
pub mod section_items;
pub mod sections;
pub mod sequences;
pub mod shrinking;
pub mod status;
