// SPDX-License-Identifier: MIT OR Apache-2.0
// Made by tools/generate of crates/linker_base/src/lib.rt.
//! The base of the linker core: bits of numbers, readers of bytes, and the deletions of relaxation.

pub mod bit_misc;
pub mod packing;
pub mod relaxation;
pub mod rewrite;
pub mod utils;
