// SPDX-License-Identifier: MIT OR Apache-2.0
// Made by tools/generate of crates/linker_rewriting/src/lib.rt.
//! The rewrites of a section in one call, before addresses are known and once they are: which
//! instructions are rewritten, all of a group or none, and what becomes of their relocations.

pub mod candidates;
mod covered;
pub mod decisions;
pub mod facts;
#[cfg(feature = "riscv64")]
pub mod global_pointer;
pub mod groups;
pub mod kept;
pub mod phases;
mod r_types;
mod relocations;
mod riscv_pcrel_groups;
mod rules;
pub mod sections;
mod sequences;
pub mod surveys;
pub mod toc_indirection;
