// SPDX-License-Identifier: MIT OR Apache-2.0
// Made by tools/generate of crates/linker_rewriting/src/phases.rt.
//! When rewrites are made.

/// When a rewrite is made: what a linker has to know before.
#[derive(Clone, Copy, Debug, PartialEq, Eq, Hash)]
pub enum Phase {
    /// Before addresses are known.
    PreLayout,
    /// Once offsets from the thread pointer are known. Bytes may be deleted.
    TlsLocalExec,
    /// Once addresses are known: loads of an address from the GOT become its computation.
    GotToPcRel,
    /// After these: addresses that an instruction reaches alone.
    ShortPcRel,
}
