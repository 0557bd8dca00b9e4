// SPDX-License-Identifier: MIT OR Apache-2.0
// Made by tools/generate of crates/linker_rewriting/src/relocations.rt.
//! Relocations of a section, read by their index.

use crate::linker_section::relocations::{RELA_LEN, Rela, relocation_at};

/// A relocation of a section.
#[derive(Clone, Copy, Debug, PartialEq, Eq, Hash)]
pub(crate) struct Site<'a> {
    /// All of the section.
    pub relocations: &'a [u8],
    /// The section's bytes.
    pub section: &'a [u8],
    pub index: usize,
    pub relocation: Rela,
}

/// The site of the relocation with an index below `relocations_len`.
macro_rules! site {
    ($relocations:ident, $section:ident, $index:ident) => {
        Site {
            relocations: $relocations,
            section: $section,
            index: $index,
            relocation: relocation_in($relocations, $index),
        }
    };
}

pub(crate) use site;

/// The relocation with an index below `relocations_len`. Its bounds are tested once: the compiler
/// sees that its bytes are in the slice.
#[inline(always)]
pub(crate) fn relocation_in(relocations: &[u8], index: usize) -> Rela {
    let start = index * RELA_LEN;
    match relocation_at(&relocations[start..start + RELA_LEN], 0) {
        Some(relocation) => relocation,
        None => Rela {
            offset: 0,
            r_type: 0,
            symbol: 0,
            addend: 0,
        },
    }
}
