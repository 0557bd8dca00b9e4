// SPDX-License-Identifier: MIT OR Apache-2.0
// Made by tools/generate of crates/linker_utils/src/ppc64/relaxation_kind.rt.
//! PowerPC64: the rewrites of the crate `linker-utils`.

use super::RewriteKind;
use crate::rewrite_rows::same_name;
use crate::linker_base::relaxation::RelocationModifier;
use crate::linker_elf::elf::InstructionRewrite;

/// A rewrite that the crate `linker-utils` 0.11.0 has too: the `RewriteKind` of the same name. No
/// variants are added, so that a match of all needs no last arm.
#[derive(Debug, Default, Clone, Copy, PartialEq, Eq, Hash, PartialOrd, Ord)]
pub enum RelaxationKind {
    #[default]
    NoOp,
}

impl RelaxationKind {
    /// The rewrite of the same name, of all that the library has.
    #[must_use]
    #[inline(always)]
    pub fn rewrite_kind(self) -> RewriteKind {
        same_name!(self => NoOp)
    }

    /// Rewrites the instruction at an offset of a section, as `RewriteKind::apply` says.
    ///
    /// # Requires
    ///
    /// - `self.can_apply(section_bytes, *offset_in_section)`
    #[cfg_attr(debug_assertions, track_caller)]
    #[inline(always)]
    pub fn apply(self, section_bytes: &mut [u8], offset_in_section: &mut u64, addend: &mut i64) {
        debug_assert!(self.can_apply(section_bytes, *offset_in_section));
        self.rewrite_kind()
            .apply(section_bytes, offset_in_section, addend);
    }

    /// Whether `apply` may be called at an offset of a section.
    #[must_use]
    #[inline(always)]
    pub fn can_apply(self, section: &[u8], offset: u64) -> bool {
        self.rewrite_kind().can_apply(section, offset)
    }

    /// What happens to the next relocation.
    #[must_use]
    #[inline(always)]
    pub fn next_modifier(&self) -> RelocationModifier {
        self.rewrite_kind().next_modifier()
    }
}
