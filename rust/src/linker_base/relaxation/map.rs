// SPDX-License-Identifier: MIT OR Apache-2.0
// Made by tools/generate of crates/linker_base/src/relaxation/map.rt.
//! The deltas of several sections.

use alloc::vec::Vec;
use crate::support::*;
use super::{OutOfMemory, SectionRelaxDeltas};

/// The deltas of the sections of a file that have any, by section index.
///
/// It is a vector sorted by index: linkers usually insert in that order, and look up far more often
/// than they insert.
#[derive(Debug, Clone, Default, PartialEq, Eq)]
pub struct RelaxDeltaMap {
    pub(crate) entries: Vec<(usize, SectionRelaxDeltas)>,
}

impl RelaxDeltaMap {
    /// An empty map. It does not allocate.
    #[must_use]
    pub fn new() -> Self {
        RelaxDeltaMap {
            entries: Vec::new(),
        }
    }

    /// Adds a section. Requires that its index is above `last_index`.
    ///
    /// # Errors
    ///
    /// Out of memory: the deltas come back, and the map is unchanged.
    ///
    /// # Requires
    ///
    /// - `self.last_index().is_none_or(|last| last < section_index)`
    #[cfg_attr(debug_assertions, track_caller)]
    pub fn insert(
        &mut self,
        section_index: usize,
        deltas: SectionRelaxDeltas,
    ) -> Result<(), SectionRelaxDeltas> {
        debug_assert!(self.last_index().is_none_or(|last| last < section_index));
        self.entries
            .fallible_push((section_index, deltas))
            .map_err(|failed| failed.value.1)
    }

    /// Adds a section in order. Requires that `get` finds no such section. The sections above it
    /// move up by one entry, so it takes O(n) where `insert` takes O(1).
    ///
    /// # Errors
    ///
    /// Out of memory: the deltas come back, and the map is unchanged.
    ///
    /// # Requires
    ///
    /// - `self.get(section_index).is_none()`
    #[cfg_attr(debug_assertions, track_caller)]
    pub fn insert_sorted(
        &mut self,
        section_index: usize,
        deltas: SectionRelaxDeltas,
    ) -> Result<(), SectionRelaxDeltas> {
        debug_assert!(self.get(section_index).is_none());
        let (Ok(at) | Err(at)) = search(&self.entries, section_index);
        self.entries
            .fallible_insert(at, (section_index, deltas))
            .map_err(|failed| failed.value.1)
    }

    /// The deltas of the section, if it is there. The search takes O(log n).
    #[must_use]
    pub fn get(&self, section_index: usize) -> Option<&SectionRelaxDeltas> {
        match search(&self.entries, section_index) {
            Ok(at) => Some(&self.entries[at].1),
            Err(_) => None,
        }
    }

    /// The deltas of the section to change, if it is there. The others are unchanged. The search
    /// takes O(log n).
    pub fn get_mut(&mut self, section_index: usize) -> Option<&mut SectionRelaxDeltas> {
        match search(&self.entries, section_index) {
            Ok(at) => Some(&mut self.entries[at].1),
            Err(_) => None,
        }
    }

    /// Whether no section is there.
    #[must_use]
    pub fn is_empty(&self) -> bool {
        self.entries.is_empty()
    }

    /// The highest section index that is there. Any index above it may be given to `insert`.
    #[must_use]
    pub fn last_index(&self) -> Option<usize> {
        self.entries.last().map(|entry| entry.0)
    }

    /// A copy of the map and of the deltas of each section. It allocates once for the entries, as
    /// `SectionRelaxDeltas::clone` for each section, and not at all for an empty map.
    pub fn try_clone(&self) -> Result<Self, OutOfMemory> {
        let sections = self.entries.as_slice();
        let mut entries = Vec::fallible_with_capacity(sections.len())?;
        for (section_index, deltas) in sections {
            entries.push_reserved((*section_index, deltas.try_clone()?));
        }
        Ok(RelaxDeltaMap { entries })
    }
}

// Where the section is, or where it would go.
fn search(entries: &[(usize, SectionRelaxDeltas)], section_index: usize) -> Result<usize, usize> {
    entries.binary_search_by_key(&section_index, |entry| entry.0)
}
