// SPDX-License-Identifier: MIT OR Apache-2.0
//! Traits of Rust that the proved source doesn't implement and rustc can't derive, and the sections
//! of a map one by one.

use crate::elf::Row;
use crate::relaxation::{RelaxDeltaMap, SectionRelaxDeltas};
use core::fmt::{Debug, Formatter, Result};
use core::hash::{Hash, Hasher};
use core::iter::Map;
use core::slice::Iter;

impl Debug for Row {
    fn fmt(&self, f: &mut Formatter<'_>) -> Result {
        f.debug_tuple("Row").field(&self.info()).finish()
    }
}

/// Rows are equal that mean the same.
impl PartialEq for Row {
    fn eq(&self, other: &Row) -> bool {
        self.info() == other.info()
    }
}

impl Eq for Row {}

impl Hash for Row {
    fn hash<H: Hasher>(&self, state: &mut H) {
        self.info().hash(state);
    }
}

/// Deltas are equal that list the same deletions.
impl PartialEq for SectionRelaxDeltas {
    fn eq(&self, other: &SectionRelaxDeltas) -> bool {
        self.deltas() == other.deltas()
    }
}

impl Eq for SectionRelaxDeltas {}

type Entry = (usize, SectionRelaxDeltas);

impl RelaxDeltaMap {
    /// The sections by ascending index, each with its deltas.
    #[must_use]
    pub fn iter(
        &self,
    ) -> impl DoubleEndedIterator<Item = (usize, &SectionRelaxDeltas)> + ExactSizeIterator + Clone
    {
        self.into_iter()
    }
}

impl<'a> IntoIterator for &'a RelaxDeltaMap {
    type Item = (usize, &'a SectionRelaxDeltas);
    type IntoIter = Map<Iter<'a, Entry>, fn(&'a Entry) -> Self::Item>;

    fn into_iter(self) -> Self::IntoIter {
        self.entries.iter().map(|(index, deltas)| (*index, deltas))
    }
}
