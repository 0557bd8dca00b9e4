// SPDX-License-Identifier: MIT OR Apache-2.0
// Made by tools/generate of crates/linker_runs/src/items/list.rt.
//! The items of a run, in an array of the caller's.

use crate::linker_runs::items::ItemNumbers;
use crate::linker_runs::relaxation::Item;

/// The items of a run.
pub(crate) struct ItemList<'a> {
    elements: &'a [ItemNumbers],
}

impl<'a> ItemList<'a> {
    /// The items of an array.
    #[inline(always)]
    pub(crate) fn new(elements: &'a [ItemNumbers]) -> ItemList<'a> {
        ItemList { elements }
    }

    /// How many there are.
    #[inline(always)]
    pub(crate) fn len(&self) -> usize {
        self.elements.len()
    }

    /// The item at an index.
    #[inline(always)]
    pub(crate) fn at(&self, index: usize) -> Item {
        let elements = self.elements;
        elements[index].as_item()
    }

    /// How many items end at or below an offset.
    pub(crate) fn place_of(&self, offset: u64) -> usize {
        let (mut low, mut high) = (0, self.len());
        while low < high {
            let middle = low + (high - low) / 2;
            if self.at(middle).ends_by(offset) {
                low = middle + 1;
            } else {
                high = middle;
            }
        }
        low
    }
}
