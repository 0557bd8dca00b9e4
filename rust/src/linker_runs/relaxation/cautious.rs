// SPDX-License-Identifier: MIT OR Apache-2.0
// Made by tools/generate of crates/linker_runs/src/relaxation/cautious.rt.
//! The greatest choice that is in reach where each alignment keeps all of its nops.
//!
//! A sweep tests each site once, with what the choice frees at that time: from the last site to the
//! first, or from the first to the last. Of calls of which each depends on the next one, all are
//! found in a sweep that goes to meet them.

use super::Item;
use crate::linker_runs::items::ItemList;

impl Item {
    /// How many bytes it frees with the shape at an index, where alignments keep all.
    #[inline(always)]
    fn freed_cautiously(&self, shape: u8) -> u64 {
        match self {
            Item::Site(site) => u64::from(site.len) - site.shapes.kept_by(shape),
            Item::Aligned(_) => 0,
        }
    }
}

/// For each item how many bytes those before it free where alignments keep all, and at the end how
/// many all do.
fn lay_out_cautiously(items: &ItemList<'_>, start: u64, shapes: &[u8], freed: &mut [u64]) {
    let mut before = 0;
    for index in 0..items.len() {
        freed[index] = before;
        let item = items.at(index);
        before += item.freed_cautiously(shapes[index]);
    }
    freed[items.len()] = before;
}

/// Gives the site at an index its next shape if it is out of reach, and returns how many bytes
/// fewer it then frees. What `freed` has after the index is `more` above what the choice frees.
fn lengthen_at(
    items: &ItemList<'_>,
    start: u64,
    places: &[usize],
    freed: &[u64],
    more: u64,
    shapes: &mut [u8],
    index: usize,
) -> u64 {
    let place = places[index];
    if place > items.len() {
        return 0;
    }
    let there = if place <= index {
        freed[place]
    } else {
        freed[place] - more
    };
    let item = items.at(index);
    let shape = shapes[index];
    if item.reaches(shape, freed[index], there) {
        return 0;
    }
    shapes[index] = shape + 1;
    item.freed_cautiously(shape) - item.freed_cautiously(shape + 1)
}

/// A sweep from the last site to the first. Whether a shape is longer after it. `freed` is used up.
fn sweep_back(
    items: &ItemList<'_>,
    start: u64,
    places: &[usize],
    freed: &mut [u64],
    shapes: &mut [u8],
) -> bool {
    let mut more = 0;
    for following in 0..items.len() {
        let index = items.len() - 1 - following;
        more += lengthen_at(items, start, places, freed, more, shapes, index);
        freed[index] += more;
    }
    more > 0
}

/// A sweep from the first site to the last. Each site that was out of reach before it has a longer
/// shape after it. `freed` is used up.
fn sweep_ahead(
    items: &ItemList<'_>,
    start: u64,
    places: &[usize],
    freed: &mut [u64],
    shapes: &mut [u8],
) {
    let mut more = 0;
    for index in 0..items.len() {
        freed[index] -= more;
        more += lengthen_at(items, start, places, freed, more, shapes, index);
    }
}

/// Sweeps until no site is out of reach where alignments keep all.
pub(super) fn choose_cautiously(
    items: &ItemList<'_>,
    start: u64,
    places: &[usize],
    freed: &mut [u64],
    shapes: &mut [u8],
) {
    lay_out_cautiously(items, start, shapes, freed);
    while sweep_back(items, start, places, freed, shapes) {
        lay_out_cautiously(items, start, shapes, freed);
        sweep_ahead(items, start, places, freed, shapes);
        lay_out_cautiously(items, start, shapes, freed);
    }
}
