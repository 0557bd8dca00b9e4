// SPDX-License-Identifier: MIT OR Apache-2.0
// Made by tools/generate of crates/linker_runs/src/relaxation/passes.rt.
//! Passes over a run: the places of targets, a layout, and one round.

use crate::linker_runs::items::ItemList;

/// For each item the place of its target, or `usize::MAX` where its shortest shape reaches that
/// while nothing is freed: then it is always in reach.
pub(super) fn find_places(items: &ItemList<'_>, start: u64, places: &mut [usize]) {
    for index in 0..items.len() {
        let item = items.at(index);
        places[index] = if item.reaches(0, 0, 0) {
            usize::MAX
        } else {
            items.place_of(item.target())
        };
    }
}

/// Gives each item its shortest shape.
pub(super) fn shorten(shapes: &mut [u8]) {
    for shape in shapes.iter_mut() {
        *shape = 0;
    }
}

/// For each item how many bytes those before it free, and at the end how many all do.
pub(super) fn lay_out(items: &ItemList<'_>, start: u64, shapes: &[u8], freed: &mut [u64]) {
    let mut before = 0;
    for index in 0..items.len() {
        let item = items.at(index);
        freed[index] = before;
        before += item.len() - item.kept_by(start, shapes[index], before);
    }
    freed[items.len()] = before;
}

/// For each item how many of its bytes stay.
pub(super) fn keep(items: &ItemList<'_>, start: u64, shapes: &[u8], freed: &[u64], kept: &mut [u64]) {
    for index in 0..items.len() {
        let item = items.at(index);
        kept[index] = item.kept_by(start, shapes[index], freed[index]);
    }
}

/// Whether the item at an index, which has a shape, is in reach of its target by a layout.
#[inline(always)]
fn is_in_reach(
    items: &ItemList<'_>,
    start: u64,
    places: &[usize],
    freed: &[u64],
    shape: u8,
    index: usize,
) -> bool {
    let place = places[index];
    let item = items.at(index);
    place > items.len() || item.reaches(shape, freed[index], freed[place])
}

/// Gives each site that is out of reach its next shape. Whether there is one.
pub(super) fn lengthen(
    items: &ItemList<'_>,
    start: u64,
    places: &[usize],
    freed: &[u64],
    shapes: &mut [u8],
) -> bool {
    let mut longer = false;
    for index in 0..items.len() {
        let shape = shapes[index];
        if !is_in_reach(items, start, places, freed, shape, index) {
            shapes[index] = shape + 1;
            longer = true;
        }
    }
    longer
}

/// How many rounds there are at most. Code has a few; calls of which each is out of reach only once
/// the next one is long take as many rounds as there are.
const MOST_ROUNDS: u32 = 64;

/// Rounds until no site is out of reach. Whether there are few enough.
pub(super) fn settle(
    items: &ItemList<'_>,
    start: u64,
    places: &[usize],
    freed: &mut [u64],
    shapes: &mut [u8],
) -> bool {
    shorten(shapes);
    lay_out(items, start, shapes, freed);
    for _round in 0..MOST_ROUNDS + 1 {
        if !lengthen(items, start, places, freed, shapes) {
            return true;
        }
        lay_out(items, start, shapes, freed);
    }
    false
}
