// SPDX-License-Identifier: MIT OR Apache-2.0
// Made by tools/generate of crates/linker_runs/src/relaxation/validity.rt.
//! What is tested of the items of a run.

use super::{Alignment, Item, Shapes, remainder};
use crate::linker_runs::items::ItemList;

/// Whether a number is a power of two.
#[inline]
pub(super) fn is_power_of_two(number: u64) -> bool {
    number.is_power_of_two()
}

impl Shapes {
    /// Whether no shape keeps more than n bytes.
    #[inline]
    pub(super) fn are_within(&self, len: u64) -> bool {
        u64::from(self.longest) <= len
            && (self.count < 1 || u64::from(self.short[0].kept) <= len)
            && (self.count < 2 || u64::from(self.short[1].kept) <= len)
    }

    /// Whether each short shape keeps fewer bytes than the next.
    #[inline]
    pub(super) fn are_ascending(&self) -> bool {
        (self.count < 1 || self.kept_by(0) < self.kept_by(1))
            && (self.count < 2 || self.kept_by(1) < self.kept_by(2))
    }

    /// Whether the short shape at an index, if there is one, has a power of two as its granularity.
    #[inline]
    fn has_granularity(&self, shape: u8) -> bool {
        shape >= self.count
            || is_power_of_two(u64::from(self.short[usize::from(shape)].granularity))
    }

    /// Whether all units are powers of two.
    #[inline]
    fn have_powers(&self) -> bool {
        self.has_granularity(0) && self.has_granularity(1)
    }

    /// Whether the second granularity, if there is one, is no greater than the first.
    #[inline]
    fn units_descend(&self) -> bool {
        let [first, second] = &self.short;
        self.count < 2 || second.granularity <= first.granularity
    }

    /// Whether the units are powers of two, none less than the next.
    #[inline]
    pub(super) fn have_units(&self) -> bool {
        self.have_powers() && self.units_descend()
    }

    /// Whether each short shape reaches its own offset, and none farther than the next.
    #[inline]
    pub(super) fn have_reaches(&self) -> bool {
        let [first, second] = &self.short;
        (self.count < 1 || first.max_forward > 0)
            && (self.count < 2
                || second.max_forward > 0
                    && first.max_backward <= second.max_backward
                    && first.max_forward <= second.max_forward)
    }

    /// Whether each shape of a site of n bytes frees a multiple of a granularity.
    #[inline]
    pub(super) fn are_even(&self, granularity: u64, len: u64) -> bool {
        remainder(len - self.kept_by(0), granularity) == 0
            && remainder(len - self.kept_by(1), granularity) == 0
            && remainder(len - self.kept_by(2), granularity) == 0
    }

    /// The greatest granularity of the short ones, and 1 where there is none.
    #[inline]
    fn granularity(&self) -> u64 {
        if self.count > 1 {
            u64::from(self.short[0].granularity.max(self.short[1].granularity))
        } else if self.count > 0 {
            u64::from(self.short[0].granularity)
        } else {
            1
        }
    }
}

impl Alignment {
    /// Whether it is a power of two.
    #[inline]
    pub(super) fn has_power(&self) -> bool {
        is_power_of_two(self.alignment)
    }

    /// Whether it keeps the nops that its input address needs in each layout
    /// of a run of a granularity.
    #[inline]
    pub(super) fn is_still(&self, granularity: u64, start: u64) -> bool {
        let nops = u64::from(self.nops);
        let needed = self.needed_at(start + self.offset);
        granularity % self.alignment == 0
            && self.max_skip.is_none()
            && needed <= nops
            && (nops - needed) % granularity == 0
    }

    /// Whether it has as many nops as it may need in a run of a granularity, if it has a limit.
    #[inline]
    pub(super) fn has_nops(&self, granularity: u64) -> bool {
        let nops = u64::from(self.nops);
        match self.max_skip {
            None => true,
            Some(most) => self.alignment.saturating_sub(nops) <= granularity || most <= nops,
        }
    }

    /// Whether its nops are a multiple of a granularity, if it has a limit.
    #[inline]
    pub(super) fn has_even_nops(&self, granularity: u64) -> bool {
        match self.max_skip {
            None => true,
            Some(_) => u64::from(self.nops) % granularity == 0,
        }
    }
}

impl Item {
    /// Whether it ends at or below the address 2^64 - 1 in a run at an address.
    #[inline]
    pub(super) fn ends_below(&self, start: u64) -> bool {
        let room = u64::MAX - start;
        self.offset() <= room && self.len() <= room - self.offset()
    }

    /// The greatest granularity of its short shapes.
    #[inline]
    fn granularity(&self) -> u64 {
        match self {
            Item::Site(site) => site.shapes.granularity(),
            Item::Aligned(_) => 1,
        }
    }

    /// Whether it aligns an offset after it to a multiple of a number in every layout.
    #[inline]
    fn is_anchor(&self, number: u64, offset: u64) -> bool {
        match self {
            Item::Site(_) => false,
            Item::Aligned(alignment) => {
                alignment.max_skip.is_none()
                    && alignment.alignment % number == 0
                    && (offset - (alignment.offset + u64::from(alignment.nops))) % number == 0
            }
        }
    }

    /// Whether it frees only multiples of a number that divides the address of an offset after it.
    #[inline]
    fn frees_multiples(&self, number: u64, offset: u64) -> bool {
        match self {
            Item::Site(site) => site.shapes.are_even(number, u64::from(site.len)),
            Item::Aligned(alignment) => {
                (offset - alignment.offset) % number == 0
                    && alignment.alignment % number == 0
                    && u64::from(alignment.nops) % number == 0
            }
        }
    }

    /// How many of its bytes stay in each choice.
    #[inline]
    fn least_len(&self) -> u64 {
        match self {
            Item::Site(site) => site.shapes.kept_by(0),
            Item::Aligned(_) => 0,
        }
    }
}

/// The greatest granularity of a run.
pub(super) fn run_granularity(items: &ItemList<'_>, start: u64) -> u64 {
    let mut granularity = 1;
    for index in 0..items.len() {
        let item = items.at(index);
        granularity = granularity.max(item.granularity());
    }
    granularity
}

/// Whether an offset is not inside what an item may lose.
pub(super) fn is_clear(items: &ItemList<'_>, start: u64, offset: u64) -> bool {
    let place = items.place_of(offset);
    if place == items.len() {
        return true;
    }
    let item = items.at(place);
    offset.saturating_sub(item.offset()) <= item.least_len()
}

/// Whether a number divides the output address of the item at an index in every layout.
fn is_always_multiple(items: &ItemList<'_>, start: u64, number: u64, index: usize) -> bool {
    let here = items.at(index);
    let offset = here.offset();
    for following in 0..index {
        let item = items.at(index - 1 - following);
        if item.is_anchor(number, offset) {
            return true;
        }
        if !item.frees_multiples(number, offset) {
            return false;
        }
    }
    (start + offset) % number == 0
}

/// Whether an alignment, the item at an index, has as many nops as it needs in every layout of a
/// run of a granularity.
fn are_always_enough(
    items: &ItemList<'_>,
    start: u64,
    granularity: u64,
    index: usize,
    alignment: &Alignment,
) -> bool {
    let unfilled = alignment
        .alignment
        .saturating_sub(u64::from(alignment.nops));
    unfilled <= granularity || is_always_multiple(items, start, unfilled.next_power_of_two(), index)
}

/// Whether the item at an index has as many nops as it needs in every layout of a run of a
/// granularity, if it is an alignment without a limit.
pub(super) fn has_its_nops(items: &ItemList<'_>, start: u64, granularity: u64, index: usize) -> bool {
    match items.at(index) {
        Item::Site(_) => true,
        Item::Aligned(alignment) => {
            alignment.max_skip.is_some()
                || are_always_enough(items, start, granularity, index, &alignment)
        }
    }
}
