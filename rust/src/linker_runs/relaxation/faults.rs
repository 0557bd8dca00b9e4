// SPDX-License-Identifier: MIT OR Apache-2.0
// Made by tools/generate of crates/linker_runs/src/relaxation/faults.rt.
//! Which runs can be relaxed, and what is wrong with the others.

use super::validity::{has_its_nops, is_clear, run_granularity};
use super::{Alignment, Item, Shapes, Site};
use crate::linker_runs::items::{ItemList, ItemNumbers};
#[cfg(feature = "loongarch64")]
use crate::linker_runs::shapes::loongarch64::CALL36;

/// Why a run can't be relaxed: what is wrong with one of its items. Of an item that has several
/// faults, the one that comes first here is returned. u is the greatest granularity of all short
/// shapes.
///
/// An alignment is *still* if it divides u, has no limit, and has the nops that its input address
/// needs, and beside these a multiple of u. It keeps the same nops in each layout.
#[cfg_attr(not(exhaustive), non_exhaustive)]
#[derive(Clone, Copy, Debug, PartialEq, Eq, Hash)]
pub enum Fault {
    /// It begins below the end of the item before it.
    Overlaps,
    /// The address after it is above 2^64 - 1.
    TooHigh,
    /// It has more than two short shapes.
    TooManyShapes,
    /// A shape keeps more bytes than the site has.
    ShapeTooLong,
    /// A short shape keeps no fewer bytes than the next shape.
    ShapesNotAscending,
    /// The granularity of a short shape isn't a power of two, or isn't a
    /// multiple of the next one's.
    BadGranularity,
    /// A short shape doesn't reach its own offset, or reaches farther than the next short one.
    BadReach,
    /// The alignment isn't a power of two.
    BadAlignment,
    /// A shape frees bytes that aren't a multiple of u.
    UnevenShape,
    /// It is an `R_LARCH_CALL36`, whose shapes are `CALL36`, and its target isn't a multiple of 4
    /// bytes away. No instruction of it reaches such a target.
    Misaligned,
    /// The alignment isn't a multiple of u, nor still.
    AlignmentBelowGranularity,
    /// The address after the nops isn't a multiple of u, and the alignment isn't still.
    UnevenEnd,
    /// It has a limit, and there are fewer nops than the alignment less u, and fewer than may stay.
    TooFewNops,
    /// It has a limit, and its nops aren't a multiple of u.
    UnevenNops,
    /// Its target is strictly inside the bytes that an item may lose.
    TargetInside,
    /// It is an alignment without a limit, and in some layout more nops may be
    /// needed than there are.
    MayBeMisaligned,
}

/// A faulty item of a run.
#[derive(Clone, Copy, Debug, PartialEq, Eq, Hash)]
pub struct ItemFault {
    /// The item's index.
    pub index: usize,
    /// What is wrong with it.
    pub fault: Fault,
}

impl Shapes {
    /// What is wrong with shapes of a site of n bytes.
    #[inline]
    fn fault(&self, len: u64) -> Option<Fault> {
        if self.count > 2 {
            Some(Fault::TooManyShapes)
        } else if !self.are_within(len) {
            Some(Fault::ShapeTooLong)
        } else if !self.are_ascending() {
            Some(Fault::ShapesNotAscending)
        } else if !self.have_units() {
            Some(Fault::BadGranularity)
        } else if !self.have_reaches() {
            Some(Fault::BadReach)
        } else {
            None
        }
    }
}

impl Alignment {
    /// What is wrong with it in a run of a granularity at an address.
    #[inline]
    fn fault(&self, granularity: u64, start: u64) -> Option<Fault> {
        if self.is_still(granularity, start) {
            None
        } else if self.alignment % granularity != 0 {
            Some(Fault::AlignmentBelowGranularity)
        } else if (start + (self.offset + u64::from(self.nops))) % granularity != 0 {
            Some(Fault::UnevenEnd)
        } else if !self.has_nops(granularity) {
            Some(Fault::TooFewNops)
        } else if !self.has_even_nops(granularity) {
            Some(Fault::UnevenNops)
        } else {
            None
        }
    }
}

impl Site {
    /// Whether its target is a multiple of 4 bytes away, if it is an `R_LARCH_CALL36`.
    #[inline]
    fn is_in_words(&self) -> bool {
        #[cfg(not(feature = "loongarch64"))]
        {
            true
        }
        #[cfg(feature = "loongarch64")]
        {
        if self.shapes == CALL36 {
            self.target % 4 == self.offset % 4
        } else {
            true
        }
        }
    }
}

impl Item {
    /// What is wrong with it by itself.
    #[inline]
    fn fault(&self) -> Option<Fault> {
        match self {
            Item::Site(site) => site.shapes.fault(u64::from(site.len)),
            Item::Aligned(alignment) => {
                if alignment.has_power() {
                    None
                } else {
                    Some(Fault::BadAlignment)
                }
            }
        }
    }

    /// What is wrong with it in a run of a granularity at an address.
    #[inline]
    fn granularity_fault(&self, granularity: u64, start: u64) -> Option<Fault> {
        match self {
            Item::Site(site) => {
                if !site.shapes.are_even(granularity, u64::from(site.len)) {
                    Some(Fault::UnevenShape)
                } else if !site.is_in_words() {
                    Some(Fault::Misaligned)
                } else {
                    None
                }
            }
            Item::Aligned(alignment) => alignment.fault(granularity, start),
        }
    }
}

/// What is wrong with the item at an index by itself or by its place.
fn own_fault(items: &ItemList<'_>, start: u64, index: usize) -> Option<Fault> {
    let item = items.at(index);
    if index > 0 && !items.at(index - 1).ends_by(item.offset()) {
        Some(Fault::Overlaps)
    } else if !item.ends_below(start) {
        Some(Fault::TooHigh)
    } else {
        item.fault()
    }
}

/// What is wrong with the item at an index among the others, in a run of a granularity.
fn run_fault(items: &ItemList<'_>, start: u64, granularity: u64, index: usize) -> Option<Fault> {
    let item = items.at(index);
    if let Some(fault) = item.granularity_fault(granularity, start) {
        return Some(fault);
    }
    if !is_clear(items, start, item.target()) {
        Some(Fault::TargetInside)
    } else if !has_its_nops(items, start, granularity, index) {
        Some(Fault::MayBeMisaligned)
    } else {
        None
    }
}

/// The first item with a fault by itself or by its place.
fn first_own_fault(items: &ItemList<'_>, start: u64) -> Option<ItemFault> {
    for index in 0..items.len() {
        if let Some(fault) = own_fault(items, start, index) {
            return Some(ItemFault { index, fault });
        }
    }
    None
}

/// The first item with a fault among the others.
fn first_run_fault(items: &ItemList<'_>, start: u64) -> Option<ItemFault> {
    let granularity = run_granularity(items, start);
    for index in 0..items.len() {
        if let Some(fault) = run_fault(items, start, granularity, index) {
            return Some(ItemFault { index, fault });
        }
    }
    None
}

/// The first faulty item of a run at an address, and its first fault; none where [`relax`](crate::runs::relax()) and
/// [`relax_into`](crate::runs::relax_into()) accept the run.
///
/// The faults from `UnevenShape` on are about an item among the others. They count only where no
/// item has one of those before.
///
/// It doesn't allocate, and takes O(n log n) for n items.
#[must_use]
pub fn first_faulty(items: &[ItemNumbers], start: u64) -> Option<ItemFault> {
    let list = ItemList::new(items);
    if let Some(found) = first_own_fault(&list, start) {
        return Some(found);
    }
    first_run_fault(&list, start)
}

/// Whether [`relax`](crate::runs::relax()) and [`relax_into`](crate::runs::relax_into()) accept a run at an address.
///
/// The items ascend, none reaches past the next, and the address after the last is below 2^64. No
/// shape of a site keeps more bytes than the site has, and each keeps fewer than the next. Each
/// short one reaches its own offset and no farther than the next short one; its granularity is a
/// power of two and a multiple of the next one's. With u the greatest granularity of all short
/// shapes each shape frees a multiple of u, and each alignment, a power of two, and the address
/// after its nops are multiples of u; but an alignment may also divide u, have no limit and have
/// the nops that its input address needs, and beside these a multiple of u. No target is strictly
/// inside the bytes that an item may lose; that of a site without short shapes isn't required. That
/// of an `R_LARCH_CALL36` is a multiple of 4 bytes away.
///
/// An alignment with a limit has as many nops as the alignment less u, or no more may stay than
/// there are; its nops are a multiple of u. One without a limit has as many as it needs in every
/// layout: as many as the alignment less u, or as many as it less w, where w is the least such
/// power of two and divides the address of the first nop in every layout. It does if it divides the
/// alignment without a limit before it, or the address `start`, and the bytes from there, and if
/// what lies in between frees multiples of w: each shape of a site; an alignment with a limit where
/// w divides the alignment, its nops and the bytes from there.
///
/// It doesn't allocate, and takes O(n log n) for n items. [`first_faulty`](crate::runs::first_faulty()) says what is wrong.
#[must_use]
pub fn are_items(items: &[ItemNumbers], start: u64) -> bool {
    first_faulty(items, start).is_none()
}
