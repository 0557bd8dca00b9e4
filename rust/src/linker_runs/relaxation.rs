// SPDX-License-Identifier: MIT OR Apache-2.0
// Made by tools/generate of crates/linker_runs/src/relaxation.rt.
//! Sites of instructions that can become shorter, alignments between them, and the choice of a
//! shape for each site.

use alloc::vec::Vec;
use crate::support::*;
use crate::linker_runs::items::{ItemList, ItemNumbers};
use crate::linker_base::relaxation::{OutOfMemory, SectionRelaxDeltas};

mod cautious;
mod faults;
mod passes;
mod validity;

use cautious::choose_cautiously;
pub use faults::{Fault, ItemFault, are_items, first_faulty};
use passes::{find_places, keep, lay_out, settle};
use validity::is_power_of_two;

/// One form of the instructions of a site, as C has it.
#[repr(C)]
#[derive(Default, Clone, Copy, PartialEq, Eq, Debug, Hash)]
pub struct Shape {
    /// How far below its output offset the target may lie, in bytes.
    pub max_backward: u64,
    /// The target has to lie less than this many bytes above its output offset, or at it.
    pub max_forward: u64,
    /// How many bytes of the site stay, from its first one on.
    pub kept: u32,
    /// The distance has to be a multiple of this number, which is a power of two.
    pub granularity: u32,
}

/// The forms that the instructions of a site can have, by ascending length, as C has them.
#[repr(C)]
#[derive(Default, Clone, Copy, PartialEq, Eq, Debug, Hash)]
pub struct Shapes {
    /// The short forms, of which the first `count` count.
    pub short: [Shape; 2],
    /// How many bytes stay where no short form reaches the target.
    pub longest: u32,
    /// How many short forms there are, up to two.
    pub count: u8,
}

/// Instructions that can become shorter where they reach their target.
#[derive(Clone, Copy, Debug, PartialEq, Eq, Hash)]
pub struct Site {
    /// The input offset of its first byte.
    pub offset: u64,
    /// How many bytes it has.
    pub len: u32,
    /// The input offset that it jumps to, or the address of which it computes. It means nothing
    /// where there are no short shapes.
    pub target: u64,
    /// What it can become.
    pub shapes: Shapes,
}

/// Nops that align what follows them.
#[derive(Clone, Copy, Debug, PartialEq, Eq, Hash)]
pub struct Alignment {
    /// The input offset of the first nop.
    pub offset: u64,
    /// How many bytes of nops there are.
    pub nops: u32,
    /// What the output address after them is a multiple of: a power of two.
    pub alignment: u64,
    /// How many bytes of nops may stay. Where more are needed, none stay.
    pub max_skip: Option<u64>,
}

/// A part of a run that relaxation may shorten.
#[derive(Clone, Copy, Debug, PartialEq, Eq, Hash)]
pub enum Item {
    /// Instructions.
    Site(Site),
    /// Nops that align what follows them.
    Aligned(Alignment),
}

impl Item {
    /// The input offset of its first byte.
    #[must_use]
    #[inline(always)]
    pub fn offset(&self) -> u64 {
        match self {
            Item::Site(site) => site.offset,
            Item::Aligned(alignment) => alignment.offset,
        }
    }

    /// How many bytes it has.
    #[must_use]
    #[inline(always)]
    pub fn len(&self) -> u64 {
        match self {
            Item::Site(site) => u64::from(site.len),
            Item::Aligned(alignment) => u64::from(alignment.nops),
        }
    }
}

/// What a number leaves when it is divided by another one. That is a power of two mostly, where no
/// division is needed.
#[inline(always)]
fn remainder(number: u64, divisor: u64) -> u64 {
    if is_power_of_two(divisor) {
        number & (divisor - 1)
    } else {
        number % divisor
    }
}

impl Shape {
    /// Whether a target is in reach, both given by output offsets.
    #[inline(always)]
    fn reaches(&self, from: u64, to: u64) -> bool {
        let granularity = u64::from(self.granularity);
        if from <= to {
            let distance = to - from;
            distance < self.max_forward && remainder(distance, granularity) == 0
        } else {
            let distance = from - to;
            distance <= self.max_backward && remainder(distance, granularity) == 0
        }
    }
}

impl Alignment {
    /// How many bytes of nops it takes from an address to the next multiple of the alignment.
    #[inline(always)]
    fn needed_at(&self, address: u64) -> u64 {
        remainder(
            self.alignment - remainder(address, self.alignment),
            self.alignment,
        )
    }

    /// How many nops stay where the first one has an output address.
    #[inline(always)]
    fn padding_at(&self, address: u64) -> u64 {
        let needed = self.needed_at(address);
        let nops = u64::from(self.nops);
        let limit = match self.max_skip {
            Some(most) => most.min(nops),
            None => nops,
        };
        if needed <= limit { needed } else { 0 }
    }
}

impl Item {
    /// Whether it ends at or below an offset.
    #[inline(always)]
    pub(crate) fn ends_by(&self, offset: u64) -> bool {
        self.offset() <= offset && self.len() <= offset - self.offset()
    }

    /// How many of its bytes go where n stay.
    #[inline(always)]
    fn lost(&self, kept: u64) -> u32 {
        match self {
            Item::Site(site) => site.len - kept as u32,
            Item::Aligned(alignment) => alignment.nops - kept as u32,
        }
    }

    /// The input offset that it has to reach: its own where it has nothing to reach.
    #[inline(always)]
    fn target(&self) -> u64 {
        match self {
            Item::Site(site) if site.shapes.count > 0 => site.target,
            _ => self.offset(),
        }
    }

    /// How many of its bytes stay with the shape at an index, where n before it are freed.
    #[inline(always)]
    fn kept_by(&self, start: u64, shape: u8, freed: u64) -> u64 {
        match self {
            Item::Site(site) => site.shapes.kept_by(shape),
            Item::Aligned(alignment) => alignment.padding_at(start + alignment.offset - freed),
        }
    }

    /// Whether it reaches its target with the shape at an index, where n bytes are freed
    /// before it, and n before the target.
    #[inline(always)]
    fn reaches(&self, shape: u8, here: u64, there: u64) -> bool {
        match self {
            Item::Site(site) => site.shapes.reaches(
                shape,
                site.offset.saturating_sub(here),
                self.target().saturating_sub(there),
            ),
            Item::Aligned(_) => true,
        }
    }
}

impl Shapes {
    /// How many bytes stay with the shape at an index.
    #[inline(always)]
    fn kept_by(&self, shape: u8) -> u64 {
        if shape >= self.count {
            u64::from(self.longest)
        } else if shape == 0 {
            u64::from(self.short[0].kept)
        } else {
            u64::from(self.short[1].kept)
        }
    }

    /// Whether the shape at an index reaches a target, both given by output offsets.
    #[inline(always)]
    fn reaches(&self, shape: u8, from: u64, to: u64) -> bool {
        if shape < self.count {
            self.short[usize::from(shape)].reaches(from, to)
        } else {
            true
        }
    }
}

/// Chooses a shape for each site, and says what stays of each item.
///
/// Each site has its shortest shape at first. Then the run is laid out, and each site that is out
/// of reach by that layout has its next shape; again, until none is. Where one still is after 64
/// such rounds, each site has the shortest shapes that are in reach where each alignment keeps all
/// of its nops.
///
/// `shapes` and `kept` have an element for each item: the index of the shape that a site has, and
/// how many of the item's bytes stay. `places` and `freed` are room for the work: `places` has an
/// element for each item too, and `freed` one more. Then `freed` has for each item how many bytes
/// those before it free, and at the end how many all do. What the arrays had before means nothing.
///
/// It doesn't allocate. A round is two passes over the items and takes O(n) for n items,
/// and so does a sweep, of which there are only after 64 rounds: one in each direction
/// finds all sites that become long one because of another in one direction. The places of
/// targets take O(n log n) once.
///
/// # Requires
///
/// - items: `are_items(items, start)`
/// - shapes: `shapes.len() == items.len()`
/// - kept: `kept.len() == items.len()`
/// - places: `places.len() == items.len()`
/// - freed: `(freed.len() as u128) == (items.len() as u128) + 1`
#[cfg_attr(debug_assertions, track_caller)]
pub fn relax_into(
    items: &[ItemNumbers],
    start: u64,
    shapes: &mut [u8],
    kept: &mut [u64],
    places: &mut [usize],
    freed: &mut [u64],
) {
    debug_assert!(are_items(items, start));
    debug_assert!(shapes.len() == items.len());
    debug_assert!(kept.len() == items.len());
    debug_assert!(places.len() == items.len());
    debug_assert!((freed.len() as u128) == (items.len() as u128) + 1);
    let list = ItemList::new(items);
    find_places(&list, start, places);
    if !settle(&list, start, places, freed, shapes) {
        choose_cautiously(&list, start, places, freed, shapes);
        lay_out(&list, start, shapes, freed);
    }
    keep(&list, start, shapes, freed, kept);
}

/// What [`relax`](crate::runs::relax()) chooses.
#[derive(Debug, Clone, PartialEq, Eq)]
pub struct Plan {
    /// For each item the index of the shape that it has if it is a site.
    pub shapes: Vec<u8>,
    /// For each item how many of its bytes stay, from its first one on.
    pub kept: Vec<u64>,
    /// For each item how many bytes those before it free, and at the end how many all do.
    pub freed: Vec<u64>,
    /// What the run loses.
    pub deletions: SectionRelaxDeltas,
}

/// What a run loses, where n bytes of each item stay from its first one on: a deletion for
/// each item that loses some. It allocates two times, and once more for more than 1,024 deletions.
///
/// # Requires
///
/// - items: the items are in order, as [`are_items`](crate::runs::are_items()) accepts them
/// - one_each: `kept.len() == items.len()`
#[cfg_attr(debug_assertions, track_caller)]
pub fn deletions(
    items: &[ItemNumbers],
    start: u64,
    kept: &[u64],
) -> Result<SectionRelaxDeltas, OutOfMemory> {
    debug_assert!(kept.len() == items.len());
    let list = ItemList::new(items);
    let mut raw = Vec::fallible_with_capacity(list.len())?;
    for index in 0..list.len() {
        let item = list.at(index);
        if kept[index] < item.len() {
            raw.fallible_push((item.offset() + kept[index], item.lost(kept[index])))?;
        }
    }
    SectionRelaxDeltas::new(&raw)
}

/// [`relax_into`](crate::runs::relax_into()) in memory of its own, with the deletions. It allocates six times, once for each
/// array and as `deletions` does.
///
/// # Requires
///
/// - `are_items(items, start)`
#[cfg_attr(debug_assertions, track_caller)]
pub fn relax(items: &[ItemNumbers], start: u64) -> Result<Plan, OutOfMemory> {
    debug_assert!(are_items(items, start));
    let mut shapes = try_vec![0; items.len()]?;
    let mut kept = try_vec![0; items.len()]?;
    let mut places = try_vec![0; items.len()]?;
    let mut freed = try_vec![0; kept.len() + 1]?;
    relax_into(
        items,
        start,
        &mut shapes,
        &mut kept,
        &mut places,
        &mut freed,
    );
    let lost = deletions(items, start, &kept)?;
    Ok(Plan {
        shapes,
        kept,
        freed,
        deletions: lost,
    })
}

/// The deletions of a relaxed run, as `deletions` lists them, translate the offset of each item and
/// of each target to what the layout leaves below it. So each distance that a shape reaches is one
/// of output offsets.
#[doc(hidden)]
pub fn translations_are_exact() {}
