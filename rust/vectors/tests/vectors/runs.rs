// SPDX-License-Identifier: MIT OR Apache-2.0
//! Runs of code: their items, their relaxation, and their packed sections.

mod items;
mod packing;
mod random;
mod relax;
mod rewritten;

pub use relax::cascade;

use linker_utils::runs::{Alignment, Item, ItemNumbers, Shapes, Site};

/// A site of eight bytes.
pub fn site(offset: u64, target: u64, shapes: Shapes) -> ItemNumbers {
    ItemNumbers::from_item(Item::Site(Site { offset, len: 8, target, shapes }))
}

pub fn aligned(offset: u64, nops: u32, alignment: u64, max_skip: Option<u64>) -> ItemNumbers {
    ItemNumbers::from_item(Item::Aligned(Alignment { offset, nops, alignment, max_skip }))
}
