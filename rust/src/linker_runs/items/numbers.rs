// SPDX-License-Identifier: MIT OR Apache-2.0
// Made by tools/generate of crates/linker_runs/src/items/numbers.rt.
//! The items of a run in numbers.

use crate::linker_runs::relaxation::{Alignment, Item, Shapes, Site};
use crate::linker_runs::shapes::fixed;

/// A part of a run that relaxation may shorten, in numbers, as C has it. Any numbers are an item.
#[repr(C)]
#[derive(Default, Clone, Copy, Debug, PartialEq, Eq, Hash)]
pub struct ItemNumbers {
    /// The input offset of its first byte.
    pub offset: u64,
    /// The input offset that a site has to reach. Of an alignment it means nothing.
    pub target: u64,
    /// What the output address after an alignment is a multiple of: a power of two. Of a site it
    /// means nothing.
    pub alignment: u64,
    /// How many bytes of nops of an alignment with a limit may stay. Where more are needed, none
    /// stay.
    pub max_skip: u64,
    /// How many bytes it has.
    pub len: u32,
    /// 0 is a site, 1 an alignment without limit, any other number an alignment with a limit.
    pub kind: u32,
    /// What a site can become. Of an alignment they mean nothing.
    pub shapes: Shapes,
}

impl ItemNumbers {
    /// The item.
    #[must_use]
    #[inline(always)]
    pub fn as_item(&self) -> Item {
        if self.kind == 0 {
            Item::Site(Site {
                offset: self.offset,
                len: self.len,
                target: self.target,
                shapes: self.shapes,
            })
        } else {
            Item::Aligned(Alignment {
                offset: self.offset,
                nops: self.len,
                alignment: self.alignment,
                max_skip: if self.kind == 1 {
                    None
                } else {
                    Some(self.max_skip)
                },
            })
        }
    }

    /// The numbers of an item.
    #[must_use]
    #[inline(always)]
    pub fn from_item(item: Item) -> ItemNumbers {
        match item {
            Item::Site(site) => ItemNumbers {
                offset: site.offset,
                target: site.target,
                alignment: 0,
                max_skip: 0,
                len: site.len,
                kind: 0,
                shapes: site.shapes,
            },
            Item::Aligned(alignment) => ItemNumbers {
                offset: alignment.offset,
                target: 0,
                alignment: alignment.alignment,
                max_skip: match alignment.max_skip {
                    None => 0,
                    Some(most) => most,
                },
                len: alignment.nops,
                kind: match alignment.max_skip {
                    None => 1,
                    Some(_) => 2,
                },
                shapes: fixed(0),
            },
        }
    }
}
