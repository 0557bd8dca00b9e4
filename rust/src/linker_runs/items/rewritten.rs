// SPDX-License-Identifier: MIT OR Apache-2.0
// Made by tools/generate of crates/linker_runs/src/items/rewritten.rt.
//! The items of a section that was rewritten.

use super::{AsRelocation, ItemNumbers, ahead, first_malformed, has_bytes, item_at};
use crate::linker_runs::packing::Machine;
use crate::linker_runs::relaxation::{Item, Site};
use crate::linker_runs::shapes::fixed;
use crate::linker_base::relaxation::AsDeletion;

/// Why no items are made of a section that was rewritten.
#[cfg_attr(not(exhaustive), non_exhaustive)]
#[derive(Clone, Copy, Debug, PartialEq, Eq, Hash)]
pub enum RewrittenItemsError {
    /// The index of the first relocation that isn't what the psABI allows.
    Malformed(usize),
    /// The index of the first deletion that begins below the end of the one before it, or doesn't
    /// lie in the section.
    Misplaced(usize),
    /// The index of a relocation whose item begins below the end of that of an earlier relocation,
    /// or has deleted bytes.
    Overlaps(usize),
}

/// The deletion at an index.
#[inline(always)]
fn deletion_at<L: AsDeletion>(deleted: &[L], index: usize) -> (u64, u32) {
    deleted[index].as_deletion()
}

/// The index of the first deletion that begins below the end of the one before it, or doesn't lie
/// in the section.
fn first_misplaced<L: AsDeletion>(section: &[u8], deleted: &[L]) -> Option<usize> {
    let mut end = 0;
    for index in 0..deleted.len() {
        let (offset, bytes) = deletion_at(deleted, index);
        if offset < end || !has_bytes(section, offset, u64::from(bytes)) {
            return Some(index);
        }
        end = offset + u64::from(bytes);
    }
    None
}

/// How many items are listed, how many of them are deletions, and where the last one ends.
#[derive(Clone, Copy)]
struct Listed {
    count: usize,
    gone: usize,
    end: u64,
}

/// The item of a deletion.
#[inline(always)]
fn deletion(base: u64, offset: u64, bytes: u32) -> Item {
    Item::Site(Site {
        offset: base + offset,
        len: bytes,
        target: base + offset,
        shapes: fixed(0),
    })
}

/// Lists the deletions that begin at or below an offset of the run, of those
/// that aren't listed yet.
fn list_deletions<L: AsDeletion>(
    base: u64,
    relocations_len: usize,
    deleted: &[L],
    offset: u64,
    listed: Listed,
    out: &mut [ItemNumbers],
    makers: &mut [usize],
) -> Listed {
    let mut count = listed.count;
    let mut end = listed.end;
    for gone in listed.gone..deleted.len() {
        let (start, bytes) = deletion_at(deleted, gone);
        if base + start > offset {
            return Listed { count, gone, end };
        }
        out[count] = ItemNumbers::from_item(deletion(base, start, bytes));
        makers[count] = relocations_len + gone;
        count += 1;
        end = base + (start + u64::from(bytes));
    }
    Listed {
        count,
        gone: deleted.len(),
        end,
    }
}

/// Whether the deletion at an index, if there is one, begins below the end of an item.
#[inline(always)]
fn is_cut<L: AsDeletion>(base: u64, deleted: &[L], index: usize, item: &Item) -> bool {
    if index >= deleted.len() {
        return false;
    }
    let (start, _bytes) = deletion_at(deleted, index);
    base + start < item.offset() + item.len()
}

/// Lists the item of the relocation at an index after the deletions that begin at or below it.
/// None where it overlaps one of them or of the items before it.
#[inline]
fn list_item<L: AsDeletion>(
    base: u64,
    relocations_len: usize,
    deleted: &[L],
    index: usize,
    item: &Item,
    listed: Listed,
    out: &mut [ItemNumbers],
    makers: &mut [usize],
) -> Option<Listed> {
    if item.offset() < listed.end {
        return None;
    }
    let all = list_deletions(
        base,
        relocations_len,
        deleted,
        item.offset(),
        listed,
        out,
        makers,
    );
    if item.offset() < all.end || is_cut(base, deleted, all.gone, item) {
        return None;
    }
    out[all.count] = ItemNumbers::from_item(*item);
    makers[all.count] = index;
    Some(Listed {
        count: all.count + 1,
        gone: all.gone,
        end: item.offset() + item.len(),
    })
}

/// Lists the items of a section whose relocations and deletions are tested, and returns how many
/// they are. The error is the index of a relocation that overlaps.
#[inline]
fn list_items<R: AsRelocation, L: AsDeletion>(
    machine: Machine,
    section: &[u8],
    base: u64,
    relocations: &[R],
    deleted: &[L],
    out: &mut [ItemNumbers],
    makers: &mut [usize],
) -> Result<usize, usize> {
    let len = relocations.len();
    let mut listed = Listed {
        count: 0,
        gone: 0,
        end: 0,
    };
    let mut next = 0;
    for index in 0..len {
        next = ahead(machine, relocations, index, next);
        if let Some(item) = item_at(machine, section, base, relocations, index, next) {
            match list_item(base, len, deleted, index, &item, listed, out, makers) {
                Some(more) => listed = more,
                None => return Err(index),
            }
        }
    }
    Ok(list_deletions(base, len, deleted, u64::MAX, listed, out, makers).count)
}

/// `crate::link::rewritten_items_into`, with more parameters.
#[cfg_attr(debug_assertions, track_caller)]
pub fn rewritten_items_into<R: AsRelocation, L: AsDeletion>(
    machine: Machine,
    section: &[u8],
    base: u64,
    relocations: &[R],
    deleted: &[L],
    out: &mut [ItemNumbers],
    makers: &mut [usize],
) -> Result<usize, RewrittenItemsError> {
    debug_assert!((base as u128) + (section.len() as u128) < 1 << 64);
    debug_assert!((out.len() as u128) == (relocations.len() as u128) + (deleted.len() as u128));
    debug_assert!((makers.len() as u128) == (relocations.len() as u128) + (deleted.len() as u128));
    if let Some(index) = first_malformed(machine, section, relocations) {
        return Err(RewrittenItemsError::Malformed(index));
    }
    if let Some(index) = first_misplaced(section, deleted) {
        return Err(RewrittenItemsError::Misplaced(index));
    }
    match list_items(machine, section, base, relocations, deleted, out, makers) {
        Ok(count) => Ok(count),
        Err(index) => Err(RewrittenItemsError::Overlaps(index)),
    }
}
