// SPDX-License-Identifier: MIT OR Apache-2.0
//! Where the offsets of a section are in a linked file.

use crate::elf::{Linked, Section};

/// Offsets of a section, by offset, and their addresses.
pub type Anchors = Vec<(u64, u64)>;

/// The address of what isn't in the linked file, in `Anchors`.
pub const NOWHERE: u64 = 1 << 62;

/// The address of an offset, by what is at or before it.
pub fn address_in(map: &Anchors, offset: u64) -> Option<u64> {
    address_at(map, map.partition_point(|(start, _)| *start <= offset), offset)
}

/// The same, where the index of what is behind the offset is known.
fn address_at(map: &Anchors, after: usize, offset: u64) -> Option<u64> {
    let (start, address) = map.get(after.saturating_sub(1))?;
    (*address != NOWHERE).then(|| address.wrapping_add(offset).wrapping_sub(*start))
}

/// Where the bytes between two offsets are, if nothing is deleted between them.
pub fn address_of_whole(map: &Anchors, (start, end): (u64, u64)) -> Option<u64> {
    let after = map.partition_point(|(offset, _)| *offset <= start);
    let address = address_at(map, after, start)?;
    let is_whole = map.get(after).is_none_or(|(offset, there)| {
        *offset >= end && there.wrapping_sub(address) == offset - start
    });
    is_whole.then_some(address)
}

/// The bytes of a window, at most 64 of them.
#[derive(Clone, Copy)]
pub struct Bytes {
    all: [u8; 64],
    len: usize,
}

impl Bytes {
    pub const NONE: Bytes = Bytes { all: [0; 64], len: 0 };

    /// `None` where there is no room.
    pub fn of(bytes: &[u8]) -> Option<Bytes> {
        let mut it = Bytes::NONE;
        it.push(bytes)?;
        Some(it)
    }

    /// Adds bytes behind these, if there is room.
    pub fn push(&mut self, bytes: &[u8]) -> Option<()> {
        self.all.get_mut(self.len..self.len + bytes.len())?.copy_from_slice(bytes);
        self.len += bytes.len();
        Some(())
    }
}

impl std::ops::Deref for Bytes {
    type Target = [u8];

    fn deref(&self) -> &[u8] {
        &self.all[..self.len]
    }
}

impl std::ops::DerefMut for Bytes {
    fn deref_mut(&mut self) -> &mut [u8] {
        &mut self.all[..self.len]
    }
}

/// Some bytes of a section as they are in the linked file.
pub struct Window {
    /// Without those that were deleted of a relocation, and with the object's where others were.
    pub bytes: Bytes,
    /// How many were deleted of the relocation.
    pub deleted: u64,
    /// Where they would begin if none before the relocation were deleted.
    pub address: u64,
}

/// The bytes between two offsets of a section, at most 64 apart, for a relocation that is of those of `own`.
pub fn window(
    linked: &Linked,
    it: &Section,
    map: &Anchors,
    (start, end): (u64, u64),
    own: (u64, u64),
) -> Option<Window> {
    // mostly nothing is deleted up to the next offset that is known
    let whole = address_of_whole(map, (start, end)).filter(|_| own.0 >= start && own.0 < end);
    if let Some(address) = whole {
        let bytes = linked.bytes_at(address)?.get(..(end - start) as usize)?;
        return Some(Window { bytes: Bytes::of(bytes)?, deleted: 0, address });
    }
    let after = map.partition_point(|(offset, _)| *offset <= start);
    let (mut at, mut address) = (start, address_at(map, after, start)?);
    let before = own.0.wrapping_sub(start);
    let place = address_in(map, own.0)?;
    let address_of_start = place.wrapping_sub(before);
    let mut found = Window { bytes: Bytes::NONE, deleted: 0, address: address_of_start };
    let next = map[after..].iter().copied().chain([(u64::MAX, 0)]);
    for (offset, there) in next {
        // the bytes that are deleted before the next offset
        let past = address.wrapping_add(offset - at);
        let deleted = past.wrapping_sub(there);
        // or else what is behind is somewhere else
        let is_near = offset != u64::MAX && deleted <= offset - at;
        let kept = (offset - at).checked_sub(if is_near { deleted } else { 0 })?.min(end - at);
        if kept > 0 {
            found.bytes.push(linked.bytes_at(address)?.get(..kept as usize)?)?;
        }
        at += kept;
        if at == end || !is_near {
            return (at == end).then_some(found);
        }
        let to = offset.min(end);
        if own.0 <= at && to <= own.1 {
            found.deleted += to - at;
        } else {
            found.bytes.push(it.bytes.get(at as usize..to as usize)?)?;
        }
        (at, address) = (to, there);
        if at == end {
            return Some(found);
        }
    }
    None
}
