// SPDX-License-Identifier: MIT OR Apache-2.0
//! The rewrite after which the linked bytes are as they are.

use crate::map::{self, Anchors, Bytes};
use crate::elf::{Home, Linked, Relocation, Section};
use crate::made::{self, Before, Chosen, Field};
use crate::side::{Side, Target};
use crate::targets::Pending;
use linker_utils::elf::Architecture;
use linker_utils::recognise::{FieldBits, field_bits};
use object::elf::{
    R_PPC64_ADDR64, R_PPC64_GOT16_HA, R_PPC64_GOT16_LO_DS, R_PPC64_TLS, R_PPC64_TOC16_HA,
    R_PPC64_TOC16_LO_DS,
};
use std::cell::{Cell, OnceCell, RefCell};

pub struct Found {
    /// A rewrite before this one.
    pub first: Option<Chosen>,
    pub chosen: Chosen,
    /// A relocation after which the bytes are the same, where this one leads through the GOT and the
    /// other doesn't, or the reverse: of a high part alone.
    pub other: Option<u32>,
    pub is_through_got: bool,
    pub target: Target,
    /// The window of the section that was looked at.
    pub start: u64,
    pub end: u64,
}

impl Found {
    fn is_sure(&self) -> bool {
        self.target == Target::AsWritten
    }

    fn is_alone(&self) -> bool {
        self.first.is_none() && !self.chosen.is_rewrite()
    }
}

/// What is looked for.
#[derive(Clone, Copy)]
enum Pass {
    /// A rewrite of the library.
    Library,
    /// One that it doesn't list.
    Own,
    /// Two of the library, one after the other.
    Twice,
}

/// A relocation of a section, and where the section's bytes are in the linked file.
#[derive(Clone, Copy)]
pub struct At<'a> {
    pub object: usize,
    pub it: &'a Section<'a>,
    pub index: usize,
    pub map: &'a Anchors,
    /// What requires the places of sections.
    pub pending: &'a RefCell<Vec<Pending>>,
}

/// How many other relocations a window mostly has at most.
const OTHERS: usize = 16;

impl Side<'_> {
    /// The choice that leaves the bytes of the widest window; of several the one whose relocation
    /// leads to its symbol, and of these the one that is unchanged.
    pub fn recognise(&self, at: At) -> Option<Found> {
        let one = &at.it.relocations[at.index];
        let mut best = self.recognise_as(at, one);
        let Some(word) = self.address_in_toc(at.object, one) else { return best };
        if let Some(best) = best.as_mut().filter(|best| best.is_alone()) {
            best.is_through_got = true; // the word is an entry of the GOT
        }
        let direct = self.recognise_as(at, &word).filter(|direct| !direct.is_through_got);
        let is_unknown = best.is_none();
        let direct = direct.filter(|direct| direct.is_sure() || is_unknown);
        match (best, direct) {
            (Some(mut best), Some(direct)) if best.is_sure() => {
                if best.is_alone() && direct.is_alone() {
                    best.other = Some(direct.chosen.relocation);
                }
                Some(best)
            }
            (best, None) => best,
            (_, direct) => direct,
        }
    }

    /// PowerPC64: what a load from the TOC is of the address that is in the word there. So linkers see
    /// it that take the address itself.
    fn address_in_toc(&self, object: usize, one: &Relocation) -> Option<Relocation> {
        let r_type = match (self.linked.architecture, one.r_type) {
            (Architecture::Ppc64, R_PPC64_TOC16_HA) => R_PPC64_GOT16_HA,
            (Architecture::Ppc64, R_PPC64_TOC16_LO_DS) => R_PPC64_GOT16_LO_DS,
            _ => return None,
        };
        let symbol = &self.objects[object].symbols[one.symbol];
        let Home::Section(section) = symbol.home else { return None };
        let toc = &self.objects[object].sections[section];
        let at = symbol.value.wrapping_add(one.addend as u64);
        let words = &toc.relocations;
        let word = words.get(words.partition_point(|word| word.offset < at))?;
        let is_address = toc.name == ".toc" && word.offset == at && word.r_type == R_PPC64_ADDR64;
        let (offset, symbol, addend) = (one.offset, word.symbol, word.addend);
        is_address.then_some(Relocation { offset, r_type, symbol, addend })
    }

    /// The choice for a relocation of which the library lists no rewrite, where its field alone is
    /// another, no other relocation is of its bytes, and it leads to its symbol.
    fn unchanged(&self, at: At, one: &Relocation) -> Option<Found> {
        let (architecture, linked) = (self.linked.architecture, self.linked);
        if made::is_rewritten(architecture, one.r_type) {
            return None;
        }
        let row = made::row(architecture, one.r_type)?;
        let (start, end) = (one.offset, one.offset + made::len(architecture, one.r_type));
        let original = at.it.bytes.get(start as usize..end as usize)?;
        let is_other = |other: &Relocation| {
            let row = made::row(architecture, other.r_type);
            row.is_some_and(|row| other.offset + row.window() as u64 > start)
        };
        let before = at.it.relocations[..at.index].iter().rev();
        let after = at.it.relocations[at.index + 1..].iter();
        if before.take_while(|other| other.offset + 16 > start).any(is_other)
            || after.take_while(|other| other.offset < end).any(is_other)
        {
            return None;
        }
        let address = map::address_of_whole(at.map, (start, end))?;
        let there = linked.bytes_at(address)?.get(..original.len())?;
        let kept = !field_bits(row, original);
        if (number(original)? ^ number(there)?) & kept != 0 || !has_same_opcode(linked, at) {
            return None;
        }
        let field = Field::of(row, there, address, one.addend)?;
        let target = self.target_of(at, one, &field);
        let is_through_got = field.is_through_got();
        let chosen = Chosen::nothing(architecture, one.r_type)?;
        let found = Found { first: None, chosen, other: None, is_through_got, target, start, end };
        Some(found).filter(Found::is_sure)
    }

    /// The choice for a relocation at a place, which may be another than the object has there.
    fn recognise_as(&self, at: At, one: &Relocation) -> Option<Found> {
        let architecture = self.linked.architecture;
        if let Some(found) = self.unchanged(at, one) {
            return Some(found);
        }
        let len = made::len(architecture, one.r_type);
        let windows: &[(u64, u64)] = match architecture {
            Architecture::X86_64 => &[(6, 12), (4, 12), (6, len), (3, len), (0, len)],
            _ => &[(4, 8), (0, 8), (4, 4), (0, 4), (0, len)],
        };
        // the psABI: behind a prefixed instruction the mark is one byte into its own
        let into = match one.r_type {
            R_PPC64_TLS if architecture == Architecture::Ppc64 => one.offset % 4,
            _ => 0,
        };
        let instruction = one.offset - into;
        let mut others = Vec::with_capacity(OTHERS);
        let mut try_windows = |windows: &[(u64, u64)], pass| {
            let mut best = None;
            for (back, forward) in windows {
                let start = instruction.saturating_sub(*back);
                let end = (instruction + forward.max(&len)).min(at.it.bytes.len() as u64);
                self.recognise_in(at, one, (start, end), pass, &mut others, &mut best);
                if best.is_some() {
                    break;
                }
            }
            best
        };
        // a choice that leaves the instruction is the same in all windows
        let narrow = windows.get(4..).filter(|_| made::is_narrow(architecture, one, at.it));
        let alone = narrow.and_then(|narrow| try_windows(narrow, Pass::Library));
        let alone = alone.filter(Found::is_alone);
        let mut best = alone.or_else(|| try_windows(windows, Pass::Library));
        if best.as_ref().is_none_or(|best| !best.is_sure()) {
            let own = try_windows(windows.get(3..).unwrap_or(&[]), Pass::Own);
            if best.is_none() || own.as_ref().is_some_and(Found::is_sure) {
                best = own;
            }
        }
        best.or_else(|| try_windows(windows, Pass::Twice))
    }

    /// The same in a window of the section.
    fn recognise_in(
        &self,
        at: At,
        one: &Relocation,
        (start, end): (u64, u64),
        pass: Pass,
        others: &mut Vec<FieldBits>,
        best: &mut Option<Found>,
    ) {
        let (architecture, linked) = (self.linked.architecture, self.linked);
        let Some((start, end)) = fields(architecture, at.it, at.index, (start, end), others) else {
            return;
        };
        let own = (one.offset, one.offset + made::len(architecture, one.r_type));
        let Some(window) = map::window(linked, at.it, at.map, (start, end), own) else { return };
        let Some(before) = Before::new(architecture, one, at.it, (start, end)) else { return };
        let mut take = |before: &Before, chosen: Chosen, first: Option<Chosen>| {
            let is_alone = first.is_none() && !chosen.is_rewrite();
            if chosen.deleted_count() != window.deleted
                || (is_alone && !has_same_opcode(linked, at))
            {
                return;
            }
            let field = before.field(&chosen, &window.bytes, window.address);
            let target = match &field {
                Some(field) => self.target_of(at, one, field),
                None => Target::Nothing,
            };
            let is_sure = target == Target::AsWritten;
            let is_through_got = field.is_some_and(|field| field.is_through_got());
            if let Some(best) = best.as_mut().filter(|best| best.is_sure()) {
                let is_other = is_sure && is_alone && best.is_through_got != is_through_got;
                best.other = best.other.or(is_other.then_some(chosen.relocation));
            } else if is_sure || best.is_none() {
                let other = None;
                *best = Some(Found { first, chosen, other, is_through_got, target, start, end });
            }
        };
        match pass {
            Pass::Library => {
                // a high part alone may lead to its symbol by either relocation: its low half shows it
                let found = before.choices(others, &window.bytes);
                let is_same = |chosen: &Chosen| chosen.relocation == one.r_type;
                found.clone().filter(is_same).for_each(|chosen| take(&before, chosen, None));
                found.filter(|one| !is_same(one)).for_each(|chosen| take(&before, chosen, None));
            }
            Pass::Own => {
                let found = before.own_choice(&window.bytes);
                found.into_iter().for_each(|chosen| take(&before, chosen, None));
            }
            Pass::Twice => {
                let mut found = before.choices_after(others, &window.bytes);
                found.sort_by_key(|(_, chosen, _)| chosen.relocation != one.r_type);
                for (before, chosen, first) in found {
                    take(&before, chosen, first);
                }
            }
        }
    }
}

/// At most eight bytes as a number.
fn number(bytes: &[u8]) -> Option<u64> {
    let mut word = [0; 8];
    word.get_mut(..bytes.len())?.copy_from_slice(bytes);
    Some(u64::from_le_bytes(word))
}

/// Whether the opcode before a field of x86-64 is as it was.
fn has_same_opcode(linked: &Linked, at: At) -> bool {
    let one = &at.it.relocations[at.index];
    if linked.architecture != Architecture::X86_64 || !at.it.is_code {
        return true;
    }
    let end = |other: &Relocation| other.offset + made::len(Architecture::X86_64, other.r_type);
    let before = at.it.relocations[..at.index].iter().rev().take(4).map(end);
    let start = before.max().unwrap_or(0).max(one.offset.saturating_sub(3));
    let Some(original) = at.it.bytes.get(start as usize..one.offset as usize) else { return true };
    let there = map::address_in(at.map, start).and_then(|address| linked.bytes_at(address));
    there.is_some_and(|there| there.starts_with(original))
}

/// A relocation of which bytes may be deleted, in one or two windows of its section.
pub struct Deletable<'a> {
    linked: &'a Linked<'a>,
    it: &'a Section<'a>,
    index: usize,
    /// Its bytes.
    own: &'a [u8],
    /// Their bits that are as they were where nothing is rewritten.
    kept: u64,
    windows: OnceCell<Vec<Around<'a>>>,
    /// For each count of deleted bytes whether choices of the library may have it, once it was tested.
    may_be: [Cell<Option<bool>>; 9],
}

/// What is before a deletion, the fields of other relocations, and the bytes behind the relocation's.
type Around<'a> = (Before, Vec<FieldBits>, &'a [u8]);

impl<'a> Deletable<'a> {
    pub fn new(linked: &'a Linked<'a>, it: &'a Section<'a>, index: usize) -> Deletable<'a> {
        let one = &it.relocations[index];
        let architecture = linked.architecture;
        let past = one.offset + made::len(architecture, one.r_type);
        let own = it.bytes.get(one.offset as usize..past as usize).unwrap_or(&[]);
        let row = made::row(architecture, one.r_type);
        let field = row.filter(|row| row.window() <= own.len()).map(|row| field_bits(row, own));
        let kept = !field.unwrap_or(0);
        let (windows, may_be) = (OnceCell::new(), Default::default());
        Deletable { linked, it, index, own, kept, windows, may_be }
    }

    /// Those windows that can be looked at.
    fn windows(&self) -> &[Around<'a>] {
        self.windows.get_or_init(|| {
            let (it, architecture) = (self.it, self.linked.architecture);
            let one = &it.relocations[self.index];
            let past = one.offset + made::len(architecture, one.r_type);
            let ends = [one.offset + 8, past].map(|end| end.max(past).min(it.bytes.len() as u64));
            let window = |end: u64| {
                let mut others = Vec::new();
                let within = fields(architecture, it, self.index, (one.offset, end), &mut others)?;
                if within.0 != one.offset {
                    return None;
                }
                let behind = it.bytes.get(past as usize..within.1 as usize)?;
                Some((Before::new(architecture, one, it, within)?, others, behind))
            };
            let ends = if ends[0] == ends[1] { &ends[..1] } else { &ends[..] };
            ends.iter().filter_map(|end| window(*end)).collect()
        })
    }

    /// Whether choices of the library may delete so many bytes, whatever bytes are left.
    fn may_be(&self, deleted: u64) -> bool {
        let Some(known) = self.may_be.get(deleted as usize) else { return false };
        if let Some(known) = known.get() {
            return known;
        }
        // all of them are other fields
        let all = [0, 8, 16, 24, 32, 40, 48, 56].map(|offset| FieldBits { offset, bits: u64::MAX });
        let there = &[0; 64][..self.own.len() - deleted as usize];
        let found = self.find(there, |before, _, bytes| {
            before.choices(&all, bytes).find(|one| one.deleted_count() == deleted)
        });
        known.set(Some(found.is_some()));
        found.is_some()
    }

    /// What is found of one of the windows, of which these bytes are left of the relocation's.
    fn find<T>(
        &self,
        there: &[u8],
        find: impl Fn(&Before, &[FieldBits], &[u8]) -> Option<T>,
    ) -> Option<T> {
        self.windows().iter().find_map(|(before, others, behind)| {
            let mut bytes = Bytes::of(there)?;
            bytes.push(behind)?;
            find(before, others, &bytes)
        })
    }

    /// Whether some choice leaves the bytes that are at a place, without the bytes behind those of the
    /// relocation, after a deletion of so many; returned is where the deletion begins, behind the
    /// relocation's offset.
    pub fn start(&self, place: u64, deleted: u64) -> Option<u64> {
        let kept = (self.own.len() as u64).checked_sub(deleted)?;
        let there: &[u8] = match kept {
            0 => &[],
            _ => self.linked.bytes_at(place)?.get(..kept as usize)?,
        };
        if deleted == 0 && self.is_as_it_was(there) && !self.windows().is_empty() {
            return Some(0);
        }
        let may_be = self.may_be(deleted);
        self.find(there, |before, others, linked| {
            let found = may_be.then(|| before.choices(others, linked));
            let mut found = found.into_iter().flatten().chain(before.own_choice(linked));
            let found = found.find(|one| one.deleted_count() == deleted)?;
            Some(found.deleted().map_or(0, |(start, _)| start))
        })
    }

    /// Whether bytes are the relocation's, but for its field.
    fn is_as_it_was(&self, there: &[u8]) -> bool {
        match (number(self.own), number(there)) {
            (Some(own), Some(there)) => (own ^ there) & self.kept == 0,
            _ => self.own == there,
        }
    }
}

/// A window that cuts no field. The fields of the other relocations in it go into `others`.
fn fields(
    architecture: Architecture,
    it: &Section,
    index: usize,
    (mut start, mut end): (u64, u64),
    others: &mut Vec<FieldBits>,
) -> Option<(u64, u64)> {
    let one = &it.relocations[index];
    let (first, last) = (start, end + 16);
    let is_near = |other: &Relocation| other.offset + 16 >= first && other.offset <= last;
    let row = |other: &Relocation| made::row(architecture, other.r_type);
    let mut widen = |other: &Relocation| {
        let Some(row) = row(other) else { return };
        let (offset, past) = (other.offset, other.offset + row.window() as u64);
        if offset < start && past > start {
            start = offset;
        }
        if offset < end && past > end {
            end = past;
        }
    };
    let before = it.relocations[..index].iter().rev().take_while(|other| is_near(other));
    let after = it.relocations[index + 1..].iter().take_while(|other| is_near(other));
    before.clone().for_each(&mut widen);
    after.clone().for_each(&mut widen);
    if end > it.bytes.len() as u64 || end - start > 64 || one.offset > end {
        return None;
    }
    let window = &it.bytes[start as usize..end as usize];
    others.clear();
    let mut add = |other: &Relocation| {
        let Some(row) = row(other).filter(|_| start <= other.offset && other.offset < end) else {
            return;
        };
        let offset = other.offset - start;
        let bytes = &window[offset as usize..];
        if bytes.len() >= row.window() {
            others.push(FieldBits { offset, bits: field_bits(row, bytes) });
        }
    };
    before.for_each(&mut add);
    after.for_each(&mut add);
    Some((start, end))
}
