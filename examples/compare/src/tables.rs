// SPDX-License-Identifier: MIT OR Apache-2.0
//! Sections that symbols and fields seldom lead to, by what they lead to themselves: the unwind
//! information of functions, of which linkers leave records out, and arrays of functions, which
//! they sort.

use crate::elf::{Entry, Home, Linked, Relocation, Section};
use crate::hash::{HashMap, HashSet};
use crate::map::{self, Anchors};
use crate::side::Side;

/// A record of `.eh_frame`: DWARF's Common Information Entry, or Frame Description Entry.
struct Frame {
    /// An offset in the section.
    start: u64,
    /// Of an FDE where its CIE is.
    cie: Option<u64>,
}

fn word(bytes: &[u8], at: u64) -> Option<u32> {
    Some(u32::from_le_bytes(*bytes.get(at as usize..)?.first_chunk()?))
}

/// The records of a section, as far as they can be read.
fn frames(bytes: &[u8]) -> Vec<Frame> {
    let (mut all, mut start) = (Vec::new(), 0);
    while let (Some(len), Some(id)) = (word(bytes, start), word(bytes, start + 4)) {
        if len == 0 {
            start += 4; // an end, and another object's records behind it
            continue;
        }
        let end = start + 4 + u64::from(len);
        if len < 4 || len == u32::MAX || end > bytes.len() as u64 {
            break;
        }
        let cie = (id != 0).then(|| (start + 4).wrapping_sub(u64::from(id)));
        all.push(Frame { start, cie });
        start = end;
    }
    all
}

/// How the addresses of a CIE's functions are written (`DW_EH_PE_*`), 0 if it doesn't say.
fn encoding(cie: &[u8]) -> Option<u8> {
    let rest = cie.get(9..)?;
    let name = &rest[..rest.iter().position(|byte| *byte == 0)?];
    let mut at = name.len() + 1;
    let number = |at: &mut usize| {
        while rest.get(*at)? & 0x80 != 0 {
            *at += 1;
        }
        *at += 1;
        Some(())
    };
    number(&mut at)?; // the factors of code and data, and the return address's register
    number(&mut at)?;
    number(&mut at)?;
    let Some(letters) = name.strip_prefix(b"z") else { return Some(0) };
    number(&mut at)?;
    for letter in letters {
        match letter {
            b'R' => return rest.get(at).copied(),
            b'L' => at += 1,
            b'P' => at += 1 + pointer_len(*rest.get(at)?)?,
            _ => {}
        }
    }
    Some(0)
}

fn pointer_len(encoding: u8) -> Option<usize> {
    match encoding & 0x0f {
        0x00 | 0x04 | 0x0c => Some(8),
        0x02 | 0x0a => Some(2),
        0x03 | 0x0b => Some(4),
        _ => None,
    }
}

/// Where the records of the functions at an address are in a linked file, and their CIEs.
pub struct Frames(HashMap<u64, (u64, u64)>);

impl Frames {
    pub fn new(linked: &Linked) -> Frames {
        let mut found = HashMap::default();
        for (address, bytes) in linked.tables(".eh_frame") {
            for frame in frames(bytes) {
                let cie = frame.cie.and_then(|cie| bytes.get(cie as usize..));
                let Some(encoding) = cie.and_then(encoding) else { continue };
                let at = frame.start + 8;
                let place = address.wrapping_add(at);
                let number = match encoding & 0x0f {
                    0x03 => word(bytes, at).map(u64::from),
                    0x0b => word(bytes, at).map(|word| word as i32 as u64),
                    _ => bytes.get(at as usize..).and_then(|rest| rest.first_chunk())
                        .map(|bytes| u64::from_le_bytes(*bytes)),
                };
                let Some(number) = number else { continue };
                let base = if encoding & 0x70 == 0x10 { place } else { 0 };
                let cie = address.wrapping_add(frame.cie.unwrap_or(0));
                let records = (address.wrapping_add(frame.start), cie);
                found.entry(base.wrapping_add(number)).or_insert(records);
            }
        }
        Frames(found)
    }

    /// The records of an object's section; `function` says where a relocation's symbol is.
    fn anchors(&self, it: &Section, function: impl Fn(&Relocation) -> Option<u64>) -> Anchors {
        let mut anchors = HashMap::default();
        for frame in frames(it.bytes) {
            let (Some(cie), at) = (frame.cie, frame.start + 8) else { continue };
            let first = it.relocations.partition_point(|one| one.offset < at);
            let of_function = it.relocations.get(first).filter(|one| one.offset == at);
            let found = of_function.and_then(&function).and_then(|address| self.0.get(&address));
            let (record, common) = found.copied().unwrap_or((map::NOWHERE, map::NOWHERE));
            anchors.insert(frame.start, record);
            // one that is there rather than none
            let of_cie = anchors.entry(cie).or_insert(common);
            *of_cie = common.min(*of_cie);
        }
        let mut anchors: Anchors = anchors.into_iter().collect();
        anchors.sort_unstable();
        anchors
    }
}

/// Whether a section is of an array of functions, and of which one.
fn array(name: &str) -> Option<&'static str> {
    let is = |base: &&str| {
        name.strip_prefix(base).is_some_and(|end| end.is_empty() || end.starts_with('.'))
    };
    [".init_array", ".fini_array", ".preinit_array"].into_iter().find(is)
}

impl Side<'_> {
    /// The places of records and arrays, as far as the places of functions are known. Whether there
    /// are new ones.
    pub fn find_tables(&mut self, frames: &Frames) -> bool {
        let mut new = Vec::new();
        let mut taken = HashSet::default();
        for (object, it) in self.objects.iter().enumerate() {
            for (index, section) in it.sections.iter().enumerate() {
                let anchors = if section.name == ".eh_frame" {
                    if !self.is_new[object].contains(&true) {
                        continue;
                    }
                    frames.anchors(section, |one| {
                        let symbol = &it.symbols[one.symbol];
                        let Home::Section(home) = symbol.home else { return None };
                        let offset = symbol.value.wrapping_add(one.addend as u64);
                        self.address_in(object, home, offset)
                    })
                } else if let Some(name) = array(&section.name) {
                    self.array_anchors(object, section, name, &mut taken)
                } else {
                    continue;
                };
                let is_any = anchors.iter().any(|(_, address)| *address != map::NOWHERE);
                if is_any && anchors != self.anchors[object][index] {
                    new.push((object, index, anchors));
                }
            }
        }
        let is_any = !new.is_empty();
        for (object, section, anchors) in new {
            self.maps[object][section].clone_from(&anchors);
            self.anchors[object][section] = anchors;
            self.is_new[object][section] = true;
        }
        is_any
    }

    /// The words of an array that lead to the functions that they should, in their order, and that
    /// no other section has.
    fn array_anchors(
        &self,
        object: usize,
        section: &Section,
        name: &str,
        taken: &mut HashSet<u64>,
    ) -> Anchors {
        let wanted = |one: &Relocation| {
            let address = self.address_of(object, one.symbol)?.0;
            Some((one.offset, address.wrapping_add(one.addend as u64)))
        };
        let wanted: Option<Vec<_>> = section.relocations.iter().map(wanted).collect();
        let Some(wanted) = wanted.filter(|all| !all.is_empty()) else { return Anchors::new() };
        for (address, bytes) in self.linked.tables(name) {
            for start in (0..bytes.len() as u64).step_by(8).map(|at| address.wrapping_add(at)) {
                let is_there = |(offset, function): &(u64, u64)| {
                    let word = self.linked.word_at(start.wrapping_add(*offset));
                    word == Some(Entry::Address(*function))
                };
                if wanted.iter().all(is_there) && taken.insert(start) {
                    return vec![(0, start)];
                }
            }
        }
        Anchors::new()
    }
}
