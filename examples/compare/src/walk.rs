// SPDX-License-Identifier: MIT OR Apache-2.0
//! What was made of each relocation of a section.

use crate::elf::{Home, Relocation, Section};
use crate::made;
use crate::map;
use crate::recognise::At;
use crate::side::{Made, Side, Target};
use crate::targets::Pending;
use linker_utils::elf::RelocationKind;
use std::cell::RefCell;

impl<'a> Side<'a> {
    /// What was made of each relocation of a section, by what is known of places, and what requires
    /// the places of others.
    pub fn walk(&self, object: usize, section: usize) -> (Vec<Made>, Vec<Pending>) {
        let it: &'a Section<'a> = &self.objects[object].sections[section];
        let mut all = vec![Made::Nowhere; it.relocations.len()];
        let (map, pending) = (&self.maps[object][section], RefCell::new(Vec::new()));
        let (mut skipped, mut covered) = (false, 0);
        let mut either = Vec::new();
        if !it.is_allocated || map.is_empty() || it.bytes.is_empty() {
            return (all, Vec::new());
        }
        let architecture = self.linked.architecture;
        for (index, one) in it.relocations.iter().enumerate() {
            let is_skipped = std::mem::take(&mut skipped);
            if is_skipped || made::is_mark(architecture, one.r_type) {
                all[index] = Made::Part;
                continue;
            }
            let Some(found) = self.recognise(At { object, it, index, map, pending: &pending }) else {
                let place = map::address_in(map, one.offset);
                all[index] = match place.and_then(|place| self.linked.bytes_at(place)) {
                    _ if one.offset < covered => Made::Part,
                    // sums aren't read, and these have as many bytes as their numbers
                    Some(_) if made::is_uleb128(architecture, one.r_type) => Made::Chosen {
                        rewrite: None,
                        relocation: one.r_type,
                        is_through_got: false,
                        target: Target::Nothing,
                    },
                    Some(bytes) => {
                        let len = made::len(architecture, one.r_type).max(4) as usize;
                        Made::Unknown(bytes[..bytes.len().min(len)].to_vec())
                    }
                    None => Made::Nowhere,
                };
                continue;
            };
            let first = found.first.and_then(|first| first.name());
            let names = first.into_iter().chain(found.chosen.name());
            let rewrite = Some(names.collect::<Vec<_>>().join(", ")).filter(|name| !name.is_empty());
            if rewrite.is_some() {
                for before in (0..index).rev() {
                    if it.relocations[before].offset < found.start {
                        break;
                    }
                    if matches!(all[before], Made::Unknown(_)) {
                        all[before] = Made::Part;
                    }
                }
                covered = found.end;
            }
            skipped = found.chosen.skips_next();
            let (is_through_got, target) = (found.is_through_got, found.target);
            if let Some(relocation) = found.other {
                let (target, is_through_got) = (target.clone(), !is_through_got);
                let rewrite = rewrite.clone();
                either.push((index, Made::Chosen { rewrite, relocation, is_through_got, target }));
            }
            let relocation = found.chosen.relocation;
            all[index] = Made::Chosen { rewrite, relocation, is_through_got, target };
        }
        for (index, other) in either {
            if self.low_half(object, section, index).is_some_and(|low| {
                matches!(&all[low], Made::Chosen { rewrite, relocation, .. }
                    if rewrite.is_some() || *relocation != it.relocations[low].r_type)
            }) {
                all[index] = other;
            }
        }
        (all, pending.into_inner())
    }

    /// The relocation of the other half of an address whose high part this is.
    fn low_half(&self, object: usize, section: usize, index: usize) -> Option<usize> {
        let it = &self.objects[object];
        let all = &it.sections[section].relocations;
        let high = &all[index];
        let is_low = |one: &Relocation| {
            let row = self.linked.architecture.row(one.r_type);
            let symbol = &it.symbols[one.symbol];
            if row.is_some_and(|row| row.kind() == RelocationKind::RelativeRiscVLow12) {
                return symbol.home == Home::Section(section) && symbol.value == high.offset;
            }
            (one.symbol, one.addend) == (high.symbol, high.addend) && one.r_type != high.r_type
        };
        // compilers leave little between both
        let near = all.iter().enumerate().skip(index + 1).take(64);
        near.filter(|(_, one)| one.offset > high.offset).find(|(_, one)| is_low(one)).map(|(at, _)| at)
    }
}
