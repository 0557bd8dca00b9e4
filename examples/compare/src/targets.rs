// SPDX-License-Identifier: MIT OR Apache-2.0
//! What a field leads to, and sections that are found by what leads to them.

use crate::elf::{Entry, Home, Relocation, Symbol};
use crate::forms::Base;
use crate::hash::HashMap;
use crate::made::{self, Field};
use crate::recognise::At;
use crate::side::{Side, Target};
use linker_utils::elf::{Architecture, Operands, RelocationKind};
use object::elf::STT_TLS;

/// The field of a relocation against a section whose place isn't known.
pub struct Pending {
    home: (usize, usize),
    value: u64,
    field: Field,
    operands: Operands,
}

/// Once for each relocation and each choice of it.
fn add_pending(at: At, one: Pending) {
    let is_same = |last: &&Pending| {
        (last.field.place, last.field.row.kind()) == (one.field.place, one.field.row.kind())
    };
    let mut pending = at.pending.borrow_mut();
    if !pending.iter().rev().take(2).any(|last| is_same(&last)) {
        pending.push(one);
    }
}

impl<'a> Side<'a> {
    fn name_of(&self, address: u64) -> String {
        let address = self.linked.stubs.resolver(address);
        match self.linked.name_at(address) {
            Some((name, 0)) => name.to_string(),
            Some((name, distance)) if distance < 1 << 20 => format!("{name}+{distance:#x}"),
            _ => format!("{address:#x}"),
        }
    }

    /// What a field leads to, and whether that is what the relocation says.
    fn target(&self, field: &Field, symbol: Option<(u64, u8)>, operands: &Operands) -> Target {
        let linked = self.linked;
        let from = |got_base| field.row.value(&Operands { got_base, ..*operands });
        if linked.got_base.is_none() && from(0) != from(1) {
            return self.bits(field); // nothing says what it counts from
        }
        let base = match field.base {
            Base::Nothing => 0,
            Base::GlobalPointer => linked.address_of("__global_pointer$").unwrap_or(0),
        };
        let with = |symbol: u64| {
            let symbol = symbol.wrapping_sub(base);
            Operands { symbol, plt_entry: symbol, ..*operands }
        };
        if let Some((address, other)) = symbol {
            // the psABI: bits 5 to 7 of `st_other` say how far the local entry is behind the other
            let local = (1u64 << (other >> 5) >> 2) << 2;
            let entries = [0, local];
            let is_ppc64 = linked.architecture == Architecture::Ppc64;
            let entries = if is_ppc64 { &entries[..] } else { &entries[..1] };
            // an indirect function's may be that of its stub
            let is_there = linked.stubs.same(&address).iter().any(|address| {
                if !field.is_through_got() {
                    return entries.iter().any(|by| field.leads(&with(address.wrapping_add(*by))));
                }
                [*address, address.wrapping_add(operands.addend as u64)].iter().any(|content| {
                    linked.got_of.get(content).into_iter().flatten().any(|got_entry| {
                        field.leads(&Operands { got_entry: *got_entry, ..with(*address) })
                    })
                })
            });
            if is_there {
                return Target::AsWritten;
            }
        }
        if field.is_through_got() {
            let mut found = linked.got.iter().filter(|(got_entry, _)| {
                field.leads(&Operands { got_entry: *got_entry, ..with(0) })
            });
            return match (found.next(), found.next()) {
                (Some((_, entry)), None) => self.entry_of(entry),
                _ => self.bits(field),
            };
        }
        match field.number(&with(base)) {
            // TLS offsets count from a base that isn't known
            _ if field.row.kind() == RelocationKind::TpOff => self.bits(field),
            _ if field.row.kind() == RelocationKind::DtpOff => self.bits(field),
            Some((address, 0, 64)) if symbol == Some((0, 0)) => {
                let distance = address.wrapping_sub(field.place) as i64;
                Target::Other(format!("{distance} bytes from its place"))
            }
            Some((address, 0, 64)) => Target::Other(self.name_of(address)),
            _ => self.bits(field),
        }
    }

    fn entry_of(&self, entry: &Entry) -> Target {
        Target::Other(match entry {
            Entry::Address(address) => format!("the GOT entry of {}", self.name_of(*address)),
            Entry::Symbol(name) => format!("the GOT entry of {name}"),
        })
    }

    fn bits(&self, field: &Field) -> Target {
        let (known, bits) = (field.value.known, field.value.bits);
        Target::Bits(format!("bits {} to {} are {bits:#x}", known.start, known.end - 1))
    }

    /// The high part that a relocation of RISC-V refers to by a label.
    fn high_part(&self, object: usize, symbol: &Symbol) -> Option<(&'a Relocation, u64)> {
        let Home::Section(section) = symbol.home else { return None };
        let all = &self.objects[object].sections[section].relocations;
        let first = all.partition_point(|one| one.offset < symbol.value);
        let architecture = self.linked.architecture;
        let mut high = all[first..].iter().take_while(|one| one.offset == symbol.value);
        let high = high.find(|one| !made::is_mark(architecture, one.r_type))?;
        Some((high, self.address_in(object, section, symbol.value)?))
    }

    fn operands(&self, object: usize, one: &Relocation, field: &Field) -> (Operands, bool) {
        let symbol = &self.objects[object].symbols[one.symbol];
        let operands = Operands {
            addend: field.addend,
            place: field.place,
            got_base: self.linked.got_base.unwrap_or(0),
            symbol_size: symbol.size,
            has_got_entry: true,
            has_plt_entry: true,
            has_tls_base: true,
            ..Operands::default()
        };
        (operands, field.row.kind() == RelocationKind::RelativeRiscVLow12)
    }

    pub fn target_of(&self, at: At, one: &Relocation, field: &Field) -> Target {
        let object = at.object;
        let symbol = &self.objects[object].symbols[one.symbol];
        let (mut operands, is_low) = self.operands(object, one, field);
        if is_low {
            return self.low_target(at, symbol, field, operands);
        }
        let mut one = one;
        if self.is_low(one) {
            // a low part that doesn't count from the high part's place any more
            let Some((high, _)) = self.high_part(object, symbol) else { return self.bits(field) };
            (one, operands.addend) = (high, high.addend);
        }
        let symbol = &self.objects[object].symbols[one.symbol];
        let address = self.address_of(object, one.symbol);
        if let (None, Home::Section(section)) = (address, symbol.home) {
            let (home, value) = ((object, section), symbol.value);
            add_pending(at, Pending { home, value, field: *field, operands });
        }
        if symbol.kind == STT_TLS {
            operands.tls_base = 0;
        }
        self.target(field, address, &operands)
    }

    /// Whether a relocation is of the low part of an address, by the label of its high part.
    pub fn is_low(&self, one: &Relocation) -> bool {
        let row = made::row(self.linked.architecture, one.r_type);
        row.is_some_and(|row| row.kind() == RelocationKind::RelativeRiscVLow12)
    }

    /// What the low part of a RISC-V address leads to: the symbol of the high part.
    fn low_target(&self, at: At, label: &Symbol, field: &Field, low: Operands) -> Target {
        let object = at.object;
        let Some((high, place)) = self.high_part(object, label) else { return self.bits(field) };
        let Some(row) = made::row(self.linked.architecture, high.r_type) else { return self.bits(field) };
        let symbol = &self.objects[object].symbols[high.symbol];
        let low = Operands { place, addend: high.addend, ..low };
        let Some((address, _)) = self.address_of(object, high.symbol) else {
            if let (Home::Section(section), false) = (symbol.home, row.asks_for_got()) {
                let (home, value) = ((object, section), symbol.value);
                add_pending(at, Pending { home, value, field: *field, operands: low });
            }
            return self.bits(field);
        };
        let same = self.linked.stubs.same(&address);
        let mut addresses = Vec::new();
        match row.asks_for_got() {
            true => {
                let entries = same.iter().filter_map(|address| self.linked.got_of.get(address));
                addresses.extend(entries.flatten());
            }
            false => addresses.extend_from_slice(same),
        }
        if addresses.iter().any(|symbol| field.leads(&Operands { symbol: *symbol, ..low })) {
            return Target::AsWritten;
        }
        let mut found = self.linked.got.iter().filter(|(symbol, _)| {
            row.asks_for_got() && field.leads(&Operands { symbol: *symbol, ..low })
        });
        match (found.next(), found.next()) {
            (Some((_, entry)), None) => self.entry_of(entry),
            _ => self.bits(field),
        }
    }

    /// Finds sections that have no symbol by what relocations against them lead to: those of objects
    /// that were walked again. Whether any was found.
    pub fn learn(&mut self, was_walked: &[bool]) -> bool {
        let mut by_home = HashMap::<(usize, usize), Vec<&Pending>>::default();
        let walked = self.pending.iter().zip(was_walked).filter(|(_, is_it)| **is_it);
        for one in walked.flat_map(|(pending, _)| pending).flatten() {
            by_home.entry(one.home).or_default().push(one);
        }
        let mut found = Vec::new();
        for (home, all) in by_home {
            let leads = |one: &&Pending, base: u64| {
                let symbol = base.wrapping_add(one.value);
                let operands = Operands { symbol, plt_entry: symbol, ..one.operands };
                if !one.field.is_through_got() {
                    return one.field.leads(&operands);
                }
                [0, one.operands.addend as u64].iter().any(|by| {
                    let entries = self.linked.got_of.get(&symbol.wrapping_add(*by));
                    entries.into_iter().flatten().any(|entry| {
                        one.field.leads(&Operands { got_entry: *entry, ..operands })
                    })
                })
            };
            let mut best = (0, 0);
            for base in self.bases(&all) {
                let count = all.iter().take(64).filter(|one| leads(one, base)).count();
                if count > best.0 {
                    best = (count, base);
                }
            }
            if best.0 > 0 {
                found.push((home.0, home.1, (0, best.1)));
            }
        }
        self.add_anchors(found)
    }

    /// The addresses where a section may be, by some of the fields.
    fn bases(&self, all: &[&Pending]) -> Vec<u64> {
        let (mut bases, mut lows, mut highs) = (Vec::new(), Vec::new(), Vec::new());
        for one in all {
            if one.field.is_through_got() {
                for (got_entry, entry) in &self.linked.got {
                    let Entry::Address(content) = entry else { continue };
                    let operands = Operands { got_entry: *got_entry, ..one.operands };
                    if bases.len() < 64 && one.field.leads(&operands) {
                        let base = content.wrapping_sub(one.value);
                        bases.push(base);
                        bases.push(base.wrapping_sub(one.operands.addend as u64));
                    }
                }
                continue;
            }
            match one.field.number(&one.operands) {
                Some((number, 0, 64)) => bases.push(number.wrapping_sub(one.value)),
                Some((number, 0, end)) => {
                    lows.push((number.wrapping_sub(one.value), end));
                    if end == 32 {
                        // in the same 2^32 bytes
                        highs.push((one.field.place, 32));
                    }
                }
                Some((number, start, _)) => highs.push((number.wrapping_sub(one.value), start)),
                None => {}
            }
        }
        bases.truncate(64);
        for (low, end) in lows.iter().take(8) {
            for (high, start) in highs.iter().take(8).filter(|(_, start)| start <= end) {
                let unit = 1u64 << (*end).min(63);
                let base = (high & !(unit - 1)) | (low & (unit - 1));
                let step = 1u64 << start;
                bases.extend([base, base.wrapping_add(step), base.wrapping_sub(step)]);
                bases.extend([base.wrapping_add(unit), base.wrapping_sub(unit)]);
            }
        }
        bases
    }
}