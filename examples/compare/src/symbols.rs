// SPDX-License-Identifier: MIT OR Apache-2.0
//! Which symbols of the objects are which of a linked file.

use crate::align;
use crate::elf::{Home, Linked, Object, Reason, Symbol, is_label};
use crate::hash::{HashMap, HashSet};
use object::elf::{STT_FILE, STT_GNU_IFUNC, STT_SECTION, STT_TLS};

/// What the objects define that is in a linked file.
pub struct Definers<'a> {
    /// Whether each object is linked, as far as its symbols tell: not all members of archives are.
    pub is_linked: Vec<bool>,
    /// Which object defines each global symbol.
    pub of: HashMap<&'a str, usize>,
    /// The names of the linked objects' local symbols that global ones have, too.
    locals: HashSet<&'a str>,
}

impl<'a> Definers<'a> {
    pub fn new(linked: &Linked, objects: &'a [Object<'a>]) -> Definers<'a> {
        let mut all = HashMap::<&str, Vec<(usize, &Symbol)>>::default();
        for (index, object) in objects.iter().enumerate() {
            for symbol in object.symbols.iter().filter(|one| !one.is_local) {
                if matches!(symbol.home, Home::Section(_)) {
                    all.entry(&symbol.name).or_default().push((index, symbol));
                }
            }
        }
        // those members are that define a symbol of the file which no other object does
        let is_linked = objects.iter().map(|object| !object.is_member).collect();
        let mut it = Definers { is_linked, of: HashMap::default(), locals: HashSet::default() };
        let has_global = |name: &&str| all.contains_key(name);
        let locals: Vec<_> = it.local_names(objects).filter(has_global).collect();
        it.locals.extend(locals);
        for (name, symbols) in &all {
            if let [(index, symbol)] = symbols[..] {
                let is_there = is_named(symbol) || linked.globals.contains_key(*name);
                it.is_linked[index] |=
                    is_there && it.address(linked, &objects[index], symbol).is_some();
            }
        }
        let locals: Vec<_> = it.local_names(objects).filter(has_global).collect();
        it.locals.extend(locals);
        // of those that are linked rather one where it isn't weak, whose bytes are there
        let differences = |index: usize, symbol: &Symbol| {
            let Home::Section(section) = symbol.home else { return u32::MAX };
            let address = linked.globals.get(&symbol.name).map(|one| one.address);
            let it = &objects[index].sections[section];
            address.map_or(0, |address| align::differences(linked, it, symbol.value, address).0)
        };
        let first = |symbols: &[(usize, &Symbol)]| {
            let is_behind = |(index, one): &(usize, &Symbol)| (!it.is_linked[*index], one.is_weak);
            let best = symbols.iter().map(is_behind).min();
            let best = symbols.iter().filter(|one| Some(is_behind(one)) == best);
            if best.clone().count() == 1 {
                return best.map(|(index, _)| *index).next();
            }
            best.min_by_key(|(index, one)| differences(*index, one)).map(|(index, _)| *index)
        };
        let of = all.into_iter().filter_map(|(name, symbols)| Some((name, first(&symbols)?)));
        let of = of.collect();
        Definers { of, ..it }
    }

    fn local_names<'b>(
        &'b self,
        objects: &'a [Object<'a>],
    ) -> impl Iterator<Item = &'a str> + use<'a, 'b> {
        let linked = objects.iter().zip(&self.is_linked).filter(|(_, is_linked)| **is_linked);
        let all = linked.flat_map(|(object, _)| &object.symbols);
        let all = all.filter(|one| one.is_local && matches!(one.home, Home::Section(_)));
        all.map(|one| &*one.name)
    }

    /// Where a global symbol is, if the object is the one that defines it. It may have become a
    /// local one, as hidden symbols do, if that isn't another object's.
    pub fn address(&self, linked: &Linked, object: &Object, symbol: &Symbol) -> Option<u64> {
        let Home::Section(section) = symbol.home else { return None };
        if let Some(global) = linked.globals.get(&symbol.name) {
            return Some(global.address);
        }
        let hidden = linked.locals.get(&symbol.name)?.only()?.address;
        let it = &object.sections[section];
        let is_it = !self.locals.contains(&*symbol.name)
            && align::fits(linked, it, symbol.value, hidden).is_some();
        is_it.then_some(hidden)
    }
}

/// Whether a symbol says where its section is. That of an indirect function may be its stub's.
pub fn is_named(symbol: &Symbol) -> bool {
    let is_other = matches!(symbol.kind, STT_SECTION | STT_FILE | STT_TLS | STT_GNU_IFUNC);
    !symbol.name.is_empty() && !is_other
}

/// Where the objects' local symbols are.
pub struct LocalSymbols {
    /// By object and symbol.
    pub addresses: HashMap<(usize, usize), u64>,
    /// Those whose names are there more than once, and that are known by their order.
    pub repeated: HashSet<(usize, usize)>,
}

impl LocalSymbols {
    /// The file has a name as often as the objects that are linked do, in their order. Where it
    /// doesn't seem to, the bytes of the sections tell which symbol is which.
    pub fn new(linked: &Linked, objects: &[Object], definers: &Definers) -> LocalSymbols {
        let mut by_name = HashMap::<&str, Vec<(usize, usize)>>::default();
        for (index, object) in objects.iter().enumerate() {
            for (at, symbol) in object.symbols.iter().enumerate() {
                let Home::Section(section) = symbol.home else { continue };
                if symbol.is_local && is_named(symbol) && object.sections[section].is_allocated
                    && linked.locals.contains_key(&symbol.name)
                {
                    by_name.entry(&symbol.name).or_default().push((index, at));
                }
            }
        }
        let mut found = LocalSymbols { addresses: HashMap::default(), repeated: HashSet::default() };
        for (name, symbols) in by_name {
            let Some(there) = linked.locals.get(name) else { continue };
            let there: Vec<u64> = there.all().iter().map(|one| one.address).collect();
            let is_label = is_label(name);
            let fits = |(index, at): (usize, usize), address: u64| {
                let symbol = &objects[index].symbols[at];
                let Home::Section(section) = symbol.home else { return false };
                let it = &objects[index].sections[section];
                // another object may have the label too, so that some bytes have to tell
                let least = if is_label && it.is_code { 8 } else { 0 };
                align::fits(linked, it, symbol.value, address).is_some_and(|same| same >= least)
            };
            // members of archives are linked in another order
            let is_ordered = symbols.iter().all(|one| !objects[one.0].is_member);
            if (is_ordered || symbols.len() == 1) && found.add_in_order(&symbols, &there, fits) {
                continue;
            }
            let is_linked = |one: &(usize, usize)| definers.is_linked[one.0];
            let symbols: Vec<_> = symbols.into_iter().filter(is_linked).collect();
            if is_label || symbols.len().max(there.len()) > 64 {
                continue;
            }
            found.add_likeliest(&symbols, &there, |(index, at), address| {
                let symbol = &objects[index].symbols[at];
                let Home::Section(section) = symbol.home else { return None };
                let it = &objects[index].sections[section];
                let is_like = fits((index, at), address);
                let found = is_like.then(|| align::differences(linked, it, symbol.value, address))?;
                let (differences, len) = found;
                (u64::from(differences) <= 6 + len / 64).then_some(differences)
            });
        }
        found
    }

    /// Symbols of a name in their order, if they are as many as their addresses.
    fn add_in_order(
        &mut self,
        symbols: &[(usize, usize)],
        there: &[u64],
        fits: impl Fn((usize, usize), u64) -> bool,
    ) -> bool {
        let in_order = || symbols.iter().copied().zip(there.iter().copied());
        let is_all = symbols.len() == there.len() && in_order().all(|(one, at)| fits(one, at));
        if is_all {
            self.addresses.extend(in_order());
            self.repeated.extend(symbols.iter().filter(|_| symbols.len() > 1));
        }
        is_all
    }

    /// Those symbols of a name whose bytes are at one address rather than at any other, and that
    /// are there rather than any other symbol.
    fn add_likeliest(
        &mut self,
        symbols: &[(usize, usize)],
        there: &[u64],
        differences: impl Fn((usize, usize), u64) -> Option<u32>,
    ) {
        let all: Vec<Vec<Option<u32>>> = symbols
            .iter()
            .map(|one| there.iter().map(|address| differences(*one, *address)).collect())
            .collect();
        // the index of what is less than all others
        let least = |costs: Vec<Option<u32>>| {
            let (at, cost) = (0..).zip(&costs).filter_map(|(at, one)| Some((at, (*one)?)))
                .min_by_key(|(_, cost)| *cost)?;
            (costs.iter().filter(|one| **one == Some(cost)).count() == 1).then_some(at)
        };
        for (row, one) in symbols.iter().enumerate() {
            let best = least(all[row].clone());
            let Some(column) = best else { continue };
            let of_address = all.iter().map(|costs| costs[column]).collect();
            if least(of_address) == Some(row) {
                self.addresses.insert(*one, there[column]);
            }
        }
    }
}

/// An error where symbols of one section, with their offsets and addresses, are in another order or
/// at other distances than where a linker leaves them.
pub fn check_distances(
    object: &Object,
    mut symbols: Vec<(u64, u64, &str)>,
) -> Result<(), Reason> {
    symbols.sort_unstable();
    for pair in symbols.windows(2) {
        let [(offset, address, first), (next, at, second)] = [pair[0], pair[1]];
        let (distance, now) = (next - offset, at.wrapping_sub(address));
        if now > distance || (now < distance && !align::may_delete(object.architecture)) {
            let path = &object.path;
            return Err(format!("{first} and {second} overlap, or aren't those of {path}"));
        }
    }
    Ok(())
}
