// SPDX-License-Identifier: MIT OR Apache-2.0
//! A linked file beside the objects: where their sections are in it.

use crate::align;
use crate::elf::{Definition, Home, Linked, Object, Reason, Relocation, Symbol};
use crate::map::{self, Anchors};
use crate::symbols::{self, Definers, LocalSymbols};
use crate::tables::Frames;
use crate::targets::Pending;
use crate::threads;

/// What a relocation leads to.
#[derive(Clone, PartialEq, Eq)]
pub enum Target {
    /// Its symbol and addend.
    AsWritten,
    /// Something else: a symbol of the file and a distance, or an address.
    Other(String),
    /// Only these bits are known.
    Bits(String),
    /// It has no value, or one that isn't read.
    Nothing,
}

/// What a linker made of a relocation.
#[derive(Clone, PartialEq, Eq)]
pub enum Made {
    Chosen { rewrite: Option<String>, relocation: u32, is_through_got: bool, target: Target },
    /// It is part of the rewrite of another relocation.
    Part,
    /// No choice leaves these bytes.
    Unknown(Vec<u8>),
    /// Its place isn't known.
    Nowhere,
}

/// A linked file and where the objects' sections are in it.
pub struct Side<'a> {
    pub linked: &'a Linked<'a>,
    pub objects: &'a [Object<'a>],
    pub definers: Definers<'a>,
    /// What the file says of the objects' global symbols.
    pub globals: Vec<Vec<Option<Definition>>>,
    pub anchors: Vec<Vec<Anchors>>,
    /// The same after the deletions.
    pub maps: Vec<Vec<Anchors>>,
    /// Objects, sections and anchors by local symbols whose names are there more than once.
    repeated: Vec<(usize, usize, (u64, u64))>,
    /// By object and section.
    pub pending: Vec<Vec<Vec<Pending>>>,
    /// The sections, by object, whose places were found since `walk` was there.
    pub is_new: Vec<Vec<bool>>,
    /// What `locate` found last, by object and section.
    pub made: Vec<Vec<Vec<Made>>>,
}

impl<'a> Side<'a> {
    pub fn new(
        linked: &'a Linked<'a>,
        objects: &'a [Object<'a>],
    ) -> Result<Side<'a>, Reason> {
        let definers = Definers::new(linked, objects);
        let locals = LocalSymbols::new(linked, objects, &definers);
        let (mut anchors, mut repeated) = (Vec::new(), Vec::new());
        for (index, object) in objects.iter().enumerate() {
            let mut of_sections = vec![Anchors::new(); object.sections.len()];
            let mut firm = vec![Vec::new(); object.sections.len()];
            for (at, symbol) in object.symbols.iter().enumerate() {
                let Home::Section(section) = symbol.home else { continue };
                let name = &*symbol.name;
                if !symbols::is_named(symbol) || !object.sections[section].is_allocated {
                    continue;
                }
                let address = if symbol.is_local {
                    locals.addresses.get(&(index, at)).copied()
                } else if definers.of.get(name) == Some(&index) {
                    definers.address(linked, object, symbol)
                } else {
                    None
                };
                let Some(address) = address else { continue };
                if !symbol.is_local && !symbol.is_weak && object.sections[section].is_whole {
                    firm[section].push((symbol.value, address, name));
                }
                if symbol.is_local && locals.repeated.contains(&(index, at)) {
                    repeated.push((index, section, (symbol.value, address)));
                } else {
                    of_sections[section].push((symbol.value, address));
                }
            }
            for symbols in firm {
                symbols::check_distances(object, symbols)?;
            }
            for of_section in &mut of_sections {
                of_section.sort_unstable();
                of_section.dedup_by_key(|(offset, _)| *offset);
            }
            anchors.push(of_sections);
        }
        let maps = threads::all(objects.len(), |object| {
            let sections = anchors[object].iter().zip(&objects[object].sections);
            sections.map(|(anchors, section)| align::map_of(linked, section, anchors)).collect()
        });
        let global = |one: &Symbol| match one.is_local {
            true => None,
            false => linked.globals.get(&one.name).copied(),
        };
        let globals = objects.iter().map(|it| it.symbols.iter().map(global).collect()).collect();
        let sections = || objects.iter().map(|it| it.sections.len());
        let pending = sections().map(|len| (0..len).map(|_| Vec::new()).collect()).collect();
        let made = sections().map(|len| vec![Vec::new(); len]).collect();
        let is_new = sections().map(|len| vec![true; len]).collect();
        Ok(Side {
            linked,
            objects,
            definers,
            globals,
            anchors,
            maps,
            repeated,
            pending,
            is_new,
            made,
        })
    }

    /// Finds the places of all sections, as far as they can be found; `step` is called for each
    /// section that was looked at.
    pub fn locate(&mut self, step: &(dyn Fn() + Sync)) {
        let frames = Frames::new(self.linked);
        for _ in 0..5 {
            self.find_tables(&frames);
            let is_walked: Vec<bool> = self.is_new.iter().map(|all| all.contains(&true)).collect();
            let stale = (0..self.objects.len()).flat_map(|object| {
                self.stale(object).into_iter().map(move |section| (object, section))
            });
            let stale: Vec<_> = stale.collect();
            let walk = |index| {
                let (object, section) = stale[index];
                let found = self.walk(object, section);
                step();
                found
            };
            for ((object, section), (made, pending)) in
                stale.iter().zip(threads::all(stale.len(), walk))
            {
                self.made[*object][*section] = made;
                self.pending[*object][*section] = pending;
            }
            self.is_new.iter_mut().for_each(|all| all.fill(false));
            if !self.learn(&is_walked) && !self.use_repeated() {
                break;
            }
        }
    }

    /// The sections of an object that `walk` has to look at again: those that are new, and those with
    /// relocations to one that is. That may be by the label of a high part, or by a word of the TOC.
    fn stale(&self, object: usize) -> Vec<usize> {
        let (it, is_new) = (&self.objects[object], &self.is_new[object]);
        if !is_new.contains(&true) {
            return Vec::new();
        }
        let home = |one: &Relocation| match it.symbols[one.symbol].home {
            Home::Section(section) => Some(section),
            _ => None,
        };
        let leads = |section: &usize| {
            let mut all = it.sections[*section].relocations.iter();
            all.any(|one| home(one).is_some_and(|home| is_new[home]))
        };
        let all = 0..it.sections.len();
        let to_new: Vec<bool> = all.clone().map(|section| leads(&section)).collect();
        let is_link = |one: &Relocation, home: usize| {
            it.sections[home].name == ".toc" || self.is_low(one)
        };
        all.filter(|section| {
            let mut links = it.sections[*section].relocations.iter();
            is_new[*section] || to_new[*section]
                || links.any(|one| home(one).is_some_and(|home| to_new[home] && is_link(one, home)))
        })
        .collect()
    }

    /// Takes the anchors of names that are there more than once, where a section has no other.
    fn use_repeated(&mut self) -> bool {
        let repeated = std::mem::take(&mut self.repeated);
        let is_known = |anchors: &Anchors| !anchors.is_empty();
        let known: Vec<Vec<bool>> =
            self.anchors.iter().map(|all| all.iter().map(is_known).collect()).collect();
        let new = repeated.into_iter().filter(|(object, section, _)| !known[*object][*section]);
        self.add_anchors(new.collect())
    }

    /// Whether there were any.
    pub fn add_anchors(&mut self, new: Vec<(usize, usize, (u64, u64))>) -> bool {
        for (object, section, anchor) in &new {
            self.anchors[*object][*section].push(*anchor);
        }
        for (object, section, _) in &new {
            let anchors = &mut self.anchors[*object][*section];
            anchors.sort_unstable();
            anchors.dedup_by_key(|(offset, _)| *offset);
            let it = &self.objects[*object].sections[*section];
            self.maps[*object][*section] = align::map_of(self.linked, it, anchors);
            self.is_new[*object][*section] = true;
        }
        !new.is_empty()
    }

    pub fn address_in(&self, object: usize, section: usize, offset: u64) -> Option<u64> {
        map::address_in(&self.maps[object][section], offset)
    }

    /// The address of an object's symbol, and what local entry it has.
    pub fn address_of(&self, object: usize, index: usize) -> Option<(u64, u8)> {
        let symbol = &self.objects[object].symbols[index];
        let global = || self.globals[object][index].map(|one| (one.address, one.other));
        let local = || {
            let found = self.linked.locals.get(&symbol.name)?.only()?;
            Some((found.address, found.other))
        };
        match symbol.home {
            Home::Section(_) if !symbol.is_local && !symbol.name.is_empty() => {
                let Home::Section(section) = symbol.home else { return None };
                let is_here = || self.definers.of.get(&*symbol.name) == Some(&object);
                let inner = || self.address_in(object, section, symbol.value).filter(|_| is_here());
                global().or_else(local).or_else(|| Some((inner()?, symbol.other)))
            }
            Home::Section(section) => {
                Some((self.address_in(object, section, symbol.value)?, symbol.other))
            }
            Home::Absolute => Some((symbol.value, 0)),
            Home::Undefined if symbol.name == ".TOC." => Some((self.linked.got_base?, 0)),
            Home::Undefined if symbol.is_weak => {
                let is_hidden = self.definers.of.contains_key(&*symbol.name);
                let hidden = || local().filter(|_| is_hidden);
                Some(global().or_else(hidden).unwrap_or((0, 0)))
            }
            Home::Undefined | Home::Common => global().or_else(local),
        }
    }

    /// What was made of each relocation of a section, after `locate`.
    pub fn take_made(&mut self, object: usize, section: usize) -> Vec<Made> {
        std::mem::take(&mut self.made[object][section])
    }

}
