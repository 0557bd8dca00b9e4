// SPDX-License-Identifier: MIT OR Apache-2.0
//! Addresses and facts that a linker could have of an object, at random.

use crate::objects::{Home, Object};
use crate::random::Random;
use linker_utils::output::{Origins, Target};
use linker_utils::rewriting::SymbolFacts;
use linker_utils::section::relocation_at;
use linker_utils::section::{EntryClass, Link, Rela, Symbol, needs, relocations_len};
use std::collections::HashMap;

/// The memory that instructions run in.
pub const MEMORY: u64 = 0x0200_0000;
pub const MEMORY_LEN: u64 = 0x0600_0000;
/// Functions of the linker's own.
pub const TLS_GET_ADDR: u64 = MEMORY;
pub const DESCRIPTOR_FUNCTION: u64 = MEMORY + 0x100;
/// Each undefined function and variable has so many bytes in front of the code.
const FOREIGN_LEN: u64 = 0x20;
const MAX_FOREIGN_LEN: u64 = 0x00ff_0000;
pub const CODE: u64 = MEMORY + 0x0100_0000;

/// A word of the GOT and what it holds.
pub struct Word {
    pub address: u64,
    pub value: u64,
}

pub struct Layout {
    /// The address of each section.
    pub sections: Vec<u64>,
    pub symbols: Vec<Symbol>,
    pub facts: Vec<SymbolFacts>,
    pub link: Link,
    pub origins: Origins,
    pub words: Vec<Word>,
    /// The TLS image's address, and how long it is with that of other objects.
    pub image: u64,
    pub image_len: u64,
    /// How many bytes before it are a thread's own.
    pub room: u64,
    /// The address behind the GOT, which is last.
    pub end: u64,
    /// Each section's relocations, which name a symbol of their own where the GOT's entry is of
    /// another addend.
    pub relocations: Vec<Vec<u8>>,
}

fn aligned(address: u64, alignment: u64) -> u64 {
    address.next_multiple_of(alignment)
}

impl Layout {
    /// None where the object is too large for the memory. With room before the TLS image, which is for
    /// a thread's own data, no end of a section is the begin of another one either.
    pub fn new(object: &Object, random: &mut Random, room: u64) -> Option<Layout> {
        let target = Target::of(object.architecture);
        let mut at = CODE;
        let mut sections = vec![0; object.sections.len()];
        let mut place = |at: &mut u64, wanted: &dyn Fn(usize) -> bool| {
            for (index, section) in object.sections.iter().enumerate() {
                if wanted(index) && section.size > 0 {
                    *at = aligned(*at, section.alignment.max(64));
                    sections[index] = *at;
                    *at += section.size + room.min(1);
                }
            }
        };
        let is_code = |index: usize| object.sections[index].is_code;
        let is_thread_local = |index: usize| object.sections[index].is_thread_local;
        place(&mut at, &is_code);
        at += [0, 0x8000, 0x10_0000, 0x0200_0000][random.below(4)];
        // PowerPC64's, which is a part of the GOT
        let is_toc = |index: usize| object.sections[index].name == ".toc";
        place(&mut at, &|index| !is_code(index) && !is_thread_local(index) && !is_toc(index));
        let image = aligned(at + room, 0x1000);
        at = image;
        place(&mut at, &is_thread_local);
        // variables of other objects, near or far
        let others = aligned(at, 16);
        let image_len = others + [0x400, 0x4000, 0x2_0000][random.below(3)] - image;
        let origins = target.origins(image, image_len, 64);
        at = aligned(image + image_len + 0x1000, 0x1000);
        let got = at;
        at += 64;
        place(&mut at, &is_toc);
        at = aligned(at, 8);
        let is_fixed = random.below(2) == 0;
        let mut link = Link {
            is_executable: true,
            is_fixed,
            has_near_symbols: true,
            got_base: target.got_base(got),
            origins: Some(origins),
            ..Link::new(object.architecture)
        };
        let (mut symbols, mut facts, mut truths) = (Vec::new(), Vec::new(), Vec::new());
        for (index, symbol) in object.symbols.iter().enumerate() {
            let foreign = CODE - FOREIGN_LEN * (index as u64 + 1);
            let other_thread = |n: u64| others + (n * 16) % (image + image_len - others);
            let is_tls_get_addr = symbol.name == "__tls_get_addr";
            let is_undefined_weak =
                symbol.home == Home::Undefined && symbol.is_weak && random.below(2) == 0;
            let address = match symbol.home {
                _ if is_tls_get_addr => TLS_GET_ADDR,
                _ if symbol.name == ".TOC." => link.got_base,
                Home::Section(section) => sections.get(section)?.wrapping_add(symbol.value),
                Home::Absolute => symbol.value,
                Home::Undefined if is_undefined_weak => 0,
                Home::Undefined if symbol.is_thread_local => other_thread(random.next() >> 32),
                Home::Undefined | Home::Common => foreign,
            };
            let is_local = match symbol.home {
                Home::Undefined => !is_undefined_weak && random.below(2) == 0,
                _ => true,
            };
            // what a GOT's entry is of, which a dynamic linker may find elsewhere
            let truth = if is_undefined_weak {
                if symbol.is_thread_local { origins.thread_pointer } else { 0 }
            } else if is_tls_get_addr || (is_local && !symbol.is_ifunc) {
                address
            } else if symbol.is_thread_local {
                other_thread(random.next() >> 32)
            } else {
                foreign + FOREIGN_LEN / 2
            };
            truths.push(truth);
            let other = if is_tls_get_addr { 0 } else { symbol.other };
            facts.push(SymbolFacts {
                is_local,
                is_ifunc: symbol.is_ifunc,
                is_absolute: symbol.home == Home::Absolute,
                is_undefined_weak,
                is_tls_get_addr,
                other,
            });
            symbols.push(Symbol {
                address,
                size: symbol.size,
                stub: match symbol.is_ifunc || !(is_local || is_undefined_weak) {
                    true if !is_tls_get_addr => foreign,
                    _ => 0,
                },
                other,
                is_thread_local: symbol.is_thread_local,
                is_undefined_weak,
                ..Symbol::default()
            });
        }

        // entries of the GOT, all classes of each symbol and addend
        link.module_entry = Some(at);
        let mut words = vec![
            Word { address: got, value: target.got_header(got, 0).unwrap_or(0) },
            Word { address: at, value: 1 },
            Word { address: at + 8, value: 0 },
        ];
        at += 16;
        let mut of_addends = HashMap::new();
        let mut relocations = Vec::new();
        for section in &object.sections {
            let mut table = section.relocations.clone();
            for index in 0..relocations_len(&table) {
                let Rela { r_type, symbol, addend, .. } = relocation_at(&table, index)?;
                let own = symbols.get(symbol as usize)?.is_thread_local;
                let Some(entry) =
                    needs(object.architecture, r_type, addend, own).and_then(|needs| needs.entry)
                else {
                    continue;
                };
                if entry.class == EntryClass::Module {
                    continue;
                }
                let named = *of_addends.entry((symbol, entry.addend)).or_insert_with(|| {
                    let truth = truths[symbol as usize].wrapping_add(entry.addend as u64);
                    let from_thread = truth.wrapping_sub(origins.thread_pointer);
                    let from_block = truth.wrapping_sub(origins.module_block);
                    let contents =
                        [truth, from_thread, 1, from_block, DESCRIPTOR_FUNCTION, from_thread];
                    words.extend(
                        contents
                            .iter()
                            .zip(0..)
                            .map(|(&value, n)| Word { address: at + 8 * n, value }),
                    );
                    let with_entries = Symbol {
                        address_entry: at,
                        thread_entry: at + 8,
                        module_entry: at + 16,
                        descriptor: at + 32,
                        entry_addend: entry.addend,
                        ..symbols[symbol as usize]
                    };
                    at += 48;
                    if symbols[symbol as usize].address_entry == 0 {
                        symbols[symbol as usize] = with_entries;
                        symbol
                    } else {
                        symbols.push(with_entries);
                        facts.push(facts[symbol as usize]);
                        (symbols.len() - 1) as u32
                    }
                });
                table[24 * index + 12..][..4].copy_from_slice(&named.to_le_bytes());
            }
            relocations.push(table);
        }
        let too_many = FOREIGN_LEN * symbols.len() as u64 > MAX_FOREIGN_LEN;
        if too_many || at > MEMORY + MEMORY_LEN - 0x10_0000 {
            return None;
        }
        Some(Layout {
            sections,
            symbols,
            facts,
            link,
            origins,
            words,
            image,
            image_len,
            room,
            end: at,
            relocations,
        })
    }
}
