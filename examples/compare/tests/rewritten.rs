// SPDX-License-Identifier: MIT OR Apache-2.0
//! What `rewrite_section` makes of the objects of `examples/objects`, beside what ld.lld 19 made of them
//! (`tests/make`).

use compare::elf::{self, Home, Linked, Object, Section};
use linker_utils::elf::Architecture;
use linker_utils::rewriting::{
    Decision, DecisionNumbers, UnrelaxableGroups, Scope, SymbolFacts, rewrite_section, scope_of, survey,
};
use linker_utils::section::{self, Link, Rela, relocation_at};
use std::collections::HashSet;
use std::fs;
use std::path::Path;

const FILES: [&str; 5] = ["start", "main", "shapes", "sort", "text"];

fn entries_of(section: &Section) -> Vec<u8> {
    let mut entries = Vec::new();
    for it in &section.relocations {
        entries.extend(it.offset.to_le_bytes());
        entries.extend((u64::from(it.r_type) | (it.symbol as u64) << 32).to_le_bytes());
        entries.extend(it.addend.to_le_bytes());
    }
    entries
}

/// The facts of an object's symbols in a static executable, by the names that its objects define.
fn facts_of(object: &Object, defined: &HashSet<String>) -> Vec<SymbolFacts> {
    let facts = |it: &elf::Symbol| {
        let is_local = it.home != Home::Undefined || defined.contains(&*it.name);
        SymbolFacts {
            is_local,
            is_ifunc: false,
            is_absolute: it.home == Home::Absolute,
            is_undefined_weak: it.is_weak && !is_local,
            is_tls_get_addr: it.name == "__tls_get_addr",
            other: it.other,
        }
    };
    object.symbols.iter().map(facts).collect()
}

/// Where a section is in a linked file, by a global symbol in it.
fn address_of(linked: &Linked, object: &Object, index: usize) -> Option<u64> {
    object.symbols.iter().find_map(|it| {
        let is_there = it.home == Home::Section(index) && !it.is_local;
        let definition = linked.globals.get(&it.name).filter(|_| is_there)?;
        Some(definition.address - it.value)
    })
}

/// Bytes without the field of a relocation.
fn without_field(architecture: Architecture, bytes: &[u8], relocation: &Rela) -> Vec<u8> {
    let mut bytes = bytes.to_vec();
    if let Some(row) = architecture.row(relocation.r_type) {
        let field = &mut bytes[relocation.offset as usize..];
        row.write(0, field).unwrap();
    }
    bytes
}

/// The bytes around a relocation, up to the longest instruction before and behind.
fn around(bytes: &[u8], offset: u64, window: (u64, u64)) -> &[u8] {
    let start = offset - window.0;
    &bytes[start as usize..(start + window.1) as usize]
}

/// How many relocations were rewritten as ld.lld did, and how many kept as it did.
fn compare_way(way: &str, counts: &mut [usize; 2]) {
    let root = Path::new(env!("CARGO_MANIFEST_DIR"));
    let file = fs::read(root.join("tests/linked").join(way).join("relaxed")).unwrap();
    let linked = elf::read_linked(&file).unwrap();
    let files: Vec<_> = FILES
        .iter()
        .map(|name| fs::read(root.join("../objects").join(way).join(format!("{name}.o"))).unwrap())
        .collect();
    let objects: Vec<_> =
        files.iter().flat_map(|bytes| elf::read_objects("", bytes).unwrap()).collect();
    let defined: HashSet<String> = objects
        .iter()
        .flat_map(|object| &object.symbols)
        .filter(|it| !it.is_local && it.home != Home::Undefined)
        .map(|it| it.name.to_string())
        .collect();
    for object in &objects {
        let (of, symbols) = (object.architecture, facts_of(object, &defined));
        let link =
            Link { is_executable: true, is_fixed: true, has_near_symbols: true, ..Link::new(of) };
        let known = section::Object { facts: &symbols, ..section::Object::default() };
        let mut kept = vec![UnrelaxableGroups::default(); symbols.len()];
        let sections = || object.sections.iter().enumerate().filter(|(_, it)| it.is_code);
        for (_, section) in sections() {
            let section = section::Section::new(section.bytes, entries_of(section));
            survey(&link, &known, &section, &mut kept);
        }
        for (index, section) in sections() {
            let mut entries = entries_of(section);
            let mut bytes = section.bytes.to_vec();
            let mut decisions = vec![DecisionNumbers::default(); section.relocations.len()];
            let known = section::Object { unrelaxable_groups: &kept, ..known };
            let mut made = section::Section::new(&mut bytes, &mut entries);
            rewrite_section(&link, &known, &mut made, &mut decisions).unwrap();
            let Some(address) = address_of(&linked, object, index) else {
                continue;
            };
            let theirs = &linked.bytes_at(address).unwrap()[..bytes.len()];
            for (n, decision) in decisions.iter().map(|it| it.as_decision()).enumerate() {
                let before = &section.relocations[n];
                let after = relocation_at(&entries, n).unwrap();
                // ld.lld leaves AArch64's calls of an undefined weak function, which choose erases
                if symbols[before.symbol].is_undefined_weak {
                    continue;
                }
                let is_listed = scope_of(of, before.r_type) != Scope::NotRelaxable;
                let window = decision.window();
                let window = match decision {
                    Decision::Rewritten(_) if window.len > 0 => (window.back, window.len),
                    Decision::Kept if is_listed => (0, 4),
                    _ => continue,
                };
                let [mine, linked] = [&bytes[..], theirs].map(|bytes| {
                    let bytes = without_field(of, bytes, &after);
                    around(&bytes, before.offset, window).to_vec()
                });
                assert_eq!(mine, linked, "{way}: {} at {:#x}", section.name, before.offset);
                counts[usize::from(decision == Decision::Kept)] += 1;
            }
        }
    }
}

#[test]
fn instructions_are_rewritten_as_ld_lld_does() {
    let counts = ["x86_64", "aarch64", "powerpc64le"].map(|architecture| {
        let root = Path::new(env!("CARGO_MANIFEST_DIR")).join("tests/linked").join(architecture);
        let mut counts = [0; 2];
        let mut ways: Vec<_> =
            fs::read_dir(root).unwrap().map(|it| it.unwrap().file_name()).collect();
        ways.sort();
        for way in ways {
            compare_way(&format!("{architecture}/{}", way.to_str().unwrap()), &mut counts);
        }
        counts
    });
    // of the 30, 121 and 123 relocations of listed types that readelf counts, the others are of an
    // undefined weak function
    assert_eq!(counts, [[28, 0], [0, 117], [0, 119]]);
}
