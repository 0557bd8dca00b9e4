// SPDX-License-Identifier: MIT OR Apache-2.0
//! Sections: the values of 4 MiB's relocations in one call, beside their rows, values and writes one by
//! one; what a relocation requires, and its value by what is known of symbols.

use crate::inputs::Random;
use crate::library::{Fixup, added};
use crate::measure::{Beside, Report, Side};
use crate::table::{MIXES, PPC64, RISCV, X86_64, name_of};
use crate::{architecture, clear_field};
use erased_crate::elf::{Architecture, Operands};
use erased_crate::section;
use sathunne::raw::*;

/// The address of a section, and how many bytes it has.
const START: u64 = 0x1000_0000;
const LEN: usize = 4 << 20;
/// From one symbol to the next: short branches reach the nearest.
const STEP: usize = 512;

/// A section with its relocations, and what a linker knows of symbols and of the output.
pub struct Input {
    machine: u16,
    section: Vec<u8>,
    relocations: Vec<u8>,
    symbols: Vec<sathunne::Symbol>,
    addresses: sathunne::Addresses,
    /// The offset, the code and the operands of each relocation.
    operands: Vec<(usize, u32, Operands)>,
}

impl Input {
    fn count(&self) -> usize {
        self.operands.len()
    }

    fn architecture(&self) -> Architecture {
        Architecture::from_machine(self.machine).expect("an architecture")
    }

    /// The same symbols and addresses for the crate.
    fn of_crate(&self) -> (Vec<section::Symbol>, section::Link) {
        let symbols = self.symbols.iter().map(|it| section::Symbol {
            address: it.address,
            address_entry: it.address_entry,
            ..section::Symbol::default()
        });
        let link = section::Link {
            got_base: self.addresses.got_base,
            ..section::Link::new(self.architecture())
        };
        (symbols.collect(), link)
    }
}

/// So many relocations of an architecture's mix, from so many bytes to the next.
fn input(
    random: &mut Random,
    (machine, prefix, mix): (u16, &str, &[(&str, usize)]),
    count: usize,
) -> Input {
    let named = |name: &str| {
        let name = Ok(format!("{prefix}{name}"));
        let is_it =
            |r_type: &u32| sathunne::relocation_name(architecture(machine), *r_type) == name;
        (0..1 << 11).find(is_it).expect("a relocation's name")
    };
    let types: Vec<(u32, &str)> = mix
        .iter()
        .flat_map(|(name, n)| vec![(named(name), *name); *n])
        .collect();
    let got = START + LEN as u64;
    let mut symbols: Vec<sathunne::Symbol> = (0..=LEN / STEP)
        .map(|k| sathunne::Symbol {
            address: START + (k * STEP) as u64,
            address_entry: got + 8 * k as u64,
            ..sathunne::Symbol::default()
        })
        .collect();
    let addresses = sathunne::Addresses {
        section: START,
        got_base: got + if machine == PPC64 { 0x8000 } else { 0 },
        ..sathunne::Addresses::default()
    };
    let mut section = random.bytes(LEN);
    let (mut relocations, mut operands) = (Vec::new(), Vec::with_capacity(count));
    // the symbol that labels the last high part, and that one's operands
    let mut high = None;
    for at in 0..count {
        let (r_type, name) = *random.one_of(&types);
        let offset = 40 * at + 4 * random.below(9) as usize;
        if machine == RISCV {
            // the low two bits say whether an instruction has 4 bytes
            let low = if name.starts_with("RVC") { 1 } else { 3 };
            section[offset] = section[offset] & !3 | low;
        }
        let nearest = (offset + STEP / 2 - 1) / STEP;
        let is_short = name.contains("BRANCH") || name.contains("JUMP") || name.starts_with("B1");
        let mut symbol = match nearest {
            32.. if !is_short && nearest + 32 < LEN / STEP => nearest - 32 + random.below(64) as usize,
            _ => nearest,
        };
        let addend = match name {
            "PC32" | "PLT32" | "GOTPCRELX" if machine == X86_64 => -4,
            _ => 0,
        };
        let address = symbols[symbol].address;
        let mut of = Operands {
            got_entry: symbols[symbol].address_entry,
            got_base: addresses.got_base,
            has_got_entry: true,
            has_plt_entry: true,
            has_tls_base: true,
            ..Operands::new(address, addend, START + offset as u64)
        };
        match (machine, name) {
            (RISCV, "PCREL_HI20") => {
                symbols.push(sathunne::Symbol {
                    address: START + offset as u64,
                    ..sathunne::Symbol::default()
                });
                high = Some((symbols.len() - 1, of));
            }
            (RISCV, "PCREL_LO12_I") => match high {
                Some((label, its)) => (symbol, of) = (label, its),
                None => continue,
            },
            _ => (),
        }
        relocations.extend((offset as u64).to_le_bytes());
        relocations.extend((u64::from(r_type) | (symbol as u64) << 32).to_le_bytes());
        relocations.extend(i64::to_le_bytes(addend));
        operands.push((offset, r_type, of));
        let value = 0;
        clear_field(machine, &Fixup { offset, r_type, value }, &mut section);
    }
    Input {
        machine,
        section,
        relocations,
        symbols,
        addresses,
        operands,
    }
}

/// All values in one call of the library's.
fn by_export(input: &Input) -> Side<'_> {
    let needed = sathunne::relocate_memory(&input.relocations);
    let mut memory = vec![0; needed];
    Side::writes(input.section.clone(), move |section| {
        let (given, len) = (input.relocations.as_ptr(), input.relocations.len());
        let (symbols, symbols_len) = (input.symbols.as_ptr(), input.symbols.len());
        let (at, section_len) = (section.as_mut_ptr(), section.len());
        let (memory, memory_len) = (memory.as_mut_ptr(), memory.len());
        // SAFETY: a slice's pointer and length are its own, and a reference is of one value.
        let status = unsafe {
            linker_utils_relocate_section_nonnull(
                input.machine,
                &input.addresses,
                given,
                len,
                symbols,
                symbols_len,
                at,
                section_len,
                memory,
                memory_len,
                &mut 0,
            )
        };
        assert_eq!(status, 0);
    })
}

/// The same by what is known for each relocation.
fn by_resolved(input: &Input) -> Side<'_> {
    let mut memory = vec![0; sathunne::relocate_memory(&input.relocations)];
    let known = |relocation: section::Rela| {
        let symbol = &input.symbols[relocation.symbol as usize];
        sathunne::Resolved {
            address: symbol.address,
            entry: symbol.address_entry,
            ..sathunne::Resolved::default()
        }
    };
    let resolved: Vec<_> = section::relocations(&input.relocations).map(known).collect();
    Side::writes(input.section.clone(), move |section| {
        // SAFETY: a slice's pointer and length are its own, and a reference is of one value.
        let status = unsafe {
            linker_utils_relocate_resolved_nonnull(
                input.machine,
                &input.addresses,
                input.relocations.as_ptr(),
                input.relocations.len(),
                resolved.as_ptr(),
                resolved.len(),
                section.as_mut_ptr(),
                section.len(),
                memory.as_mut_ptr(),
                memory.len(),
                &mut 0,
            )
        };
        assert_eq!(status, 0);
    })
}

/// The same where what choices read of symbols is as kept.
fn by_kept(input: &Input) -> Side<'_> {
    let needed = sathunne::relocate_memory(&input.relocations);
    let mut memory = vec![0; needed];
    let output = sathunne::OutputFacts::default();
    // a call of PowerPC64 of a symbol that another file may define needs a stub
    let own = sathunne::SymbolFacts {
        is_local: true,
        ..sathunne::SymbolFacts::default()
    };
    let facts = vec![own; input.symbols.len()];
    let kept = sathunne::snapshot_facts(&output, &facts).expect("memory");
    Side::writes(input.section.clone(), move |section| {
        // SAFETY: a slice's pointer and length are its own, and a reference is of one value.
        let status = unsafe {
            linker_utils_relocate_rewritten_section_nonnull(
                input.machine,
                &output,
                facts.as_ptr(),
                facts.len(),
                kept.as_ptr(),
                kept.len(),
                &input.addresses,
                input.relocations.as_ptr(),
                input.relocations.len(),
                input.symbols.as_ptr(),
                input.symbols.len(),
                section.as_mut_ptr(),
                section.len(),
                memory.as_mut_ptr(),
                memory.len(),
                &mut 0,
            )
        };
        assert_eq!(status, 0);
    })
}

/// What choices read of many symbols, kept.
fn kept() -> Side<'static> {
    let output = sathunne::OutputFacts::default();
    let facts = [sathunne::SymbolFacts::default(); 1000];
    let mut kept = [sathunne::FactsSnapshot::default(); 1000];
    Side::number(move || {
        let (from, to) = (facts.as_ptr(), kept.as_mut_ptr());
        // SAFETY: a slice's pointer and length are its own, and a reference is of one value.
        let status = unsafe { linker_utils_snapshot_facts_nonnull(&output, from, 1000, to, 1000) };
        u64::from(status) + u64::from(kept[999].bits)
    })
}

/// The same by two calls of the library's for each, whose operands are there already.
fn by_exports(input: &Input) -> Side<'_> {
    let as_given = |of: &Operands| sathunne::Operands {
        symbol: of.symbol,
        addend: of.addend,
        place: of.place,
        got_entry: of.got_entry,
        got_base: of.got_base,
        plt_entry: of.plt_entry,
        symbol_size: of.symbol_size,
        tls_base: of.tls_base,
        has_got_entry: of.has_got_entry,
        has_plt_entry: of.has_plt_entry,
        has_tls_base: of.has_tls_base,
    };
    let operands: Vec<_> = input
        .operands
        .iter()
        .map(|(offset, r_type, of)| (*offset, *r_type, as_given(of)))
        .collect();
    Side::writes(input.section.clone(), move |section| {
        for (offset, r_type, operands) in &operands {
            let mut value = 0;
            let rest = &mut section[*offset..];
            // SAFETY: a slice's pointer and length are its own, and a reference is of one value.
            let status = unsafe {
                linker_utils_value(input.machine, *r_type, operands, &mut value)
                    | linker_utils_relocate_nonnull(
                        input.machine,
                        *r_type,
                        value,
                        rest.as_mut_ptr(),
                        rest.len(),
                    )
            };
            assert_eq!(status, 0);
        }
    })
}

/// All values in one call of the crate's.
fn by_crate(input: &Input) -> Side<'_> {
    let (symbols, link) = input.of_crate();
    let mut memory = vec![0; section::memory_len(&input.relocations)];
    Side::writes(input.section.clone(), move |bytes| {
        let object = section::Object {
            values: &symbols,
            ..section::Object::default()
        };
        let mut section = section::Section {
            address: input.addresses.section,
            ..section::Section::new(bytes, &input.relocations)
        };
        let written = section::relocate_section(&link, &object, &mut section, &mut memory);
        assert_eq!(written, Ok(()));
    })
}

/// A look-up in the same symbols.
#[derive(Clone, Copy)]
struct Symbols<'a> {
    symbols: &'a [section::Symbol],
}

impl section::Lookup for Symbols<'_> {
    fn resolved(self, _: usize, relocation: &section::Rela) -> Option<section::Resolved> {
        let symbol = self.symbols.get(relocation.symbol as usize)?;
        Some(section::Resolved {
            address: symbol.address,
            entry: symbol.address_entry,
            ..section::Resolved::default()
        })
    }
}

/// All values in one call of the crate's that looks symbols up.
fn by_lookup(input: &Input) -> Side<'_> {
    let (symbols, link) = input.of_crate();
    let mut memory = vec![0; section::memory_len(&input.relocations)];
    Side::writes(input.section.clone(), move |bytes| {
        let mut section = section::Section {
            address: input.addresses.section,
            ..section::Section::new(bytes, &input.relocations)
        };
        let lookup = Symbols { symbols: &symbols };
        let written = section::relocate_resolved(&link, lookup, &mut section, &mut memory);
        assert_eq!(written, Ok(()));
    })
}

/// The same by `row`, `value` and `write` for each, whose operands are there already.
fn one_by_one(input: &Input) -> Side<'_> {
    let architecture = input.architecture();
    Side::writes(input.section.clone(), move |section| {
        for (offset, r_type, operands) in &input.operands {
            let row = architecture.row(*r_type).expect("a row");
            let value = row.value(operands).expect("a value");
            assert_eq!(row.write(value, &mut section[*offset..]), Ok(()));
        }
    })
}

/// The r_types of a section's relocations, for what each requires.
fn requirements(report: &mut Report, input: &Input) {
    let architecture = input.architecture();
    let r_types: Vec<u32> = input.operands.iter().map(|it| it.1).collect();
    let r_types = &r_types;
    let mut required = sathunne::raw::Requirements::default();
    let exports = Side::number(move || {
        r_types.iter().fold(0, |sum, r_type| {
            // SAFETY: it takes numbers, and a reference.
            let status = unsafe { linker_utils_needs(input.machine, *r_type, 0, false, &mut required) };
            added(sum, u64::from(status) | u64::from(required.entry_class))
        })
    });
    let erased = Side::number(move || {
        r_types.iter().fold(0, |sum, r_type| {
            let needs = section::needs(architecture, *r_type, 0, false).expect("a row");
            let class = needs.entry.map_or(0, |entry| 1 + entry.class as u64);
            added(sum, class)
        })
    });
    let name = format!("`linker_utils_needs`, {}", name_of(input.machine));
    report.line(&name, input.count(), true, [Some(exports), None, Some(erased), None]);
}

fn values(report: &mut Report, input: &Input) {
    let (symbols, link) = input.of_crate();
    let addresses = link.addresses(input.addresses.section);
    let architecture = input.architecture();
    let exports = Side::number(move || {
        (0..input.count()).fold(0, |sum, index| {
            let mut value = 0;
            // SAFETY: a slice's pointer and length are its own, and a reference is of one value.
            let status = unsafe {
                linker_utils_value_at_nonnull(
                    input.machine,
                    &input.addresses,
                    input.relocations.as_ptr(),
                    input.relocations.len(),
                    input.symbols.as_ptr(),
                    input.symbols.len(),
                    index,
                    &mut value,
                )
            };
            assert_eq!(status, 0);
            added(sum, value as u64)
        })
    });
    let erased = Side::number(move || {
        let relocations = &input.relocations;
        (0..input.count()).fold(0, |sum, index| {
            let relocation = section::relocation_at(relocations, index).expect("one");
            let value =
                section::value(architecture, &addresses, relocations, &symbols, &relocation);
            added(sum, value.expect("symbols").expect("a value") as u64)
        })
    });
    let name = format!("`linker_utils_value_at`, {}", name_of(input.machine));
    report.line(&name, input.count(), true, [Some(exports), None, Some(erased), None]);
}

pub fn sections(report: &mut Report) {
    let random = &mut Random::new(21);
    let inputs = MIXES.map(|mix| input(random, mix, LEN / 40 - 1));
    report.heading(
        "Relocations of 4 MiB by `linker_utils_relocate_section`",
        Beside::Other("row, value and write, one by one"),
    );
    for input in &inputs {
        let sides = [
            Some(by_export(input)),
            Some(by_exports(input)),
            Some(by_crate(input)),
            Some(one_by_one(input)),
        ];
        report.line(name_of(input.machine), input.count(), true, sides);
    }
    report.heading(
        "The same by `linker_utils_relocate_resolved`",
        Beside::Other("by a table of symbols"),
    );
    for input in &inputs {
        let sides = [
            Some(by_resolved(input)),
            Some(by_export(input)),
            Some(by_lookup(input)),
            Some(by_crate(input)),
        ];
        report.line(name_of(input.machine), input.count(), true, sides);
    }
    report.heading(
        "The same by `linker_utils_relocate_rewritten_section`",
        Beside::Other("without kept facts"),
    );
    for input in &inputs {
        let sides = [Some(by_kept(input)), Some(by_export(input)), None, None];
        report.line(name_of(input.machine), input.count(), true, sides);
    }
    report.heading("What relocations require, and values", Beside::Nothing);
    let name = "`linker_utils_snapshot_facts`, a symbol";
    report.line(name, 1000, true, [Some(kept()), None, None, None]);
    for input in &inputs {
        requirements(report, input);
        values(report, input);
    }
    let input = &inputs[0];
    let memory = Side::number(|| {
        let (at, len) = (input.relocations.as_ptr(), input.relocations.len());
        // SAFETY: a slice's pointer and length are its own.
        unsafe { linker_utils_relocate_memory_nonnull(at, len) as u64 }
    });
    let name = "`linker_utils_relocate_memory`, a relocation";
    report.line(name, input.count(), true, [Some(memory), None, None, None]);
}

/// Relocations of x86-64, `R_X86_64_PC32`, in a section that has no other bytes.
pub fn many(count: usize) -> Side<'static> {
    let mut relocations = Vec::with_capacity(24 * count);
    for at in 0..count as u64 {
        relocations.extend((4 * at).to_le_bytes());
        relocations.extend((2u64 | 1 << 32).to_le_bytes());
        relocations.extend(0u64.to_le_bytes());
    }
    let mut memory = vec![0; sathunne::relocate_memory(&relocations)];
    let symbols = [0, START].map(|address| sathunne::Symbol {
        address,
        ..sathunne::Symbol::default()
    });
    let addresses = sathunne::Addresses {
        section: START,
        ..sathunne::Addresses::default()
    };
    Side::over(
        vec![0; 4 * count],
        |_| (),
        move |section| {
            let of = sathunne::Architecture::X86_64;
            let written = sathunne::relocate_section(
                of,
                &addresses,
                &relocations,
                &symbols,
                section,
                &mut memory,
            );
            assert_eq!(written, Ok(()));
        },
        |_| 0,
    )
}
