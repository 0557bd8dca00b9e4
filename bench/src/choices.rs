// SPDX-License-Identifier: MIT OR Apache-2.0
//! A stream of relocations whose instructions are rewritten: each is looked up, its rewrite chosen
//! and applied, and its value computed and written; beside the same without a rewrite.

use crate::measure::{Beside, Report, Side};
use crate::table::{AARCH64, RISCV, X86_64};
use erased_crate::aarch64::{self, AArch64Relocation};
use erased_crate::architecture::{Relaxation, choose};
use erased_crate::elf::{Architecture, InstructionRewrite, LinkFacts, Operands};
use erased_crate::riscv64::{self, RiscVRelocation};
use erased_crate::x86_64::{self, X86_64Relocation};
use sathunne::raw::*;
use std::hint::black_box;

const COUNT: usize = 20_000;

/// Bytes of an instruction or a pair, with those around it: a window.
pub const STRIDE: usize = 16;

pub struct Site {
    pub offset: u64,
    pub r_type: u32,
    addend: i64,
}

impl Site {
    pub fn operands(&self) -> sathunne::Operands {
        of_c(&operands(self))
    }

    pub fn facts(&self) -> sathunne::LinkFacts {
        let facts = facts(self);
        sathunne::LinkFacts {
            is_local: facts.is_local,
            is_pcrel_link_time_constant: facts.is_pcrel_link_time_constant,
            is_relaxable: facts.is_relaxable,
            has_addresses: facts.has_addresses,
            operands: self.operands(),
            ..sathunne::LinkFacts::default()
        }
    }
}

/// A section of the same instructions again and again, and its relocations.
pub struct Stream {
    pub name: &'static str,
    pub machine: u16,
    pub section: Vec<u8>,
    pub sites: Vec<Site>,
}

impl Stream {
    pub fn all() -> [Stream; 3] {
        STREAMS.map(|(name, machine, bytes, relocations, addend)| {
            let mut section = vec![0; COUNT * STRIDE];
            let mut sites = Vec::new();
            for (at, part) in section.chunks_exact_mut(STRIDE).enumerate() {
                part[..8].copy_from_slice(&bytes);
                let sites_here = relocations.iter().map(|&(offset, r_type)| Site {
                    offset: (at * STRIDE) as u64 + offset,
                    r_type,
                    addend,
                });
                sites.extend(sites_here);
            }
            Stream {
                name,
                machine,
                section,
                sites,
            }
        })
    }

    /// Each window after its rewrites and relocations, without the bytes that are deleted.
    pub fn linked(&self) -> Vec<Vec<u8>> {
        let architecture = sathunne::Architecture::from_machine(self.machine).expect("one of five");
        let mut windows: Vec<Vec<u8>> = self
            .section
            .chunks_exact(STRIDE)
            .map(<[u8]>::to_vec)
            .collect();
        let mut deleted = Vec::new();
        for site in &self.sites {
            let (facts, offset) = (site.facts(), site.offset);
            let choice = sathunne::choose(architecture, site.r_type, &self.section, offset, &facts)
                .expect("a choice");
            let window = &mut windows[offset as usize / STRIDE];
            let (mut within, mut of) = (offset % STRIDE as u64, site.operands());
            let begin = within;
            sathunne::apply(choice.rewrite, window, &mut within, &mut of.addend)
                .expect("the rewrite applies");
            of.place = of.place + within - begin;
            let value = sathunne::value(architecture, choice.relocation, &of).expect("a value");
            let field = &mut window[within as usize..];
            sathunne::relocate(architecture, choice.relocation, value, field)
                .expect("it is written");
            let range = begin + choice.deleted.start..begin + choice.deleted.end;
            deleted.push((offset as usize / STRIDE, range));
        }
        for (at, range) in deleted {
            windows[at].drain(range.start as usize..range.end as usize);
        }
        windows
    }
}

/// An architecture's instructions, with the offsets and types of their relocations.
const STREAMS: [(&str, u16, [u8; 8], &[(u64, u32)], i64); 3] = [
    // adrp x3 and ldr x3, [x3] of the GOT
    (
        "AArch64",
        AARCH64,
        [0x03, 0, 0, 0x90, 0x63, 0, 0x40, 0xf9],
        &[(0, 311), (4, 312)],
        0,
    ),
    // auipc ra and jalr ra, 0(ra): a call
    (
        "RISC-V",
        RISCV,
        [0x97, 0, 0, 0, 0xe7, 0x80, 0, 0],
        &[(0, 19)],
        0,
    ),
    // nop and mov x@GOTPCREL(%rip), %rbx
    (
        "x86-64",
        X86_64,
        [0x90, 0x48, 0x8b, 0x1d, 0, 0, 0, 0],
        &[(4, 42)],
        -4,
    ),
];

fn operands(site: &Site) -> Operands {
    let symbol = 0x8_0000;
    Operands {
        symbol,
        addend: site.addend,
        place: site.offset,
        got_entry: 0x9_0000,
        plt_entry: symbol,
        has_got_entry: true,
        has_plt_entry: true,
        ..Operands::default()
    }
}

fn facts(site: &Site) -> LinkFacts {
    LinkFacts {
        is_local: true,
        is_pcrel_link_time_constant: true,
        is_relaxable: true,
        has_addresses: true,
        operands: operands(site),
        ..LinkFacts::default()
    }
}

fn of_c(operands: &Operands) -> sathunne::Operands {
    sathunne::Operands {
        symbol: operands.symbol,
        addend: operands.addend,
        place: operands.place,
        got_entry: operands.got_entry,
        plt_entry: operands.plt_entry,
        has_got_entry: operands.has_got_entry,
        has_plt_entry: operands.has_plt_entry,
        ..sathunne::Operands::default()
    }
}

fn by_exports(machine: u16, sites: &[Site], section: &mut [u8], chooses: bool) -> bool {
    let len = section.len();
    sites.iter().all(|site| {
        let (mut offset, mut addend, mut r_type) = (site.offset, site.addend, site.r_type);
        let mut of = of_c(&operands(site));
        let bytes = section.as_mut_ptr();
        if chooses {
            let known = facts(site);
            let numbers = sathunne::raw::LinkFacts {
                is_local: known.is_local.into(),
                is_pcrel_link_time_constant: known.is_pcrel_link_time_constant.into(),
                is_relaxable: known.is_relaxable.into(),
                has_addresses: known.has_addresses.into(),
                operands: of,
                ..sathunne::raw::LinkFacts::default()
            };
            let mut choice = Choice::default();
            // SAFETY: the section is of that length
            let status = unsafe {
                linker_utils_choose_nonnull(
                    machine,
                    r_type,
                    bytes,
                    len,
                    offset,
                    &numbers,
                    &mut choice,
                ) | linker_utils_apply_nonnull(
                    machine,
                    choice.rewrite,
                    choice.opcode_len,
                    bytes,
                    len,
                    &mut offset,
                    &mut addend,
                )
            };
            r_type = choice.relocation;
            of.place = of.place.wrapping_add(offset).wrapping_sub(site.offset);
            of.addend = addend;
            assert_eq!(status, 0);
        }
        let (mut value, at) = (0, offset as usize);
        // SAFETY: the offset is in the section
        unsafe {
            linker_utils_value(machine, r_type, &of, &mut value) == 0
                && linker_utils_relocate_nonnull(machine, r_type, value, bytes.add(at), len - at)
                    == 0
        }
    })
}

fn by_crate(machine: u16, sites: &[Site], section: &mut [u8], chooses: bool) -> bool {
    let architecture = Architecture::from_machine(machine).expect("one of five");
    sites.iter().all(|site| {
        let (mut offset, mut r_type) = (site.offset, site.r_type);
        let mut of = operands(site);
        if chooses {
            let chosen = choose(architecture, r_type, section, offset, &facts(site));
            let kind: Relaxation = chosen.kind;
            kind.apply(section, &mut offset, &mut of.addend);
            r_type = chosen.relocation;
            of.place = of.place.wrapping_add(offset).wrapping_sub(site.offset);
        }
        let Some(row) = architecture.row(r_type) else {
            return false;
        };
        let Ok(value) = row.value(&of) else {
            return false;
        };
        row.write(value, &mut section[offset as usize..]).is_ok()
    })
}

pub fn choices(report: &mut Report) {
    report.heading(
        "Relocations with a rewrite chosen and applied",
        Beside::Task("without a rewrite"),
    );
    for stream in &Stream::all() {
        let (machine, section, sites) = (stream.machine, &stream.section, &stream.sites);
        let side = |run: fn(u16, &[Site], &mut [u8], bool) -> bool, chooses: bool| {
            Some(Side::over(
                section.clone(),
                move |state: &mut Vec<u8>| state.copy_from_slice(section),
                move |state: &mut Vec<u8>| assert!(run(machine, sites, state, chooses)),
                |_| 0,
            ))
        };
        let sides = [
            side(by_exports, true),
            side(by_exports, false),
            side(by_crate, true),
            side(by_crate, false),
        ];
        report.line(stream.name, sites.len(), false, sides);
    }
}

/// Relocations that the tables of choices don't list, of eight bytes and of four.
const UNLISTED: [(u16, u32); 3] = [(AARCH64, 257), (RISCV, 2), (X86_64, 2)];

/// How many relocations: what is known of them fits in a cache.
const ALONE: usize = 250;

/// What is known of a relocation: its name, its offset and the facts.
type Known<N> = (N, u64, LinkFacts);

/// Chooses for each site by a relocation's name. Names are loaded and choices stored in memory as by a
/// linker: `black_box` of a name or a choice itself would store it by parts and load it as a whole,
/// which the processor can't forward, and that takes longer than the choice.
fn choose_all<N: Copy, C>(known: &[Known<N>], choose: impl Fn(N, u64, &LinkFacts) -> C) -> u64 {
    for (name, offset, facts) in black_box(known) {
        black_box(&choose(*name, *offset, facts));
    }
    0
}

/// A side of the crate that chooses by names.
fn by_names<'a, N: Copy + 'a, C: 'a>(
    sites: &[Site],
    name_of: impl Fn(u32) -> N,
    choose: impl Fn(N, u64, &LinkFacts) -> C + 'a,
) -> Side<'a> {
    let known_of = |site: &Site| (name_of(site.r_type), site.offset, facts(site));
    let known: Vec<Known<N>> = sites.iter().map(known_of).collect();
    Side::number(move || choose_all(&known, &choose))
}

/// A choice for each site: by its code, and in the crate by its name.
fn choosing_for(report: &mut Report, line: &str, machine: u16, section: &[u8], sites: &[Site]) {
    let known: Vec<(u32, u64, sathunne::raw::LinkFacts)> = sites
        .iter()
        .map(|site| (site.r_type, site.offset, (&site.facts()).into()))
        .collect();
    let exports = Side::over(
        Choice::default(),
        |_: &mut Choice| (),
        move |choice: &mut Choice| {
            for (r_type, offset, facts) in &known {
                let (at, len) = (section.as_ptr(), section.len());
                // SAFETY: the section is there
                let status = unsafe {
                    linker_utils_choose_nonnull(machine, *r_type, at, len, *offset, facts, choice)
                };
                assert_eq!(status, 0);
            }
        },
        |_| 0,
    );
    let by_crate = match machine {
        AARCH64 => by_names(sites, AArch64Relocation::from_elf, |name, offset, facts| {
            aarch64::choose(name, section, offset, facts)
        }),
        RISCV => by_names(sites, RiscVRelocation::from_elf, |name, offset, facts| {
            riscv64::choose(name, section, offset, facts)
        }),
        _ => by_names(sites, X86_64Relocation::from_elf, |name, offset, facts| {
            x86_64::choose(name, section, offset, facts)
        }),
    };
    report.line(line, sites.len(), false, [Some(exports), None, Some(by_crate), None]);
}

/// Appends the sections of an object for 64-bit ELF that have relocations with addends and are
/// loaded, and adds these in their order.
fn add_object(object: &[u8], section: &mut Vec<u8>, sites: &mut Vec<Site>) {
    let number = |at: usize, len: usize| {
        object[at..at + len].iter().rev().fold(0, |number, &byte| number << 8 | usize::from(byte))
    };
    let headers = number(0x28, 8);
    for header in (0..number(0x3c, 2)).map(|index| headers + 64 * index) {
        let of = headers + 64 * number(header + 0x2c, 4);
        // SHT_RELA, of SHT_PROGBITS with SHF_ALLOC
        if number(header + 4, 4) != 4 || number(of + 4, 4) != 1 || number(of + 8, 8) & 2 == 0 {
            continue;
        }
        let (begin, bytes) = (section.len() as u64, number(of + 0x18, 8));
        section.extend(&object[bytes..bytes + number(of + 0x20, 8)]);
        section.resize(section.len().next_multiple_of(STRIDE), 0);
        let relocations = number(header + 0x18, 8);
        for at in (relocations..relocations + number(header + 0x20, 8)).step_by(24) {
            sites.push(Site {
                offset: begin + number(at, 8) as u64,
                r_type: number(at + 8, 4) as u32,
                addend: number(at + 16, 8) as i64,
            });
        }
    }
}

/// The objects of an architecture in `examples/objects`, one after another.
fn objects(folder: &str) -> (Vec<u8>, Vec<Site>) {
    let at = concat!(env!("CARGO_MANIFEST_DIR"), "/../../examples/objects/");
    let (mut section, mut sites) = (Vec::new(), Vec::new());
    let mut folders = vec![std::path::PathBuf::from(format!("{at}{folder}"))];
    while let Some(folder) = folders.pop() {
        let entries = std::fs::read_dir(folder).expect("a folder of objects");
        let mut paths: Vec<_> = entries.map(|entry| entry.expect("an entry").path()).collect();
        paths.sort();
        for path in paths {
            if path.is_dir() {
                folders.push(path);
            } else if path.extension().is_some_and(|extension| extension == "o") {
                let object = std::fs::read(path).expect("an object");
                add_object(&object, &mut section, &mut sites);
            }
        }
    }
    (section, sites)
}

/// A choice alone: of one relocation that a table lists, of one that none does, and of those of
/// objects in their order.
pub fn choosing(report: &mut Report) {
    report.heading("Choosing a rewrite, a relocation", Beside::Nothing);
    for stream in &Stream::all() {
        let (name, machine) = (stream.name, stream.machine);
        let unlisted = UNLISTED.into_iter().find(|&(of, _)| of == machine);
        let listed = stream.sites[0].r_type;
        for (words, r_type) in [("", listed), (" without a table", unlisted.expect("of each").1)] {
            let of_one = stream.sites.iter().filter(|site| site.r_type == listed).take(ALONE);
            let sites: Vec<Site> = of_one.map(|site| Site { r_type, ..*site }).collect();
            choosing_for(report, &format!("{name}{words}"), machine, &stream.section, &sites);
        }
        let folder = match machine {
            AARCH64 => "aarch64",
            RISCV => "riscv64",
            _ => "x86_64",
        };
        let (section, sites) = objects(folder);
        choosing_for(report, &format!("{name}, of objects"), machine, &section, &sites);
    }
}
