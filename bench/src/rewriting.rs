// SPDX-License-Identifier: MIT OR Apache-2.0
//! Sections rewritten in one call, and surveyed before: relocations of 4 MiB, of which some are of
//! groups; stubs, routes of branches, and places of stubs.

use crate::inputs::Random;
use crate::library::added;
use crate::measure::{Beside, Report, Side};
use crate::table::{AARCH64, PPC64, RISCV, X86_64, name_of};
use erased_crate::elf::Architecture;
use erased_crate::{output, placement, rewriting, section};
use sathunne::raw::*;

const LEN: usize = 4 << 20;
/// From one sequence to the next.
const STEP: usize = 40;
const SYMBOLS: usize = 4096;
/// An executable at a fixed address.
const EXECUTABLE: (bool, bool, bool) = (true, true, true);

/// Instructions, and their relocations: each with its offset in them, and its code.
type Sequence = (&'static [u8], &'static [(u64, u32)]);

/// A load and a call by the GOT, a load of an offset from the thread pointer, and a call.
const OF_X86_64: [Sequence; 4] = [
    (&[0x48, 0x8b, 0x05, 0, 0, 0, 0], &[(3, 42)]),
    (&[0xff, 0x15, 0, 0, 0, 0], &[(2, 41)]),
    (&[0x48, 0x8b, 0x05, 0, 0, 0, 0], &[(3, 22)]),
    (&[0xe8, 0, 0, 0, 0], &[(1, 4)]),
];

/// A load of an offset from the thread pointer, a call, and a load by a page's address.
const OF_AARCH64: [Sequence; 3] = [
    (&[0, 0, 0, 0x90, 0, 0, 0x40, 0xf9], &[(0, 541), (4, 542)]),
    (&[0, 0, 0, 0x94], &[(0, 283)]),
    (&[0, 0, 0, 0x90, 0, 0, 0x40, 0xf9], &[(0, 275), (4, 286)]),
];

/// A call, a load of an offset from the thread pointer with its use, and a load by the TOC pointer.
const OF_PPC64: [Sequence; 3] = [
    (&[1, 0, 0, 0x48, 0, 0, 0, 0x60], &[(0, 10)]),
    (
        &[0, 0, 0x22, 0x3d, 0, 0, 0x29, 0xe9, 0x14, 0x6a, 0x29, 0x7d],
        &[(0, 90), (4, 88), (8, 67)],
    ),
    (&[0, 0, 0x62, 0x3c, 0, 0, 0x63, 0xe8], &[(0, 50), (4, 64)]),
];

/// A section with its relocations after it, and what a linker knows of symbols.
struct Input {
    machine: u16,
    bytes: Vec<u8>,
    symbols: Vec<sathunne::SymbolFacts>,
    kept: Vec<sathunne::UnrelaxableGroups>,
}

impl Input {
    fn count(&self) -> usize {
        (self.bytes.len() - LEN) / 24
    }
}

fn input(random: &mut Random, machine: u16, sequences: &[Sequence]) -> Input {
    let (mut bytes, mut relocations) = (vec![0; LEN], Vec::new());
    for at in (0..LEN - STEP).step_by(STEP) {
        let (code, listed) = *random.one_of(sequences);
        bytes[at..at + code.len()].copy_from_slice(code);
        let symbol = 1 + random.below(SYMBOLS as u128 - 1);
        for (offset, r_type) in listed {
            let addend = if machine == X86_64 { -4 } else { 0i64 };
            relocations.extend((at as u64 + offset).to_le_bytes());
            relocations.extend((u64::from(*r_type) | symbol << 32).to_le_bytes());
            relocations.extend(addend.to_le_bytes());
        }
    }
    bytes.extend(relocations);
    let defined = sathunne::SymbolFacts {
        is_local: true,
        ..sathunne::SymbolFacts::default()
    };
    // one of eight is of another file, and its groups stay
    let imported = sathunne::SymbolFacts::default();
    let symbols: Vec<_> = (0..SYMBOLS)
        .map(|at| if at % 8 == 0 { imported } else { defined })
        .collect();
    let mut kept = vec![sathunne::UnrelaxableGroups::default(); SYMBOLS];
    let (section, relocations) = bytes.split_at(LEN);
    let (is_executable, is_fixed, has_near_symbols) = EXECUTABLE;
    let output = sathunne::OutputFacts {
        is_executable,
        is_fixed,
        has_near_symbols,
    };
    let architecture = crate::architecture(machine);
    sathunne::survey(architecture, &output, &symbols, relocations, section, &mut kept);
    Input {
        machine,
        bytes,
        symbols,
        kept,
    }
}

/// The same symbols and groups for the crate.
fn of_crate(input: &Input) -> (Vec<rewriting::SymbolFacts>, Vec<rewriting::UnrelaxableGroups>) {
    let symbols = input.symbols.iter().map(|it| rewriting::SymbolFacts {
        is_local: it.is_local,
        ..rewriting::SymbolFacts::default()
    });
    let kept = input.kept.iter().map(|it| rewriting::UnrelaxableGroups {
        initial_exec: it.initial_exec,
        general_dynamic: it.general_dynamic,
        local_dynamic: it.local_dynamic,
        descriptor: it.descriptor,
        got_load: it.got_load,
    });
    (symbols.collect(), kept.collect())
}

fn surveys(report: &mut Report, input: &Input) {
    let (section, relocations) = input.bytes.split_at(LEN);
    let (is_executable, is_fixed, has_near_symbols) = EXECUTABLE;
    let output = sathunne::OutputFacts {
        is_executable,
        is_fixed,
        has_near_symbols,
    };
    let none = vec![sathunne::UnrelaxableGroups::default(); SYMBOLS];
    let exports = Side::over(
        none.clone(),
        |kept: &mut Vec<_>| kept.fill(sathunne::UnrelaxableGroups::default()),
        move |kept: &mut Vec<_>| {
            // SAFETY: a slice's pointer and length are its own, and a reference is of one value.
            let status = unsafe {
                linker_utils_survey_nonnull(
                    input.machine,
                    &output,
                    input.symbols.as_ptr(),
                    input.symbols.len(),
                    relocations.as_ptr(),
                    relocations.len(),
                    section.as_ptr(),
                    section.len(),
                    kept.as_mut_ptr(),
                    kept.len(),
                )
            };
            assert_eq!(status, 0);
        },
        |kept: &Vec<sathunne::UnrelaxableGroups>| kept.iter().filter(|it| it.initial_exec).count(),
    );
    let (symbols, _) = of_crate(input);
    let architecture = Architecture::from_machine(input.machine).expect("an architecture");
    let erased = Side::over(
        vec![rewriting::UnrelaxableGroups::default(); SYMBOLS],
        |kept: &mut Vec<_>| kept.fill(rewriting::UnrelaxableGroups::default()),
        move |kept: &mut Vec<_>| {
            let link = section::Link {
                is_executable,
                is_fixed,
                has_near_symbols,
                ..section::Link::new(architecture)
            };
            let object = section::Object {
                facts: &symbols,
                ..section::Object::default()
            };
            rewriting::survey(&link, &object, &section::Section::new(section, relocations), kept);
        },
        |kept: &Vec<rewriting::UnrelaxableGroups>| kept.iter().filter(|it| it.initial_exec).count(),
    );
    let name = format!("`linker_utils_survey`, {}", name_of(input.machine));
    report.line(&name, input.count(), true, [Some(exports), None, Some(erased), None]);
}

/// Rounds that write to the input's bytes as they were at first.
fn anew<'a>(input: &'a Input, mut round: impl FnMut(&mut [u8]) + 'a) -> Side<'a> {
    Side::over(
        input.bytes.clone(),
        |bytes: &mut Vec<u8>| bytes.copy_from_slice(&input.bytes),
        move |bytes: &mut Vec<u8>| round(bytes),
        Vec::clone,
    )
}

fn rewrites(report: &mut Report, input: &Input) {
    let (is_executable, is_fixed, has_near_symbols) = EXECUTABLE;
    let output = sathunne::OutputFacts {
        is_executable,
        is_fixed,
        has_near_symbols,
    };
    let mut decisions = vec![sathunne::raw::Decision::default(); input.count()];
    let exports = anew(input, move |bytes| {
        let (section, relocations) = bytes.split_at_mut(LEN);
        // SAFETY: a slice's pointer and length are its own, and a reference is of one value.
        let status = unsafe {
            linker_utils_rewrite_section_nonnull(
                input.machine,
                &output,
                input.symbols.as_ptr(),
                input.symbols.len(),
                input.kept.as_ptr(),
                input.kept.len(),
                relocations.as_mut_ptr(),
                relocations.len(),
                section.as_mut_ptr(),
                section.len(),
                decisions.as_mut_ptr(),
                decisions.len(),
                &mut 0,
            )
        };
        assert_eq!(status, 0);
    });
    let (symbols, kept) = of_crate(input);
    let architecture = Architecture::from_machine(input.machine).expect("an architecture");
    let mut made = vec![rewriting::DecisionNumbers::default(); input.count()];
    let erased = anew(input, move |bytes| {
        let (section, relocations) = bytes.split_at_mut(LEN);
        let link = section::Link {
            is_executable,
            is_fixed,
            has_near_symbols,
            ..section::Link::new(architecture)
        };
        let object = section::Object {
            facts: &symbols,
            unrelaxable_groups: &kept,
            ..section::Object::default()
        };
        let mut section = section::Section::new(section, relocations);
        let done = rewriting::rewrite_section(&link, &object, &mut section, &mut made);
        assert_eq!(done, Ok(()));
    });
    let name = format!("`linker_utils_rewrite_section`, {}", name_of(input.machine));
    report.line(&name, input.count(), true, [Some(exports), None, Some(erased), None]);
}

/// The same decided over the input as it is, and then made in a copy.
fn decisions(report: &mut Report, input: &Input) {
    let (section, relocations) = input.bytes.split_at(LEN);
    let (is_executable, is_fixed, has_near_symbols) = EXECUTABLE;
    let output = sathunne::OutputFacts {
        is_executable,
        is_fixed,
        has_near_symbols,
    };
    let decide = move |decisions: &mut Vec<sathunne::raw::Decision>| {
        // SAFETY: a slice's pointer and length are its own, and a reference is of one value.
        let status = unsafe {
            linker_utils_decide_rewrites_nonnull(
                input.machine,
                &output,
                input.symbols.as_ptr(),
                input.symbols.len(),
                input.kept.as_ptr(),
                input.kept.len(),
                relocations.as_ptr(),
                relocations.len(),
                section.as_ptr(),
                section.len(),
                decisions.as_mut_ptr(),
                decisions.len(),
                &mut 0,
            )
        };
        assert_eq!(status, 0);
    };
    let mut decisions = vec![sathunne::raw::Decision::default(); input.count()];
    decide(&mut decisions);
    let decided = Side::over(
        decisions.clone(),
        |_: &mut Vec<_>| (),
        decide,
        |decisions: &Vec<sathunne::raw::Decision>| decisions.iter().filter(|it| it.fate != 0).count(),
    );
    let name = format!("`linker_utils_decide_rewrites`, {}", name_of(input.machine));
    report.line(&name, input.count(), true, [Some(decided), None, None, None]);
    let made = anew(input, move |bytes| {
        let (section, relocations) = bytes.split_at_mut(LEN);
        // SAFETY: a slice's pointer and length are its own, and a reference is of one value.
        let status = unsafe {
            linker_utils_make_rewrites_nonnull(
                relocations.as_mut_ptr(),
                relocations.len(),
                section.as_mut_ptr(),
                section.len(),
                decisions.as_ptr(),
                decisions.len(),
                &mut 0,
            )
        };
        assert_eq!(status, 0);
    });
    let name = format!("`linker_utils_make_rewrites`, {}", name_of(input.machine));
    report.line(&name, input.count(), true, [Some(made), None, None, None]);
}

/// Two pairs of a page and an offset in it, and a call.
const PLACED_OF_AARCH64: [Sequence; 2] = [
    (&[0, 0, 0, 0x90, 0, 0, 0, 0x91], &[(0, 275), (4, 277)]),
    (&[0, 0, 0, 0x94], &[(0, 283)]),
];

/// An address by its distance from the TOC pointer, an offset from the thread pointer, and a call.
const PLACED_OF_PPC64: [Sequence; 3] = [
    (&[0, 0, 0x62, 0x3c, 0, 0, 0x63, 0x38], &[(0, 50), (4, 48)]),
    (&[0, 0, 0x6d, 0x3c, 0, 0, 0x63, 0x38], &[(0, 72), (4, 70)]),
    (&[1, 0, 0, 0x48, 0, 0, 0, 0x60], &[(0, 10)]),
];

/// Where the section, the GOT and all symbols are.
const PLACED: Addresses = Addresses {
    section: 0x10_0000,
    got_base: 0x60_0000,
    thread_origin: 0x60_0000,
    module_origin: 0,
    module_entry: 0,
    has_tls: true,
};

const LAST_PHASE: u32 = 3;

fn surveys_of_placed(report: &mut Report, input: &Input) {
    let (section, relocations) = input.bytes.split_at(LEN);
    let (is_executable, is_fixed, has_near_symbols) = EXECUTABLE;
    let output = sathunne::OutputFacts {
        is_executable,
        is_fixed,
        has_near_symbols,
    };
    let values = vec![Symbol { address: 0x60_0010, ..Symbol::default() }; SYMBOLS];
    let exports = Side::over(
        vec![sathunne::UnrelaxableGroups::default(); SYMBOLS],
        |kept: &mut Vec<_>| kept.fill(sathunne::UnrelaxableGroups::default()),
        move |kept: &mut Vec<_>| {
            // SAFETY: a slice's pointer and length are its own, and a reference is of one value.
            let status = unsafe {
                linker_utils_survey_placed_section_nonnull(
                    input.machine,
                    LAST_PHASE,
                    &output,
                    input.symbols.as_ptr(),
                    input.symbols.len(),
                    &PLACED,
                    values.as_ptr(),
                    values.len(),
                    relocations.as_ptr(),
                    relocations.len(),
                    section.as_ptr(),
                    section.len(),
                    kept.as_mut_ptr(),
                    kept.len(),
                )
            };
            assert_eq!(status, 0);
        },
        |kept: &Vec<sathunne::UnrelaxableGroups>| kept.iter().filter(|it| it.got_load).count(),
    );
    let name = format!("`linker_utils_survey_placed_section`, {}", name_of(input.machine));
    report.line(&name, input.count(), true, [Some(exports), None, None, None]);
}

fn rewrites_of_placed(report: &mut Report, input: &Input) {
    let (is_executable, is_fixed, has_near_symbols) = EXECUTABLE;
    let output = sathunne::OutputFacts {
        is_executable,
        is_fixed,
        has_near_symbols,
    };
    let values = vec![Symbol { address: 0x60_0010, ..Symbol::default() }; SYMBOLS];
    let kept = vec![sathunne::UnrelaxableGroups::default(); SYMBOLS];
    let mut decisions = vec![sathunne::raw::Decision::default(); input.count()];
    let mut used = 0;
    let exports = anew(input, move |bytes| {
        let (section, relocations) = bytes.split_at_mut(LEN);
        // SAFETY: a slice's pointer and length are its own, and a reference is of one value.
        let status = unsafe {
            linker_utils_rewrite_placed_section_nonnull(
                input.machine,
                LAST_PHASE,
                &output,
                input.symbols.as_ptr(),
                input.symbols.len(),
                &PLACED,
                values.as_ptr(),
                values.len(),
                kept.as_ptr(),
                kept.len(),
                relocations.as_mut_ptr(),
                relocations.len(),
                section.as_mut_ptr(),
                section.len(),
                decisions.as_mut_ptr(),
                decisions.len(),
                std::ptr::NonNull::dangling().as_ptr(),
                0,
                &mut used,
                &mut 0,
            )
        };
        assert_eq!(status, 0);
    });
    let name = format!("`linker_utils_rewrite_placed_section`, {}", name_of(input.machine));
    report.line(&name, input.count(), true, [Some(exports), None, None, None]);
}

/// Loads of addresses from `.toc`: addis 3,2 and ld 3,0(3).
const ADDRESS_LOADS: Sequence = (&[0, 0, 0x62, 0x3c, 0, 0, 0x63, 0xe8], &[(0, 50), (4, 64)]);

/// Where the section of addresses is, by symbol 1, and a word in it for each other symbol.
const WORDS_START: u64 = PLACED.got_base - 0x8000;

/// A section of loads: each pair loads a word at random.
struct Loads {
    bytes: Vec<u8>,
    words: Vec<u8>,
    values: Vec<Symbol>,
    symbols: Vec<sathunne::SymbolFacts>,
}

impl Loads {
    fn of(random: &mut Random) -> Loads {
        let (code, listed) = ADDRESS_LOADS;
        let mut bytes: Vec<u8> = code.repeat(LEN / code.len());
        for at in (0..LEN).step_by(code.len()) {
            let word = 8 * random.below(SYMBOLS as u128) as i64;
            for (offset, r_type) in listed {
                bytes.extend((at as u64 + offset).to_le_bytes());
                bytes.extend((u64::from(*r_type) | 1 << 32).to_le_bytes());
                bytes.extend(word.to_le_bytes());
            }
        }
        let word = |symbol: u64| [8 * symbol, 38 | symbol << 32, 0].map(u64::to_le_bytes).concat();
        let mut values = vec![Symbol { address: 0x60_0010, ..Symbol::default() }; SYMBOLS];
        values[1].address = WORDS_START;
        let defined = sathunne::SymbolFacts { is_local: true, ..Default::default() };
        Loads {
            bytes,
            words: (0..SYMBOLS as u64).flat_map(word).collect(),
            values,
            symbols: vec![defined; SYMBOLS],
        }
    }

    fn count(&self) -> usize {
        (self.bytes.len() - LEN) / 24
    }
}

/// Calls an export over the loads, which returns 0: its last arguments are those after the words.
macro_rules! call_over {
    ($loads:ident, $output:ident, $export:ident, $($argument:expr),+) => {{
        // SAFETY: a slice's pointer and length are its own, and a reference is of one value.
        let status = unsafe {
            $export(
                PPC64,
                &$output,
                $loads.symbols.as_ptr(),
                $loads.symbols.len(),
                &PLACED,
                $loads.values.as_ptr(),
                $loads.values.len(),
                WORDS_START,
                $loads.words.as_ptr(),
                $loads.words.len(),
                $($argument),+
            )
        };
        assert_eq!(status, 0);
    }};
}

fn address_loads(report: &mut Report, loads: &Loads) {
    let (is_executable, is_fixed, has_near_symbols) = EXECUTABLE;
    let output = sathunne::OutputFacts { is_executable, is_fixed, has_near_symbols };
    let (section, relocations) = loads.bytes.split_at(LEN);
    let exports = Side::over(
        vec![false; SYMBOLS],
        |kept: &mut Vec<bool>| kept.fill(false),
        move |kept: &mut Vec<bool>| {
            call_over!(
                loads,
                output,
                linker_utils_survey_toc_loads_nonnull,
                relocations.as_ptr(),
                relocations.len(),
                section.as_ptr(),
                section.len(),
                kept.as_mut_ptr(),
                kept.len()
            );
        },
        |kept: &Vec<bool>| kept.iter().filter(|it| **it).count(),
    );
    let name = "`linker_utils_survey_toc_loads`";
    report.line(name, loads.count(), true, [Some(exports), None, None, None]);
    let mut decisions = vec![sathunne::raw::Decision::default(); loads.count()];
    let exports = Side::over(
        loads.bytes.clone(),
        |bytes: &mut Vec<u8>| bytes.copy_from_slice(&loads.bytes),
        move |bytes: &mut Vec<u8>| {
            let (section, relocations) = bytes.split_at_mut(LEN);
            let kept = [false; SYMBOLS];
            call_over!(
                loads,
                output,
                linker_utils_rewrite_toc_loads_nonnull,
                kept.as_ptr(),
                kept.len(),
                relocations.as_mut_ptr(),
                relocations.len(),
                section.as_mut_ptr(),
                section.len(),
                decisions.as_mut_ptr(),
                decisions.len(),
                &mut 0
            );
        },
        Vec::clone,
    );
    let name = "`linker_utils_rewrite_toc_loads`";
    report.line(name, loads.count(), true, [Some(exports), None, None, None]);
}

/// An address by its distance from the global pointer: lui a0 and lw a0, 0(a0), both marked.
const NEAR_OF_RISCV: [Sequence; 1] = [(
    &[0x37, 0x05, 0, 0, 0x03, 0x25, 0x05, 0],
    &[(0, 26), (0, 51), (4, 27), (4, 51)],
)];

fn near_addresses(report: &mut Report, input: &Input) {
    let (is_executable, is_fixed, has_near_symbols) = EXECUTABLE;
    let output = sathunne::OutputFacts { is_executable, is_fixed, has_near_symbols };
    let values = vec![Symbol { address: 0x60_0010, ..Symbol::default() }; SYMBOLS];
    let (section, relocations) = input.bytes.split_at(LEN);
    let survey = |kept: &mut [bool]| {
        // SAFETY: a slice's pointer and length are its own, and a reference is of one value.
        let status = unsafe {
            linker_utils_survey_global_pointer_nonnull(
                input.machine,
                &output,
                input.symbols.as_ptr(),
                input.symbols.len(),
                &PLACED,
                values.as_ptr(),
                values.len(),
                PLACED.got_base,
                relocations.as_ptr(),
                relocations.len(),
                section.as_ptr(),
                section.len(),
                kept.as_mut_ptr(),
                kept.len(),
            )
        };
        assert_eq!(status, 0);
    };
    let mut surveyed = [false; SYMBOLS];
    survey(&mut surveyed);
    let exports = Side::over(
        vec![false; SYMBOLS],
        |kept: &mut Vec<bool>| kept.fill(false),
        |kept: &mut Vec<bool>| survey(kept),
        |kept: &Vec<bool>| kept.iter().filter(|it| **it).count(),
    );
    let name = "`linker_utils_survey_global_pointer`";
    report.line(name, input.count(), true, [Some(exports), None, None, None]);
    let mut decisions = vec![sathunne::raw::Decision::default(); input.count()];
    let mut deleted = vec![sathunne::Deletion::default(); input.count()];
    let rewrite = |bytes: &mut [u8]| {
        let (section, relocations) = bytes.split_at_mut(LEN);
        let mut used = 0;
        // SAFETY: a slice's pointer and length are its own, and a reference is of one value.
        let status = unsafe {
            linker_utils_rewrite_global_pointer_nonnull(
                input.machine,
                &output,
                input.symbols.as_ptr(),
                input.symbols.len(),
                &PLACED,
                values.as_ptr(),
                values.len(),
                PLACED.got_base,
                surveyed.as_ptr(),
                surveyed.len(),
                relocations.as_mut_ptr(),
                relocations.len(),
                section.as_ptr(),
                section.len(),
                decisions.as_mut_ptr(),
                decisions.len(),
                deleted.as_mut_ptr(),
                deleted.len(),
                &mut used,
                &mut 0,
            )
        };
        assert_eq!(status, 0);
    };
    let name = "`linker_utils_rewrite_global_pointer`";
    report.line(name, input.count(), true, [Some(anew(input, rewrite)), None, None, None]);
    let base = |bytes: &mut [u8]| {
        let (section, relocations) = bytes.split_at_mut(LEN);
        for relocation in relocations.chunks_exact_mut(24).skip(2).step_by(4) {
            relocation[8] = 47;
        }
        // SAFETY: a slice's pointer and length are its own, and a reference is of one value.
        let status = unsafe {
            linker_utils_finish_gp_relaxation_nonnull(
                &PLACED,
                values.as_ptr(),
                values.len(),
                PLACED.got_base,
                relocations.as_mut_ptr(),
                relocations.len(),
                section.as_mut_ptr(),
                section.len(),
                &mut 0,
            )
        };
        assert_eq!(status, 0);
    };
    let name = "`linker_utils_finish_gp_relaxation`";
    report.line(name, input.count(), true, [Some(anew(input, base)), None, None, None]);
}

/// Stubs that go to words in reach.
fn stubs(report: &mut Report, machine: u16) {
    const COUNT: u64 = 1000;
    let mut code = [0; 48];
    let exports = Side::number(move || {
        (0..COUNT).fold(0, |sum, at| {
            let (place, target) = (0x1000_0000 + 64 * at, 0x1080_0000 + 8 * at);
            // SAFETY: a slice's pointer and length are its own.
            let status = unsafe {
                linker_utils_write_stub_nonnull(machine, 0, place, target, code.as_mut_ptr(), 48)
            };
            assert_eq!(status, 0);
            added(sum, u64::from(code[2]))
        })
    });
    let architecture = Architecture::from_machine(machine).expect("an architecture");
    let mut code = [0; 48];
    let erased = Side::number(move || {
        (0..COUNT).fold(0, |sum, at| {
            let (place, target) = (0x1000_0000 + 64 * at, 0x1080_0000 + 8 * at);
            let description = output::Target::of(architecture);
            let kind = output::StubKind::Load;
            description.write_stub(kind, place, target, &mut code).expect("it reaches");
            added(sum, u64::from(code[2]))
        })
    });
    let name = format!("`linker_utils_write_stub`, {}", name_of(machine));
    report.line(&name, COUNT as usize, true, [Some(exports), None, Some(erased), None]);
}

/// Entries of a lazy PLT.
fn lazy_entries(report: &mut Report, machine: u16) {
    const COUNT: u64 = 1000;
    let place = |at| (0x1000_0020 + 16 * at, 0x1080_0000 + 8 * at, 0x1000_0000);
    let mut code = [0; 16];
    let exports = Side::number(move || {
        (0..COUNT).fold(0, |sum, index| {
            let (address, word, header) = place(index);
            let entry = sathunne::LazyEntry { address, word, header, index };
            // SAFETY: a slice's pointer and length are its own.
            let status = unsafe {
                linker_utils_write_lazy_entry_nonnull(machine, 0, &entry, code.as_mut_ptr(), 16)
            };
            assert_eq!(status, 0);
            added(sum, u64::from(code[2]))
        })
    });
    let architecture = Architecture::from_machine(machine).expect("an architecture");
    let mut code = [0; 16];
    let erased = Side::number(move || {
        (0..COUNT).fold(0, |sum, index| {
            let (address, word, header) = place(index);
            let entry = output::LazyEntry { address, word, header, index };
            output::LazyPlt::of(architecture).write_entry(&entry, &mut code).expect("it reaches");
            added(sum, u64::from(code[2]))
        })
    });
    let name = format!("`linker_utils_write_lazy_entry`, {}", name_of(machine));
    report.line(&name, COUNT as usize, true, [Some(exports), None, Some(erased), None]);
}

/// 1,000 calls, of which each second one doesn't reach. Calls of x86-64 reach 2 GiB.
struct Calls {
    machine: u16,
    relocations: Vec<u8>,
    section: Vec<u8>,
}

impl Calls {
    const SECTION: u64 = 0x1000_0000;
    const TARGETS: [u64; 2] = [0x1000_8000, 0x2000_0000];

    fn of(machine: u16, (bytes, relocations): Sequence) -> Calls {
        let (at, r_type) = relocations[0];
        let relocation = |index: u64| {
            let symbol = index % 2;
            let offset = index * bytes.len() as u64 + at;
            [offset, symbol << 32 | u64::from(r_type), 0].map(u64::to_le_bytes).concat()
        };
        Calls {
            machine,
            relocations: (0..1000).flat_map(relocation).collect(),
            section: bytes.repeat(1000),
        }
    }
}

/// How calls go.
fn routes(report: &mut Report, calls: &Calls) {
    let addresses = sathunne::Addresses { section: Calls::SECTION, ..Default::default() };
    let symbols = Calls::TARGETS.map(|address| sathunne::Symbol { address, ..Default::default() });
    let exports = Side::number(move || {
        (0..1000).fold(0, |sum, index| {
            let mut route = Route::default();
            // SAFETY: a slice's pointer and length are its own, and a reference is of one value.
            let status = unsafe {
                linker_utils_route_at_nonnull(
                    calls.machine,
                    &addresses,
                    calls.relocations.as_ptr(),
                    calls.relocations.len(),
                    symbols.as_ptr(),
                    symbols.len(),
                    index,
                    calls.section.as_ptr(),
                    calls.section.len(),
                    &mut route,
                )
            };
            assert_eq!(status, 0);
            added(sum, route.target)
        })
    });
    let architecture = Architecture::from_machine(calls.machine).expect("an architecture");
    let addresses = section::Link::new(architecture).addresses(Calls::SECTION);
    let symbols = Calls::TARGETS.map(|address| section::Symbol { address, ..Default::default() });
    let erased = Side::number(move || {
        let description = output::Target::of(architecture);
        (0..1000).fold(0, |sum, index| {
            let relocation = section::relocation_at(&calls.relocations, index).expect("one");
            let symbol = &symbols[relocation.symbol as usize];
            let route = description.route(&addresses, symbol, &relocation, &calls.section);
            let target = match route.expect("it goes") {
                output::Route::Direct => 0,
                output::Route::Stub { target, .. } => target,
            };
            added(sum, target)
        })
    });
    let name = format!("`linker_utils_route_at`, {}", name_of(calls.machine));
    report.line(&name, 1000, true, [Some(exports), None, Some(erased), None]);
}

/// How calls go by the address in a word.
fn routes_by_word(report: &mut Report, calls: &Calls) {
    let exports = Side::number(move || {
        (0..1000).fold(0, |sum, index| {
            let mut route = Route::default();
            // SAFETY: a slice's pointer and length are its own, and a reference is of one value.
            let status = unsafe {
                linker_utils_route_by_word_nonnull(
                    calls.machine,
                    Calls::TARGETS[0],
                    calls.relocations.as_ptr(),
                    calls.relocations.len(),
                    index,
                    calls.section.as_ptr(),
                    calls.section.len(),
                    &mut route,
                )
            };
            assert_eq!(status, 0);
            added(sum, route.target)
        })
    });
    let architecture = Architecture::from_machine(calls.machine).expect("an architecture");
    let erased = Side::number(move || {
        let description = output::Target::of(architecture);
        (0..1000).fold(0, |sum, index| {
            let relocation = section::relocation_at(&calls.relocations, index).expect("one");
            let route = description.route_by_word(Calls::TARGETS[0], &relocation, &calls.section);
            match route.expect("it goes") {
                output::Route::Direct => sum,
                output::Route::Stub { target, .. } => added(sum, target),
            }
        })
    });
    let name = format!("`linker_utils_route_by_word`, {}", name_of(calls.machine));
    report.line(&name, 1000, true, [Some(exports), None, Some(erased), None]);
}

/// Stubs for 100,000 calls over 1 GiB of AArch64's code.
fn places_of_stubs(report: &mut Report) {
    const COUNT: u64 = 100_000;
    const LEN: u64 = 1 << 30;
    let reach = 128 << 20;
    let shape = sathunne::StubShape { len: 12, unit: 16, max_backward: 1 << 32, max_forward: 1 << 32 };
    let random = &mut Random::new(29);
    let targets: Vec<u64> = (0..256).map(|_| 4 * random.below(u128::from(LEN / 4))).collect();
    let mut branch = |index| sathunne::Branch {
        offset: index * (LEN / COUNT / 4 * 4),
        target: random.below(256) as usize,
        max_backward: reach,
        max_forward: reach,
    };
    let branches: Vec<_> = (0..COUNT).map(&mut branch).collect();
    let boundaries: Vec<u64> = (0..=LEN >> 16).map(|index| index << 16).collect();
    let calls = (branches.clone(), targets.clone(), boundaries.clone());
    let mut stubs = vec![sathunne::PlacedStub::default(); 2 * branches.len()];
    let (mut used, mut faulty) = (0, 0);
    let mut ways = vec![0; branches.len()];
    let mut before = vec![0; boundaries.len() + 1];
    let exports = Side::number(move || {
        // SAFETY: a slice's pointer and length are its own, and a reference is of one value.
        let status = unsafe {
            linker_utils_place_stubs_nonnull(
                branches.as_ptr(),
                branches.len(),
                targets.as_ptr(),
                targets.len(),
                boundaries.as_ptr(),
                boundaries.len(),
                &shape,
                stubs.as_mut_ptr(),
                stubs.len(),
                &mut used,
                ways.as_mut_ptr(),
                ways.len(),
                before.as_mut_ptr(),
                before.len(),
                &mut faulty,
            )
        };
        assert_eq!(status, 0);
        added(used as u64, before[before.len() - 1])
    });
    let (branches, targets, boundaries) = calls;
    let branch = |branch: &sathunne::Branch| placement::Branch {
        offset: branch.offset,
        target: branch.target,
        max_backward: branch.max_backward,
        max_forward: branch.max_forward,
    };
    let branches: Vec<_> = branches.iter().map(branch).collect();
    let erased = Side::number(move || {
        let shape = placement::StubShape { len: 12, unit: 16, max_backward: 1 << 32, max_forward: 1 << 32 };
        let (branches, targets, boundaries) = (&branches[..], &targets[..], &boundaries[..]);
        let code = placement::Code { branches, targets, boundaries, shape };
        let placed = placement::place_stubs(&code).expect("each is placed");
        let before = placed.layout.before.last().expect("one more");
        added(placed.layout.stubs.len() as u64, *before)
    });
    let name = "`linker_utils_place_stubs`, 100,000 branches";
    report.line(name, COUNT as usize, true, [Some(exports), None, Some(erased), None]);
}

pub fn rewriting(report: &mut Report) {
    let random = &mut Random::new(23);
    let inputs = [
        input(random, X86_64, &OF_X86_64),
        input(random, AARCH64, &OF_AARCH64),
        input(random, PPC64, &OF_PPC64),
    ];
    report.heading("Sections of 4 MiB surveyed and rewritten, a relocation", Beside::Nothing);
    for input in &inputs {
        surveys(report, input);
        rewrites(report, input);
        decisions(report, input);
    }
    let placed = [
        input(random, X86_64, &OF_X86_64),
        input(random, AARCH64, &PLACED_OF_AARCH64),
        input(random, PPC64, &PLACED_OF_PPC64),
    ];
    report.heading("The same in the last phase", Beside::Nothing);
    for input in &placed {
        surveys_of_placed(report, input);
        rewrites_of_placed(report, input);
    }
    let loads = Loads::of(random);
    report.heading("Loads of addresses from PowerPC64's `.toc`, a relocation", Beside::Nothing);
    address_loads(report, &loads);
    report.heading("Addresses near RISC-V's global pointer, a relocation", Beside::Nothing);
    near_addresses(report, &input(random, RISCV, &NEAR_OF_RISCV));
    report.heading("Stubs", Beside::Nothing);
    for input in &inputs {
        stubs(report, input.machine);
        lazy_entries(report, input.machine);
    }
    report.heading("Routes of branches", Beside::Nothing);
    for (machine, call) in [(X86_64, OF_X86_64[3]), (AARCH64, OF_AARCH64[1]), (PPC64, OF_PPC64[0])] {
        let calls = Calls::of(machine, call);
        routes(report, &calls);
        routes_by_word(report, &calls);
    }
    report.heading("Places of stubs, a branch", Beside::Nothing);
    places_of_stubs(report);
}
