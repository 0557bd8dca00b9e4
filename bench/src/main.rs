// SPDX-License-Identifier: MIT OR Apache-2.0
//! Measures the exports of a library and the crate in `rust/`, and compares each with the original
//! crate where it is built in. Before a line is timed all sides do the same, and have to give the
//! same.

#[cfg(feature = "upstream")]
mod behind;
mod choices;
mod direct;
mod exports;
mod further;
mod growth;
mod inputs;
mod library;
mod measure;
mod relaxing;
mod rewriting;
mod sections;
mod table;
mod threads;

use inputs::{Random, deletions, is_inside};
use library::*;
use measure::{Beside, OURS, Report, Side, Sides};
use sathunne::{Architecture, LoongArch64Form, Ppc64Form, RelocationSize};
use std::process::Command;
use table::*;

/// Calls of a round.
const CALLS: usize = 2048;

/// So many processes time each of `OURS`, as stack and heap lie elsewhere in each. The options
/// `--exports-by=`, `--proved-by=` and `--erased-by=` name the program of each process.
const PROCESSES: usize = 4;
/// The option of those programs for which of `OURS` they time. They print their rounds.
const ROUNDS_OF: &str = "--rounds-of=";

/// The four sides, of which the original crate's may be missing.
const LIBRARIES: [Option<&'static dyn Library>; 4] = [
    Some(&exports::EXPORTS),
    #[cfg(feature = "upstream")]
    Some(&behind::BEHIND),
    #[cfg(not(feature = "upstream"))]
    None,
    Some(&direct::erased::Direct),
    #[cfg(feature = "upstream")]
    Some(&direct::original::Direct),
    #[cfg(not(feature = "upstream"))]
    None,
];

fn each<'a>(side: impl Fn(&'static dyn Library) -> Option<Side<'a>>) -> Sides<'a> {
    LIBRARIES.map(|library| library.and_then(&side))
}

fn main() {
    let args: Vec<String> = std::env::args().skip(1).collect();
    let is_quick = args.iter().any(|arg| arg == "--quick");
    let checks = args.iter().any(|arg| arg == "--check");
    let wants = |part: &str| {
        let mut parts = args.iter().filter(|arg| !arg.starts_with("--")).peekable();
        parts.peek().is_none() || parts.any(|arg| arg == part)
    };
    let parts: [(&str, fn(&mut Report)); 20] = [
        ("forms", forms),
        ("rewrites", rewrites),
        ("choices", choices::choices),
        ("choosing", choices::choosing),
        ("rows", rows),
        ("stream", streams),
        ("numbers", numbers),
        ("deltas", translations),
        ("cursor", cursors),
        ("merges", lists),
        ("calls", calls),
        ("relaxing", relaxing::relaxing),
        ("packing", packing),
        ("sections", sections::sections),
        ("rewriting", rewriting::rewriting),
        ("more", more),
        ("compat", compat),
        ("further", further::further),
        ("growth", growth::growth),
        ("threads", threads::threads),
    ];
    let given = |option: &str| args.iter().find_map(|arg| arg.strip_prefix(option));
    let programs_of = OURS.map(|ours| format!("--{}-by=", ours.short));
    let mut with_value = vec!["--picture=", ROUNDS_OF];
    with_value.extend(programs_of.iter().map(String::as_str));
    let is_known = |arg: &String| {
        ["--quick", "--check"].contains(&arg.as_str())
            || with_value.iter().any(|option| arg.starts_with(option))
            || parts.iter().any(|part| part.0 == arg)
    };
    assert!(args.iter().all(is_known), "an unknown part or option");
    assert!(!(is_quick && checks), "--check takes the whole rounds");
    assert!(
        !checks || cfg!(feature = "upstream"),
        "--check compares with the original: LINKER_UTILS_UPSTREAM names its folder"
    );
    let mut report = if is_quick {
        Report::new(0.03, 9)
    } else {
        Report::new(0.1 / PROCESSES as f64, 31usize.div_ceil(PROCESSES))
    };
    if let Some(short) = given(ROUNDS_OF) {
        let which = OURS.iter().position(|ours| ours.short == short);
        report.print_rounds(which.expect("one of them"));
    }
    for (which, option) in programs_of.iter().enumerate() {
        let programs = args.iter().filter_map(|arg| arg.strip_prefix(&**option));
        let count = programs.clone().count();
        assert!(count == 0 || count == PROCESSES, "so many processes");
        for path in programs {
            let mut program = Command::new(path);
            program.args(args.iter().filter(|arg| !arg.starts_with("--")));
            let short = OURS[which].short;
            report.add_program(which, program.arg(format!("{ROUNDS_OF}{short}")));
        }
    }
    for (name, part) in parts {
        if wants(name) {
            part(&mut report);
        }
    }
    let failures = report.summary();
    report.progress("the end");
    if let Some(path) = given("--picture=") {
        std::fs::write(path, report.picture()).expect("the picture is written");
    }
    if checks {
        eprintln!("{failures} lines fail");
        std::process::exit(i32::from(failures > 0));
    }
}

// ---- forms

fn value_of(random: &mut Random, form: &Form) -> Value {
    let (machine, number) = (form.machine, form.number);
    let (value, negative) = (random.below(form.values), random.word() % 2 == 1);
    Value {
        machine,
        form: number,
        value,
        negative,
    }
}

fn forms(report: &mut Report) {
    let random = &mut Random::new(1);
    let names = |form: &Form| format!("{} {}", name_of(form.machine), form.name);
    let mixed = |random: &mut Random, machine: u16| -> Vec<Value> {
        let has_both = |form: &&Form| form.machine == machine && form.reads != Reads::Missing;
        let forms: Vec<&Form> = FORMS.iter().filter(has_both).collect();
        let one = |_| {
            let form = *random.one_of(&forms);
            value_of(random, form)
        };
        (0..CALLS).map(one).collect()
    };
    report.heading("Writes of a value", Beside::Original);
    let mut line = |random: &mut Random, name: &str, mix: Mix, values: &[Value]| {
        let words = random.bytes(WINDOW * CALLS);
        let side = |library: &'static dyn Library| {
            Some(Side::writes(words.clone(), move |words| {
                library.write(mix, values, words)
            }))
        };
        report.line(name, CALLS, true, each(side));
    };
    for (at, form) in FORMS.iter().enumerate() {
        let values: Vec<Value> = (0..CALLS).map(|_| value_of(random, form)).collect();
        line(random, &names(form), Mix::One(at), &values);
    }
    for machine in &MACHINES[..4] {
        let values = mixed(random, *machine);
        let name = format!("{} forms at random", name_of(*machine));
        line(random, &name, Mix::All(*machine), &values);
    }

    report.heading("Reads of a value", Beside::Original);
    let mut line = |random: &mut Random, name: &str, mix: Mix, values: &[Value], reads: Reads| {
        let words = &random.bytes(WINDOW * CALLS);
        let side = |library: &'static dyn Library| {
            Some(Side::number(move || library.read(mix, values, words)))
        };
        let mut sides = each(side);
        if reads == Reads::Missing {
            (sides[1], sides[3]) = (None, None);
        }
        report.line(name, CALLS, reads != Reads::Other, sides);
    };
    for (at, form) in FORMS.iter().enumerate() {
        let differ = if form.reads == Reads::Other {
            " (results differ)"
        } else {
            ""
        };
        let (name, values) = (names(form) + differ, vec![value_of(random, form); CALLS]);
        line(random, &name, Mix::One(at), &values, form.reads);
    }
    for machine in &MACHINES[..4] {
        let values = mixed(random, *machine);
        let has_other = FORMS
            .iter()
            .any(|form| form.machine == *machine && form.reads == Reads::Other);
        let reads = if has_other { Reads::Other } else { Reads::Same };
        let name = format!("{} forms at random", name_of(*machine));
        line(random, &name, Mix::All(*machine), &values, reads);
    }
}

// ---- rewrites

fn section_of(random: &mut Random, rewrite: &Rewrite) -> Vec<u8> {
    let mut section = random.bytes(SECTION);
    let word = match (rewrite.machine, rewrite.number) {
        // the registers of `MovkXn` are the same, and `LdrToAdd` wants a load of 64 bits
        (AARCH64, 5) => {
            let register = random.below(32) as u32;
            random.word() as u32 & !0x3ff | register << 5 | register
        }
        (AARCH64, 11) => random.word() as u32 & 0x003f_ffff | 0xf940_0000,
        _ => return section,
    };
    section[8..12].copy_from_slice(&word.to_le_bytes());
    section
}

fn rewrites(report: &mut Report) {
    const COUNT: usize = 512;
    let random = &mut Random::new(4);
    report.heading("Rewrites", Beside::Original);
    let mut line = |random: &mut Random, name: &str, mix: Mix, list: &[Rewrite]| {
        let fresh: Vec<u8> = list
            .iter()
            .flat_map(|rewrite| section_of(random, rewrite))
            .collect();
        let fresh = &fresh;
        let side = |library: &'static dyn Library| {
            Some(Side::over(
                (fresh.clone(), 0),
                move |state| state.0.copy_from_slice(fresh),
                move |state| state.1 = library.apply(mix, list, &mut state.0),
                |state| state.clone(),
            ))
        };
        report.line(
            name,
            list.len(),
            list.iter().all(Rewrite::is_same),
            each(side),
        );
    };
    for (at, rewrite) in REWRITES.iter().enumerate() {
        let differ = if rewrite.is_same() {
            ""
        } else {
            " (bytes differ)"
        };
        let name = format!("{} {}{differ}", name_of(rewrite.machine), rewrite.name);
        line(random, &name, Mix::One(at), &[*rewrite; COUNT]);
    }
    for machine in [AARCH64, RISCV, X86_64] {
        let is_its = |rewrite: &&Rewrite| rewrite.machine == machine;
        let kinds: Vec<Rewrite> = REWRITES.iter().filter(is_its).copied().collect();
        let list: Vec<Rewrite> = (0..COUNT).map(|_| *random.one_of(&kinds)).collect();
        line(
            random,
            &format!("{} rewrites at random", name_of(machine)),
            Mix::All(machine),
            &list,
        );
    }
    let all: Vec<Rewrite> = (0..CALLS).map(|_| *random.one_of(REWRITES)).collect();
    let side = |library: &'static dyn Library| {
        library.modifiers(&all)?;
        Some(Side::number(|| library.modifiers(&all).expect("modifiers")))
    };
    report.line("next modifier, rewrites at random", CALLS, true, each(side));
}

// ---- relocations

/// Whether the rows of a type are the same, where both sides have them.
fn has_same_rows(machine: u16, r_type: u32) -> bool {
    let mut rows = LIBRARIES
        .iter()
        .flatten()
        .filter_map(|library| library.row(machine, r_type));
    rows.next().is_none_or(|first| rows.all(|row| row == first))
}

fn architecture(machine: u16) -> Architecture {
    Architecture::from_machine(machine).expect("one of five")
}

fn rows(report: &mut Report) {
    let random = &mut Random::new(6);
    report.heading(
        "Rows of relocations, by ELF types at random",
        Beside::Original,
    );
    let mut line = |name: &str, machine: u16, types: &[u32]| {
        let side = |library: &'static dyn Library| {
            Some(Side::number(move || library.rows(machine, types)))
        };
        report.line(name, types.len(), true, each(side));
    };
    for machine in MACHINES {
        let is_other = |r_type: u32| machine == LOONGARCH64 && OTHER_TYPES.contains(&r_type);
        let has_row = |library: &&dyn Library, r_type| library.row(machine, r_type).is_some();
        let count = |r_type| {
            LIBRARIES
                .iter()
                .flatten()
                .filter(|it| has_row(it, r_type))
                .count()
        };
        let types = 0..1 << 11;
        let all = types.clone().map(count).max();
        let known: Vec<u32> = types
            .filter(|&r_type| Some(count(r_type)) == all && !is_other(r_type))
            .collect();
        for r_type in &known {
            let differs = machine == AARCH64 && OTHER_ROWS.contains(r_type);
            let is_same = !differs || cfg!(not(feature = "upstream"));
            assert_eq!(
                has_same_rows(machine, *r_type),
                is_same,
                "{r_type} of {}",
                name_of(machine)
            );
        }
        let types: Vec<u32> = (0..CALLS).map(|_| *random.one_of(&known)).collect();
        line(name_of(machine), machine, &types);
    }
    // `R_AARCH64_TSTBR14` and `R_X86_64_16`
    line("AArch64, one type", AARCH64, &[279; CALLS]);
    line("x86-64, one type", X86_64, &[12; CALLS]);
}

/// Relocations of 4 MiB of an architecture, in a mix of types, and the section, whose fields are as
/// assemblers leave them. Whether both sides have the same rows for them.
fn stream(
    random: &mut Random,
    (machine, prefix, mix): (u16, &str, &[(&str, usize)]),
) -> (Vec<Fixup>, Vec<u8>, bool) {
    const COUNT: usize = 100_000;
    let named = |name: &str| {
        let name = Ok(format!("{prefix}{name}"));
        let is_it =
            |r_type: &u32| sathunne::relocation_name(architecture(machine), *r_type) == name;
        (0..1 << 11).find(is_it).expect("a relocation's name")
    };
    let parts: Vec<u32> = mix
        .iter()
        .flat_map(|(name, n)| vec![named(name); *n])
        .collect();
    let one = |random: &mut Random, at: usize| {
        let r_type = *random.one_of(&parts);
        let info = sathunne::relocation(architecture(machine), r_type).expect("a row");
        let whole = if info.size == RelocationSize::Bytes(8) {
            i64::MAX
        } else {
            1 << 30
        };
        let range = info.range.unwrap_or(-whole..whole);
        let (min, max) = (range.start.max(-whole), range.end.min(whole));
        let steps = (max as i128 - min as i128) as u128 / u128::from(info.alignment);
        let value = min + (random.below(steps) * info.alignment) as i64;
        // at most 40 bytes from one to the next
        Fixup {
            offset: 40 * at + 4 * random.below(9) as usize,
            r_type,
            value,
        }
    };
    let relocations: Vec<Fixup> = (0..COUNT).map(|at| one(random, at)).collect();
    let is_same = parts.iter().all(|r_type| has_same_rows(machine, *r_type));
    let mut section = random.bytes(4 << 20);
    for relocation in &relocations {
        clear_field(machine, relocation, &mut section);
    }
    (relocations, section, is_same)
}

fn streams(report: &mut Report) {
    let random = &mut Random::new(12);
    report.heading(
        "Relocations of 4 MiB, one after the other",
        Beside::Original,
    );
    for mix in MIXES {
        let machine = mix.0;
        let (relocations, section, is_same) = stream(random, mix);
        let count = relocations.len();
        let name = name_of(machine).to_string() + if is_same { "" } else { " (rows differ)" };
        let (relocations, section) = (&relocations, &section);
        let one_by_one = |library: &'static dyn Library| {
            Some(Side::writes(section.clone(), move |section| {
                assert!(library.relocate(machine, relocations, section));
            }))
        };
        report.line(&name, count, is_same, each(one_by_one));
        // the same in one call, compared with the original's calls one by one
        let [exports, _, erased, _] = each(|library| {
            let all = library.relocate_all(machine, relocations)?;
            Some(Side::writes(section.clone(), move |section| {
                assert!(all(section))
            }))
        });
        if exports.is_some() || erased.is_some() {
            let [_, behind, _, original] = each(one_by_one);
            let sides = [exports, behind, erased, original];
            report.line(&format!("{name}, as one call"), count, is_same, sides);
        }
        // one by one, by `linker_utils_relocate` and `Row::write`
        let [exports, _, erased, _] = each(|library| {
            library.relocate_each(machine, &[], &mut [])?;
            Some(Side::writes(section.clone(), move |section| {
                assert_eq!(
                    library.relocate_each(machine, relocations, section),
                    Some(true)
                );
            }))
        });
        let [_, behind, _, original] = each(one_by_one);
        let sides = [exports, behind, erased, original];
        report.line(&format!("{name}, by one call each"), count, is_same, sides);
    }
}

/// Clears the field of a relocation's form, as assemblers leave it: some forms only OR their bits.
fn clear_field(machine: u16, fixup: &Fixup, section: &mut [u8]) {
    let info = sathunne::relocation(architecture(machine), fixup.r_type).expect("a row");
    if let RelocationSize::Bits { form, .. } = info.size {
        let mut ones = [0; WINDOW];
        let all = (0..64).map(|shift| u64::MAX >> shift);
        all.map(|value| sathunne::write(form, value, false, &mut ones))
            .find(Result::is_ok);
        for (byte, bits) in section[fixup.offset..].iter_mut().zip(ones) {
            *byte &= !bits;
        }
        match form {
            // `ld`: other words may be of DQ-form, which takes multiples of 16
            sathunne::Form::Ppc64(Ppc64Form::Ds) => {
                section[fixup.offset] = 0;
                section[fixup.offset + 3] = 58 << 2;
            }
            // a load: a `jirl` takes multiples of 4
            sathunne::Form::LoongArch64(LoongArch64Form::Shift10) => {
                section[fixup.offset + 3] = 0x28;
            }
            _ => (),
        }
    }
}

// ---- numbers

fn numbers(report: &mut Report) {
    let random = &mut Random::new(8);
    report.heading("ULEB128 and other numbers", Beside::Original);
    for (name, bits) in [
        ("below 128", 7),
        ("below 2^14", 14),
        ("of 1 to 64 bits", 64),
    ] {
        let mut bytes = Vec::new();
        for _ in 0..CALLS {
            let width = 1 + random.below(bits) as u32;
            let mut left = random.word() >> (64 - width);
            while left >= 0x80 {
                bytes.push(left as u8 | 0x80);
                left >>= 7;
            }
            bytes.push(left as u8);
        }
        let bytes = &bytes;
        let side = |library: &'static dyn Library| {
            Some(Side::number(move || library.uleb128(bytes, CALLS)))
        };
        report.line(&format!("ULEB128 {name}"), CALLS, true, each(side));
    }
    let values: Vec<u64> = (0..CALLS)
        .map(|_| random.word() >> random.below(64))
        .collect();
    let registers: Vec<u64> = (0..CALLS).map(|_| random.below(32)).collect();
    let tests: [(&str, Test, &[u64]); 3] = [
        ("hi20_is_zero", Test::HighIsZero, &values),
        ("rd_valid_for_clui", Test::RegisterFitsClui, &registers),
        ("distance_fits_jal", Test::DistanceFitsJal, &values),
    ];
    for (name, test, values) in tests {
        let side = |library: &'static dyn Library| {
            Some(Side::number(move || library.passing(test, values)))
        };
        report.line(&format!("RISC-V {name}"), CALLS, true, each(side));
    }
    let side = |library: &'static dyn Library| Some(Side::number(|| library.clui_rows(CALLS)));
    report.line("RISC-V clui_rel_info", CALLS, true, each(side));
    let side = |library: &'static dyn Library| {
        Some(Side::number(|| {
            library.highest_relocation_with_bias(&values)
        }))
    };
    report.line(
        "LoongArch highest_relocation_with_bias",
        CALLS,
        true,
        each(side),
    );

    let bytes = random.bytes(8 * CALLS);
    type Read = fn(&'static dyn Library, &[u8]) -> u64;
    let readers: [(&str, &[u8], Read); 3] = [
        ("u32_from_slice", &bytes[4 * CALLS..], |library, content| {
            library.words_of_slices(content)
        }),
        ("u64_from_slice", &bytes, |library, content| {
            library.longs_of_slices(content)
        }),
        ("read_u32", &bytes[4 * CALLS..], |library, content| {
            library.words(content)
        }),
    ];
    for (name, content, read) in readers {
        let side =
            |library: &'static dyn Library| Some(Side::number(move || read(library, content)));
        report.line(name, CALLS, true, each(side));
    }
    let mut texts = Vec::new();
    for _ in 0..CALLS {
        texts.extend((0..random.below(24)).map(|_| b'a' + random.below(26) as u8));
        texts.push(0);
    }
    let side = |library: &'static dyn Library| {
        library.strings(&texts)?;
        Some(Side::number(|| library.strings(&texts).expect("a reader")))
    };
    report.line("read_string", CALLS, true, each(side));
}

// ---- deletions

/// Random offsets that lie in no deletion.
fn outside(random: &mut Random, list: &[(u64, u32)], len: u64, count: usize) -> Vec<u64> {
    let mut queries = Vec::with_capacity(count);
    while queries.len() < count {
        let query = random.below(u128::from(len));
        if !is_inside(list, query) {
            queries.push(query);
        }
    }
    queries
}

type Translate = fn(&dyn Deltas, &[u64]) -> u64;

fn translated<'a>(
    deltas: &'a Option<Box<dyn Deltas>>,
    translate: Translate,
    queries: &'a [u64],
) -> Option<Side<'a>> {
    let deltas = deltas.as_deref()?;
    Some(Side::number(move || translate(deltas, queries)))
}

fn translations(report: &mut Report) {
    let random = &mut Random::new(9);
    report.heading("Translations of an offset", Beside::Original);
    for count in [10, 1_000, 100_000, 10_000_000] {
        let (list, len) = deletions(random, count);
        let deltas = LIBRARIES.map(|library| library.map(|library| library.deltas(&list)));
        let by_heads = deltas[0].as_ref().and_then(|deltas| deltas.by_heads());
        let queries = if count > 1_000_000 { 5_000 } else { 20_000 };
        let inputs = outside(random, &list, len, queries);
        let kept = len - list.iter().map(|(_, bytes)| u64::from(*bytes)).sum::<u64>();
        let outputs: Vec<u64> = (0..queries)
            .map(|_| random.below(u128::from(kept)))
            .collect();
        let directions: [(&str, Translate, Vec<u64>); 2] = [
            (
                "input to output",
                |deltas, queries| deltas.inputs(queries),
                inputs,
            ),
            (
                "output to input",
                |deltas, queries| deltas.outputs(queries),
                outputs,
            ),
        ];
        if count == 1_000 {
            let sides = deltas.each_ref().map(|deltas| {
                let deltas = deltas.as_deref()?;
                Some(Side::number(|| deltas.totals(CALLS)))
            });
            report.line("total deleted", CALLS, true, sides);
        }
        for (direction, translate, random_queries) in directions {
            let mut ascending = random_queries.clone();
            ascending.sort_unstable();
            for (order, queries) in [("random", &random_queries), ("ascending", &ascending)] {
                let name = format!("{direction}, {count} deletions, {order}");
                report.line(
                    &name,
                    queries.len(),
                    true,
                    deltas
                        .each_ref()
                        .map(|deltas| translated(deltas, translate, queries)),
                );
                let name = format!("{direction} by heads, {count} deletions, {order}");
                let [heads, behind] =
                    [&by_heads, &deltas[1]].map(|deltas| translated(deltas, translate, queries));
                let sides = [heads, behind, None, None];
                report.line(&name, queries.len(), true, sides);
            }
        }
    }
}

/// Sections of so many deletions with twice as many ascending queries. There are so many sections
/// that the branch predictor doesn't learn which offset comes next.
struct Queried {
    count: usize,
    sections: Vec<(Vec<(u64, u32)>, Vec<u64>)>,
}

impl Queried {
    fn new(random: &mut Random, count: usize) -> Queried {
        let sections = (0..100_000usize.div_ceil(count))
            .map(|_| {
                let (list, len) = deletions(random, count);
                let mut queries = outside(random, &list, len, 2 * count);
                queries.sort_unstable();
                (list, queries)
            })
            .collect();
        Queried { count, sections }
    }

    fn name(&self) -> String {
        let (count, sections) = (self.count, self.sections.len());
        let name = format!("{count} deletions, {} ascending queries", 2 * count);
        match sections {
            1 => name,
            _ => format!("{name}, of {sections} sections"),
        }
    }

    fn queries(&self) -> usize {
        2 * self.count * self.sections.len()
    }

    fn side<'a>(
        &'a self,
        library: &'static dyn Library,
        walk: fn(&dyn Deltas, &[u64], &mut [u64]),
    ) -> Option<Side<'a>> {
        let lists = self.sections.iter();
        let deltas: Vec<_> = lists.map(|(list, _)| library.deltas(list)).collect();
        Some(Side::writes(vec![0; self.queries()], move |outputs| {
            let outputs = outputs.chunks_mut(2 * self.count);
            for ((deltas, (_, queries)), outputs) in deltas.iter().zip(&self.sections).zip(outputs)
            {
                walk(&**deltas, queries, outputs);
            }
        }))
    }
}

fn cursors(report: &mut Report) {
    let random = &mut Random::new(10);
    report.heading("The cursor, a query", Beside::Original);
    for count in [10, 1_000, 100_000, 1_000_000] {
        let queried = Queried::new(random, count);
        let side =
            |library| queried.side(library, |deltas, queries, out| deltas.walk(queries, out));
        report.line(&queried.name(), queried.queries(), true, each(side));
    }
}

/// What does more than the original's counterpart, so that it isn't the same task.
fn more(report: &mut Report) {
    let random = &mut Random::new(16);
    report.heading(
        "Calls that do more than those of the original",
        Beside::Task("the original"),
    );
    let values: Vec<u64> = (0..CALLS)
        .map(|_| random.word() >> (33 + random.below(31)))
        .collect();
    let side = |library: &'static dyn Library| {
        Some(Side::number(|| {
            library.passing(Test::HighFitsClui, &values)
        }))
    };
    report.line(
        "RISC-V hi20_fits_clui, also below 0",
        CALLS,
        true,
        each(side),
    );
    for count in [10, 1_000, 100_000, 1_000_000] {
        let (list, _) = deletions(random, count);
        let [exports, behind, ..] = each(|library| Some(library.new_side(&list)));
        let name = format!("new of {count} by `linker_utils_deltas_create`");
        let calls = count * lists_a_round(count);
        report.line(&name, calls, true, [exports, behind, None, None]);
    }
    for count in [10, 1_000, 100_000] {
        let queried = Queried::new(random, count);
        let side = |library| {
            queried.side(library, |deltas, queries, out| {
                assert!(deltas.walk_each(queries, out), "one call for each query");
            })
        };
        let [_, _, erased, original] = LIBRARIES;
        let sides = [None, None, erased.and_then(side), original.and_then(side)];
        let name = format!(
            "a query a call of the cursor, also inside deletions: {}",
            queried.name()
        );
        report.line(&name, queried.queries(), true, sides);
    }
}

/// Deletions of which so many, at random ones, are to be merged into the others.
fn halves(random: &mut Random, old: usize, more: usize) -> Halves {
    let (list, _) = deletions(random, old + more);
    let mut is_more = vec![false; old + more];
    is_more[..more].fill(true);
    random.shuffle(&mut is_more);
    [false, true].map(|wanted| {
        let both = list.iter().zip(&is_more);
        both.filter(|(_, is_more)| **is_more == wanted)
            .map(|(pair, _)| *pair)
            .collect()
    })
}

fn lists(report: &mut Report) {
    let random = &mut Random::new(11);
    report.heading("New lists and merges, a deletion", Beside::Original);
    for count in [10, 1_000, 100_000, 1_000_000] {
        let (list, _) = deletions(random, count);
        let mut sides = each(|library| Some(library.new_side(&list)));
        sides[0] = Some(exports::new_side_in_one_pass(&list));
        let calls = count * lists_a_round(count);
        report.line(&format!("new of {count}"), calls, true, sides);
    }
    for (old, more) in [
        (1_000, 10),
        (1_000, 1_000),
        (100_000, 100),
        (100_000, 100_000),
        (1_000_000, 1_000_000),
    ] {
        let mut halves = [halves(random, old, more)];
        for order in ["ascending", "in any order"] {
            if order == "ascending" || old + more <= 200_000 {
                let name = format!("merge of {more} {order} into {old}");
                let side = |library: &'static dyn Library| Some(library.merge_side(&halves));
                report.line(&name, old + more, true, each(side));
                random.shuffle(&mut halves[0][1]);
            }
        }
    }
    merge_tests(report, random);
}

/// The original tests no merge, so that only ours are measured.
fn merge_tests(report: &mut Report, random: &mut Random) {
    const COUNT: usize = 20_000;
    report.heading(
        "Tests of merges by `linker_utils_deletions_mergeable`, a deletion",
        Beside::Nothing,
    );
    let (list, _) = deletions(random, COUNT);
    let falling = list.iter().rev().copied().collect();
    let fourth = |first| list.iter().copied().skip(first).step_by(4);
    let fourths = (0..4).flat_map(fourth).collect();
    let mut mixed = list.clone();
    random.shuffle(&mut mixed);
    let none = erased_crate::relaxation::DeltaSlice::new(&[]);
    for (order, pairs) in [
        ("ascending", list.clone()),
        ("descending", falling),
        ("of four ascending lists", fourths),
        ("in any order", mixed),
    ] {
        let given: Vec<sathunne::Deletion> = pairs
            .iter()
            .map(|&(offset, bytes)| sathunne::Deletion { offset, bytes })
            .collect();
        let tested = || u64::from(sathunne::deletions_mergeable(&[], &given).is_ok());
        let erased = Side::number(|| u64::from(none.can_merge_sorted(&pairs)));
        let sides = [Some(Side::number(tested)), None, Some(erased), None];
        report.line(&format!("{COUNT} {order}"), COUNT, true, sides);
    }
}

// ---- the original's signatures

/// Calls of `compat` and of the original from one source.
fn compat(report: &mut Report) {
    fn both<'a>(side: impl Fn(&'static dyn Library) -> Option<Side<'a>>) -> Sides<'a> {
        let [.., original] = LIBRARIES;
        let compat = side(&direct::compat::Direct);
        [None, None, compat, original.and_then(side)]
    }
    let random = &mut Random::new(20);
    report.heading(
        "Calls by the original's signatures, of `compat`",
        Beside::Original,
    );
    // the last are those that lie between known ones
    for (machine, below) in [(AARCH64, 2048), (RISCV, 2048), (X86_64, 2048), (X86_64, 51)] {
        let is_unknown = |r_type: &u32| {
            let mut libraries = LIBRARIES.iter().flatten();
            libraries.all(|library| library.row(machine, *r_type).is_none())
        };
        let unknown: Vec<u32> = (0..below).filter(is_unknown).collect();
        let types: Vec<u32> = (0..CALLS).map(|_| *random.one_of(&unknown)).collect();
        let types = &types;
        let sides = both(|library| Some(Side::number(move || library.rows(machine, types))));
        let name = format!("rows of {}, unknown types below {below}", name_of(machine));
        report.line(&name, CALLS, true, sides);
    }
    for (lists, count) in [(30, 16), (12_500, 16), (1, 100_000)] {
        let halves: Vec<Halves> = (0..lists).map(|_| halves(random, count, count)).collect();
        let sides = both(|library| Some(library.merge_side(&halves)));
        let name = format!("merge of {count} ascending into {count}, of {lists} lists, a deletion");
        report.line(&name, 2 * count * lists, true, sides);
    }
    for count in [16, 1_000] {
        let queried = Queried::new(random, count);
        let sides = both(|library| {
            queried.side(library, |deltas, queries, out| {
                out[0] = deltas.walk_sum(queries).expect("a cursor");
            })
        });
        let name = format!("sum of a query a call of the cursor: {}", queried.name());
        report.line(&name, queried.queries(), true, sides);
    }
}

// ---- packing

fn packing(report: &mut Report) {
    const LEN: usize = 64 << 20;
    report.heading("Packing of 64 MiB", Beside::Other("one memcpy"));
    let mut section = Random::new(13).bytes(LEN);
    for step in [1024, 64] {
        // `call`, of which the second instruction is deleted
        let sites = (0..LEN).step_by(step);
        for site in sites.clone() {
            section[site..site + 8].copy_from_slice(&0x000080e7_00000097u64.to_le_bytes());
        }
        let list: Vec<(u64, u32)> = sites.clone().map(|site| (site as u64 + 4, 4)).collect();
        let calls: Vec<(u64, u64)> = sites
            .map(|site| (site as u64, site as u64 & !0x1fff))
            .collect();
        let kept = LEN - 4 * list.len();
        let copy = || {
            let section = &section[..kept];
            Some(Side::over(
                vec![0; kept],
                |_| (),
                |packed| packed.copy_from_slice(section),
                Vec::len,
            ))
        };
        let [exports, _, erased, _] = each(|library| library.pack_side(&section, &list, &[]));
        let name = format!("a deletion each {step} bytes, a KiB of the section");
        report.line(&name, LEN >> 10, false, [exports, copy(), erased, copy()]);
        let (list, calls) = (&list[..list.len() / 4], &calls[..calls.len() / 4]);
        let quarter = &section[..LEN / 4];
        let [exports, _, erased, _] = each(|library| library.pack_side(quarter, list, calls));
        let name = format!("16 MiB, a call and a deletion each {step} bytes, a call");
        report.line(&name, calls.len(), true, [exports, None, erased, None]);
    }
}

/// The original crate chooses no calls, so that only ours are measured.
fn calls(report: &mut Report) {
    let mut random = Random::new(12);
    report.heading(
        "The choice of calls by `linker_utils_shrink_calls`, a call",
        Beside::Nothing,
    );
    for (count, gap, deleted) in [
        (100_000, 1024, 0),
        (100_000, 64, 0),
        // fewer are all in reach of each other
        (200_000, 8, 0),
        (100_000, 1024, 10_000),
        (100_000, 64, 10_000),
        (1_000_000, 64, 0),
    ] {
        let calls = calls_apart(&mut random, count, gap);
        let between = count as u64 / (deleted as u64).max(1) * gap;
        let deletion = |k| sathunne::Deletion {
            offset: k * between + 16,
            bytes: 4,
        };
        let list: Vec<sathunne::Deletion> = (0..deleted).map(deletion).collect();
        let mut deltas = vec![sathunne::Delta::default(); list.len()];
        assert_eq!(sathunne::deltas_create(&list, &mut deltas), Ok(()));
        let choice = Side::writes(vec![0u8; count], |chosen| {
            assert_eq!(sathunne::shrink_calls(&deltas, &calls, chosen), Ok(()));
        });
        let name = format!("{count} calls {gap} bytes apart, {deleted} deletions");
        report.line(&name, count, true, [Some(choice), None, None, None]);
    }
}

/// Calls of sites so far apart: of the targets, each a site, 60 % are within 200,000 bytes, 30 %
/// from 1,000,000 to 2,200,000 bytes away, and 10 % anywhere.
fn calls_apart(random: &mut Random, count: usize, gap: u64) -> Vec<sathunne::Call> {
    let end = count as u64 * gap;
    let sites = (0..count as u64).map(|k| k * gap);
    sites
        .map(|site| {
            let kind = random.below(10);
            let away = if kind < 6 {
                random.below(200_000)
            } else {
                1_000_000 + random.below(1_200_000)
            };
            let target = if kind == 9 {
                random.below(u128::from(end))
            } else if random.below(2) == 0 {
                site.saturating_sub(away)
            } else {
                (site + away).min(end)
            };
            let target = target / gap * gap;
            sathunne::Call { site, target }
        })
        .collect()
}
