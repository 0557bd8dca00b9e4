// SPDX-License-Identifier: MIT OR Apache-2.0
//! Runs the instructions that the library rewrites, as an object has them and as they become, from
//! random states, and compares what they leave.
//!
//! usage: groups [--states N] [--layouts N] [--list] [--damage] FILE..
//!        groups --functions [--states N] [--layouts N] [--damage] FILE..
//!        groups --decide FILE..
//!
//! `--list` also prints relocations that are rewritten and of which it knows no sequence. With
//! `--damage` a bit of each rewritten instruction is changed, and the program fails where no
//! difference is seen of some type of relocation.
//!
//! With `--decide` it only compares what is decided first and made later with `rewrite_section`.
//!
//! Each object is linked by itself, with addresses and facts at random. Its relocations' values are
//! written into the object's instructions, and into those after all rewrites. Both run in the
//! emulator unicorn, with a GOT, TLS descriptors and `__tls_get_addr`. What they leave in registers,
//! flags and memory has to be the same, but for what the ABI lets the sequence change.

mod deciding;
mod functions;
mod interpreter;
mod layout;
mod linking;
mod objects;
mod processor;
mod random;
mod sequences;
mod unicorn;

use layout::Layout;
use linker_utils::elf::Architecture;
use linking::{Moves, Program};
use objects::Object;
use processor::{Outcome, Processor, STACK, State};
use random::Random;
use sequences::Sequence;
use std::collections::BTreeMap;
use std::error::Error;
use std::fmt::Write;
use std::process::ExitCode;

#[derive(Default)]
struct Count {
    /// Groups that ran, and how often they did.
    groups: u64,
    runs: u64,
    /// Those that left something else.
    differ: u64,
    /// Those that could not run.
    failed: u64,
    /// Relocations of which there is no sequence.
    without: u64,
}

#[derive(Default)]
struct Report {
    /// By architecture and type.
    counts: BTreeMap<(String, u32), Count>,
    /// Sections that weren't linked, by the reason.
    errors: BTreeMap<String, u64>,
    sections: u64,
    shown: u64,
}

#[derive(Default)]
struct Options {
    states: u64,
    layouts: u64,
    damages: bool,
    lists: bool,
    decides: bool,
    functions: bool,
    files: Vec<String>,
}

fn options() -> Result<Options, Box<dyn Error>> {
    let mut options = Options { states: 2, layouts: 1, ..Options::default() };
    let mut arguments = std::env::args().skip(1);
    while let Some(argument) = arguments.next() {
        let mut number = || -> Result<u64, Box<dyn Error>> {
            Ok(arguments.next().ok_or("a number is missing")?.parse()?)
        };
        match argument.as_str() {
            "--states" => options.states = number()?,
            "--damage" => options.damages = true,
            "--list" => options.lists = true,
            "--decide" => options.decides = true,
            "--functions" => options.functions = true,
            "--layouts" => options.layouts = number()?,
            _ => options.files.push(argument),
        }
    }
    Ok(options)
}

fn hex(bytes: &[u8]) -> String {
    bytes.iter().fold(String::new(), |mut text, byte| {
        let _ = write!(text, "{byte:02x}");
        text
    })
}

/// A number of the file's name, so that each run is the same.
fn seed_of(name: &str) -> u64 {
    name.bytes().fold(0xcbf2_9ce4_8422_2325, |seed, byte| {
        (seed ^ u64::from(byte)).wrapping_mul(0x100_0000_01b3)
    })
}

fn state(
    random: &mut Random,
    machine: &dyn Processor,
    layout: &Layout,
    number: fn(u64) -> u64,
) -> State {
    let (got_base, thread_pointer) = (layout.link.got_base, layout.origins.thread_pointer);
    let mut registers: Vec<u64> = (0..64).map(|_| number(random.next())).collect();
    registers[machine.stack_pointer()] = STACK;
    match layout.link.architecture {
        // the large model's GOT
        Architecture::X86_64 => registers[3] = got_base,
        Architecture::RiscV => registers[4] = thread_pointer,
        Architecture::LoongArch64 => registers[2] = thread_pointer,
        Architecture::Ppc64 => (registers[2], registers[13]) = (got_base, thread_pointer),
        _ => {}
    }
    State { registers, flags: random.next() }
}

/// What is otherwise after the rewrite; none if nothing is.
fn difference(sequence: &Sequence, before: &Outcome, after: &Outcome) -> Option<String> {
    let pairs = before.state.registers.iter().zip(&after.state.registers).enumerate();
    for (register, (&old, &new)) in pairs {
        let by = match sequence.shifted {
            Some((shifted, by)) if shifted == register => by,
            _ => 0,
        };
        if new != old.wrapping_add(by) && sequence.may_differ >> register & 1 == 0 {
            return Some(format!("register {register}: {old:#x} became {new:#x}"));
        }
    }
    if sequence.compares_flags && before.state.flags != after.state.flags {
        return Some(format!("flags: {:#x} became {:#x}", before.state.flags, after.state.flags));
    }
    let last = sequence.pieces.last()?;
    let went = |pc: u64| if (last.start..=last.end).contains(&pc) { last.end } else { pc };
    if went(before.pc) != went(after.pc) {
        return Some(format!("it goes to {:#x} and not to {:#x}", after.pc, before.pc));
    }
    (before.writes != after.writes).then(|| "it writes other memory".to_string())
}

/// Writes an object's data, with noise for what a file doesn't have, and the GOT.
fn load(
    object: &Object,
    layout: &Layout,
    seed: u64,
    bytes: &[Option<&Vec<u8>>],
    moves: &Moves,
    machine: &mut dyn Processor,
) {
    for (index, section) in object.sections.iter().enumerate().filter(|(_, it)| !it.is_code) {
        match bytes[index] {
            Some(bytes) if !bytes.is_empty() => machine.write(layout.sections[index], bytes),
            _ => machine.write(layout.sections[index], &random::noise_at(seed, section.size)),
        }
    }
    let noise = random::noise_at(seed, layout.room + layout.image_len);
    machine.write(layout.image - layout.room, &noise);
    for word in &layout.words {
        machine.write(word.address, &moves.at(word.value).to_le_bytes());
    }
    // where PowerPC64's stubs have stored the TOC pointer
    machine.write(STACK + 24, &layout.link.got_base.to_le_bytes());
    machine.set_thread(layout.origins.thread_pointer, layout.origins.module_block);
}

fn run_object(
    name: &str,
    object: &Object,
    layout: &Layout,
    random: &mut Random,
    options: &Options,
    machine: &mut dyn Processor,
    report: &mut Report,
) {
    let architecture = object.architecture;
    let Program { sections: linked, moves, .. } = linking::link(object, layout, false);
    let before: Vec<_> = linked.iter().map(|one| Some(&one.as_ref().ok()?.before)).collect();
    load(object, layout, random.next(), &before, &moves, machine);
    for (index, section) in linked.iter().enumerate() {
        if !object.sections[index].is_code {
            continue;
        }
        report.sections += 1;
        let section = match section {
            Ok(section) => section,
            Err(error) => {
                *report.errors.entry(format!("{architecture:?}: {error}")).or_default() += 1;
                continue;
            }
        };
        let address = layout.sections[index];
        let sequences = sequences::sequences(architecture, address, section, layout);
        let key = |member: usize| (format!("{architecture:?}"), section.members[member].r_type);
        for &member in &sequences.without {
            report.counts.entry(key(member)).or_default().without += 1;
            if options.lists {
                let it = &section.members[member];
                eprintln!(
                    "{name} {} +{:#x} type {}: no sequence",
                    object.sections[index].name, it.offset, it.r_type
                );
            }
        }
        let show = |report: &mut Report, member: usize, what: &str| {
            report.shown += 1;
            if report.shown <= 20 {
                let it = &section.members[member];
                let window = it.start as usize..it.end as usize;
                eprintln!(
                    "{name} {} +{:#x} type {}: {what}: {} became {}",
                    object.sections[index].name,
                    it.offset,
                    it.r_type,
                    hex(&section.before[window.clone()]),
                    hex(&section.after[window]),
                );
            }
        };
        for &(member, by) in &sequences.offsets {
            let at = section.members[member].offset as usize;
            let field = |bytes: &[u8]| {
                i32::from_le_bytes(bytes[at..at + 4].try_into().expect("four bytes")) as i64
            };
            let count = report.counts.entry(key(member)).or_default();
            count.groups += 1;
            if field(&section.after) != field(&section.before).wrapping_add(by as i64) {
                count.differ += 1;
                show(report, member, "another offset");
            }
        }
        if sequences.all.is_empty() {
            continue;
        }
        let states: Vec<State> = (0..options.states * sequences.all.len() as u64)
            .map(|_| state(random, machine, layout, |number| number))
            .collect();
        let runs: Vec<(&Sequence, &State)> = sequences
            .all
            .iter()
            .flat_map(|sequence| (0..options.states).map(move |_| sequence))
            .zip(&states)
            .collect();
        machine.write_code(address, &section.before);
        let before: Vec<_> =
            runs.iter().map(|(sequence, state)| machine.run(&sequence.pieces, state)).collect();
        let mut after = section.after.clone();
        if options.damages {
            for it in &section.members {
                let len = (after.len() - it.offset as usize).min(4);
                let bit = it.offset as usize * 8 + random.below(8 * len);
                after[bit / 8] ^= 1 << (bit % 8);
            }
        }
        machine.write_code(address, &after);
        for ((sequence, state), before) in runs.iter().zip(&before) {
            let after = machine.run(&sequence.pieces, state);
            let count = report.counts.entry(key(sequence.member)).or_default();
            count.runs += 1;
            if before.error != 0 {
                count.failed += 1;
                show(report, sequence.member, &format!("unicorn's error {}", before.error));
            } else if after.error != 0 {
                count.differ += 1;
                show(report, sequence.member, &format!("unicorn's error {} after it", after.error));
            } else if let Some(difference) = difference(sequence, before, &after) {
                count.differ += 1;
                show(report, sequence.member, &difference);
            }
        }
        for sequence in &sequences.all {
            report.counts.entry(key(sequence.member)).or_default().groups += 1;
        }
    }
}

fn run() -> Result<bool, Box<dyn Error>> {
    let options = options()?;
    if options.decides {
        return deciding::run(&options.files);
    }
    let mut report = Report::default();
    let mut functions: BTreeMap<String, functions::Count> = BTreeMap::new();
    let mut machines: BTreeMap<String, [Box<dyn Processor>; 2]> = BTreeMap::new();
    for file in &options.files {
        let data = std::fs::read(file)?;
        objects::each_object(&data, |member, object| {
            let name = format!("{file}({member})");
            let architecture = format!("{:?}", object.architecture);
            let machines = machines.entry(architecture.clone()).or_insert_with(|| {
                [(); 2].map(|()| processor::processor(object.architecture, options.functions))
            });
            let room = if options.functions { 0x2000 } else { 0 };
            for number in 0..options.layouts {
                let mut random = Random(seed_of(&name).wrapping_add(number));
                match Layout::new(&object, &mut random, room) {
                    Some(layout) if options.functions => {
                        let count = functions.entry(architecture.clone()).or_default();
                        functions::run_object(
                            &name,
                            &object,
                            &layout,
                            &mut random,
                            &options,
                            machines,
                            count,
                        );
                    }
                    Some(layout) => {
                        run_object(
                            &name,
                            &object,
                            &layout,
                            &mut random,
                            &options,
                            machines[0].as_mut(),
                            &mut report,
                        );
                    }
                    None => *report.errors.entry("too large".to_string()).or_default() += 1,
                }
            }
            Ok(())
        })
        .map_err(|error| format!("{file}: {error}"))?;
    }
    if options.functions {
        return Ok(functions::report(&functions, options.damages));
    }
    let mut all = Count::default();
    for ((architecture, code), count) in &report.counts {
        println!(
            "{architecture} type {code}: {} groups, {} runs, {} differ, {} failed, {} without",
            count.groups, count.runs, count.differ, count.failed, count.without
        );
        all.groups += count.groups;
        all.runs += count.runs;
        all.differ += count.differ;
        all.failed += count.failed;
        all.without += count.without;
    }
    for (error, count) in &report.errors {
        println!("{count} sections not linked: {error}");
    }
    println!(
        "{} sections, {} groups, {} runs, {} differ, {} failed, {} without",
        report.sections, all.groups, all.runs, all.differ, all.failed, all.without
    );
    if options.damages {
        let is_seen = |count: &Count| count.runs == 0 || count.differ > 0;
        return Ok(all.runs > 0 && report.counts.values().all(is_seen));
    }
    Ok(all.differ == 0 && all.failed == 0 && report.errors.is_empty() && all.groups > 0)
}

fn main() -> ExitCode {
    match run() {
        Ok(true) => ExitCode::SUCCESS,
        Ok(false) => ExitCode::FAILURE,
        Err(error) => {
            eprintln!("groups: {error}");
            ExitCode::FAILURE
        }
    }
}
