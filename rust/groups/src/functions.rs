// SPDX-License-Identifier: MIT OR Apache-2.0
//! Runs whole functions of an object as it is and as it is linked, from the same random states, and
//! compares the states outside of groups.
//!
//! Of RISC-V and LoongArch code is packed, too. Numbers agree if they are the same, if one is an
//! address of code and the other where that moved to, or if data has both at one place. Numbers that
//! a group or the instruction of a high part may leave otherwise may be copied. A run ends where an
//! instruction without a relocation computes with other numbers in old and new, but for high parts:
//! where old's leaves what new's does, once it has new's numbers. Functions of other objects return at
//! once, with random numbers in the registers that they may change. A system call of x86-64 changes
//! nothing.

use crate::layout::{CODE, Layout, MEMORY};
use crate::linking::{Linked, Moves, Program, link};
use crate::objects::{Home, Object, Section};
use crate::processor::{
    End, FLAGS, Numbers, Processor, RETURN, STACK, Start, Step, Trace, Write, calls,
};
use crate::random::{Random, noise};
use crate::sequences::{Sequences, sequences};
use linker_utils::elf::Architecture;
use linker_utils::runs::Item;
use linker_utils::section::relocations;
use std::collections::{BTreeMap, BTreeSet, HashMap, HashSet};
use std::ops::Range;

/// How many states a run has at most.
const LIMIT: usize = 1000;

/// What is counted of an architecture.
#[derive(Default)]
pub struct Count {
    functions: u64,
    runs: u64,
    instructions: u64,
    ends: BTreeMap<End, u64>,
    differ: u64,
    /// By types of relocations: groups that were executed, and differences after them.
    groups: BTreeMap<u32, (u64, u64)>,
    /// Sections that weren't linked, by the reason.
    errors: BTreeMap<String, u64>,
}

/// Instructions of which an execution is a group or a part of one, or one that makes a high part.
#[derive(Default)]
struct Unit {
    end: u64,
    /// The type of relocation that a group is counted by, if this is its last part.
    counts: Option<u32>,
    may_differ: u128,
    /// A register that is greater by a number, too.
    shifted: Option<(usize, u64)>,
    /// Where its other parts begin.
    others: Vec<u64>,
    is_without: bool,
    is_high_part: bool,
}

impl Unit {
    fn part(end: u64) -> Unit {
        Unit { end, ..Unit::default() }
    }
}

fn word(bytes: &[u8], at: u64) -> u32 {
    let bytes = bytes.get(at as usize..).and_then(|bytes| bytes.first_chunk());
    bytes.map_or(0, |bytes| u32::from_le_bytes(*bytes))
}

/// Whether an instruction makes a high part, which is another one where code has moved.
fn makes_high_part(architecture: Architecture, word: u32) -> bool {
    match architecture {
        Architecture::RiscV => matches!(word & 0x7f, 0x17 | 0x37),
        Architecture::LoongArch64 => matches!(word >> 25, 0x0a | 0x0d..=0x0f),
        _ => false,
    }
}

/// The register in which a jump that links none computes its target.
fn scratch(architecture: Architecture, first: u32, second: u32) -> u128 {
    match architecture {
        Architecture::RiscV if second >> 7 & 31 == 0 => 1 << (first >> 7 & 31),
        Architecture::LoongArch64 if second >> 26 == 0x13 && second & 31 == 0 => 1 << (first & 31),
        _ => 0,
    }
}

/// Adds the units of a section by where they begin.
fn add_units(
    object: &Object,
    layout: &Layout,
    program: &Program,
    index: usize,
    linked: &Linked,
    units: &mut BTreeMap<u64, Unit>,
) {
    let (architecture, address) = (object.architecture, layout.sections[index]);
    let mut r_types = BTreeMap::new();
    for it in relocations(&layout.relocations[index]) {
        r_types.entry(it.offset).or_insert(it.r_type);
        if makes_high_part(architecture, word(&linked.before, it.offset)) {
            let unit = Unit { is_high_part: true, ..Unit::part(address + it.offset + 4) };
            units.insert(address + it.offset, unit);
        }
    }
    let Sequences { all, without, offsets } = sequences(architecture, address, linked, layout);
    for (n, member) in linked.members.iter().enumerate() {
        if offsets.iter().all(|&(other, _)| other != n) {
            let unit = Unit::part(address + member.end);
            let is_without = without.contains(&n);
            units.insert(address + member.start, Unit { is_without, ..unit });
        }
    }
    for (n, _) in offsets {
        // x86-64's of an `add`, of whose flags nothing is known, or of another instruction
        let at = linked.members[n].offset;
        let is_add = word(&linked.before, at - 2) as u16 == 0x0548;
        let (len, may_differ) = if is_add { (2, 7 << FLAGS) } else { (3, 0) };
        let counts = Some(linked.members[n].r_type);
        units.insert(
            address + at - len,
            Unit { counts, may_differ, ..Unit::part(address + at + 4) },
        );
    }
    let pieces = all.iter().flat_map(|sequence| &sequence.pieces);
    units.extend(pieces.map(|piece| (piece.start, Unit::part(piece.end))));
    for sequence in all {
        let (last, others) = sequence.pieces.split_last().expect("a piece");
        let shifted = sequence.shifted.map_or(0, |(register, _)| 1 << register);
        let flags = if sequence.compares_flags { 0 } else { 7 << FLAGS };
        let unit = Unit {
            counts: Some(linked.members[sequence.member].r_type),
            may_differ: u128::from(sequence.may_differ) | shifted | flags,
            shifted: sequence.shifted,
            others: others.iter().map(|piece| piece.start).collect(),
            ..Unit::part(last.end)
        };
        units.insert(last.start, unit);
    }
    for item in &program.items[index] {
        let (start, end) = (MEMORY + item.offset, MEMORY + item.offset + u64::from(item.len));
        if program.moves.at(end) - program.moves.at(start) == u64::from(item.len) {
            continue;
        }
        let at = start - address;
        let first = word(&linked.before, at);
        match item.as_item() {
            Item::Site(site) if site.shapes.count > 0 => {
                let may_differ = scratch(architecture, first, word(&linked.before, at + 4));
                let counts = r_types.get(&at).copied();
                units.insert(start, Unit { counts, may_differ, ..Unit::part(end) });
            }
            Item::Site(_) => {}
            Item::Aligned(_) => _ = units.insert(start, Unit::part(end)),
        }
    }
}

struct Linking<'a> {
    units: BTreeMap<u64, Unit>,
    moves: &'a Moves,
    /// The numbers at one place of data.
    pairs: HashSet<(u64, u64)>,
    /// Where code has relocations.
    fields: BTreeSet<u64>,
    stack_pointer: usize,
    /// How many bytes a jump has at most.
    jump_len: u64,
}

/// What old and new need not have alike in a state.
#[derive(Default)]
struct Allowed {
    /// Numbers that units left, and whether that was a group and no instruction of a high part.
    left: HashMap<(u64, u64), bool>,
    /// Memory below the stack pointer.
    below: Range<u64>,
    /// By bits, the results of a group that has ended here, which have to agree, and the one that is
    /// greater by a number.
    results: u128,
    shifted: Option<(usize, u64)>,
}

/// A state, and what was written since the one before.
type After<'a> = (&'a Numbers, &'a [Write]);

impl Linking<'_> {
    fn agree(&self, old: u64, new: u64) -> bool {
        old == new
            || self.moves.at(old) == new
            // of a return address, in what unwinds
            || self.moves.at(old.wrapping_add(1)) == new.wrapping_add(1)
            || self.pairs.contains(&(old, new))
    }

    /// What is otherwise and may not be; none if nothing is.
    fn difference(
        &self,
        (old, writes): After,
        (new, others): After,
        allowed: &Allowed,
    ) -> Option<String> {
        let agree = |a, b| self.agree(a, b) || allowed.left.contains_key(&(a, b));
        for (n, (&a, &b)) in old.iter().zip(new).enumerate() {
            let is_right = match allowed.shifted {
                Some((shifted, by)) if shifted == n => b == a.wrapping_add(by),
                _ if allowed.results >> n & 1 == 1 => self.agree(a, b),
                _ => agree(a, b),
            };
            if !is_right {
                return Some(format!("number {n} is {a:#x} and {b:#x}"));
            }
        }
        let counted = |write: &&Write| !allowed.below.contains(&write.address);
        let (writes, others) = (writes.iter().filter(counted), others.iter().filter(counted));
        let same = |(a, b): (&Write, &Write)| {
            a.address == b.address && a.len == b.len && agree(a.value as u64, b.value as u64)
        };
        let is_same =
            writes.clone().count() == others.clone().count() && writes.zip(others).all(same);
        (!is_same).then(|| "it writes otherwise".to_string())
    }

    /// Whether an instruction has no relocation and isn't of a group.
    fn is_plain(&self, pc: u64, next: u64) -> bool {
        let len = match next.wrapping_sub(pc) {
            len @ 1..16 => len,
            _ => self.jump_len,
        };
        let mut fields = self.fields.range(pc..pc.saturating_add(len));
        !self.units.contains_key(&pc) && fields.next().is_none()
    }

    /// New's numbers, but for those of high parts, which have their low parts.
    fn replaced(&self, old: &Numbers, new: &Numbers, allowed: &Allowed) -> Numbers {
        std::array::from_fn(|n| match allowed.left.get(&(old[n], new[n])) {
            Some(false) => old[n],
            _ => new[n],
        })
    }

    /// Compares two runs up to where the first one ends, and notes the groups of it. Returns how
    /// many instructions it has and why it ends, or what differs. `again` runs old's instruction at a
    /// step with other numbers.
    fn compare(
        &self,
        old: &Trace,
        new: &Trace,
        groups: &mut Vec<u32>,
        mut again: impl FnMut(&Step, Numbers) -> Trace,
    ) -> Result<(usize, End), String> {
        // by bits, what the last unit may leave otherwise, and whether it is of a group
        let (mut fresh, mut is_group, mut allowed) = (0u128, false, Allowed::default());
        // when each unit was executed last and what it changed, and whether that was without its
        // group's other parts
        let (mut executed, mut is_entered) = (BTreeMap::<u64, (usize, u128)>::new(), false);
        let (mut at, mut last) = ((0, 0), (0, 0));
        loop {
            let (one, other) = (&old.steps[at.0], &new.steps[at.1]);
            let (was, other_was) = (&old.steps[last.0], &new.steps[last.1]);
            let wrong = |what: String| Err(format!("{:#x} after {:#x}: {what}", one.pc, was.pc));
            for (n, (&a, &b)) in one.numbers.iter().zip(&other.numbers).enumerate() {
                if fresh >> n & 1 == 1 && !self.agree(a, b) {
                    allowed.left.entry((a, b)).or_insert(is_group);
                }
            }
            let after = (&other.numbers, &new.writes[other_was.writes..other.writes]);
            let differs = match self.moves.at(one.pc) == other.pc {
                true => {
                    let before = (&one.numbers, &old.writes[was.writes..one.writes]);
                    self.difference(before, after, &allowed)
                }
                false => Some(format!("it goes to {:#x}", other.pc)),
            };
            if let Some(what) = differs {
                if is_entered {
                    return Ok((at.0, End::Enters));
                }
                let numbers = self.replaced(&was.numbers, &other_was.numbers, &allowed);
                if numbers != was.numbers && self.is_plain(was.pc, one.pc) {
                    let Trace { steps, writes, .. } = again(was, numbers);
                    if let [first, next] = &steps[..]
                        && self.agree(next.pc, other.pc)
                        && let same = (&next.numbers, &writes[first.writes..next.writes])
                        && self.difference(same, after, &allowed).is_none()
                    {
                        return Ok((at.0, End::Uses));
                    }
                }
                return wrong(what);
            }
            let unit = self.units.get(&one.pc);
            if unit.is_some_and(|unit| unit.is_without) {
                return Ok((at.0, End::Without));
            }
            // those with the linker's own functions that they call
            let goes_on = |pc: &u64, start: u64, end: u64| {
                !(start..end).contains(pc) && !(MEMORY..RETURN).contains(pc)
            };
            let next = |trace: &Trace, from: usize, start: u64, end: u64| {
                (from..trace.steps.len()).find(|&n| goes_on(&trace.steps[n].pc, start, end))
            };
            let nexts = match unit {
                Some(unit) => {
                    let (start, end) = (self.moves.at(one.pc), self.moves.at(unit.end));
                    (next(old, at.0 + 1, one.pc, unit.end), next(new, at.1, start, end))
                }
                None => (next(old, at.0 + 1, 0, 0), next(new, at.1 + 1, 0, 0)),
            };
            last = at;
            at = match nexts {
                (Some(first), Some(second)) => (first, second),
                _ if old.end == End::Long || new.end == End::Long => return Ok((at.0, End::Long)),
                (None, None) if old.end == new.end => return Ok((at.0, old.end)),
                _ => return wrong(format!("the ends are {:?} and {:?}", old.end, new.end)),
            };
            let (now, other_now) = (&old.steps[at.0].numbers, &new.steps[at.1].numbers);
            (fresh, is_entered) = (0, false);
            allowed = Allowed { left: allowed.left, ..Allowed::default() };
            if let Some(unit) = unit {
                is_group = !unit.is_high_part;
                let changed = (0..now.len())
                    .filter(|&n| now[n] != one.numbers[n] || other_now[n] != other.numbers[n])
                    .fold(0, |bits, n| bits | 1 << n);
                let stack = now[self.stack_pointer];
                allowed.below = stack.saturating_sub(0x1000)..stack;
                (fresh, allowed.shifted) = (changed, unit.shifted);
                if let Some(code) = unit.counts {
                    groups.push(code);
                    fresh = unit.may_differ;
                    let others = unit.others.iter().map(|other| executed.get(other));
                    let of_group = others.clone().flatten().fold(changed, |bits, it| bits | it.1);
                    allowed.results = of_group & !fresh;
                    let before = executed.get(&one.pc).map(|it| it.0);
                    is_entered = others.into_iter().any(|other| other.map(|it| it.0) <= before);
                }
                executed.insert(one.pc, (at.0, changed));
            }
        }
    }
}

/// The numbers that data has at one place in the object and after the link.
fn pairs(object: &Object, layout: &Layout, program: &Program) -> HashSet<(u64, u64)> {
    let mut pairs = HashSet::new();
    for (index, table) in layout.relocations.iter().enumerate() {
        let Ok(Linked { before, after, .. }) = &program.sections[index] else { continue };
        if object.sections[index].is_code || before == after {
            continue;
        }
        let lens = [1, 2, 4, 8];
        let places = relocations(table).flat_map(|it| it.offset.saturating_sub(7)..it.offset + 8);
        for (at, len) in places.flat_map(|at| lens.map(|len| (at as usize, len))) {
            let numbers = [before, after].map(|bytes| {
                let mut number = [0; 8];
                let from = bytes.get(at..)?.get(..len)?;
                number[..len].copy_from_slice(from);
                Some(u64::from_le_bytes(number))
            });
            if let [Some(a), Some(b)] = numbers
                && a != b
            {
                let shift = 64 - 8 * len as u32;
                let signed = |n: u64| ((n << shift) as i64 >> shift) as u64;
                pairs.extend([(a, b), (signed(a), signed(b))]);
            }
        }
    }
    pairs
}

fn code_fields(object: &Object, layout: &Layout) -> BTreeSet<u64> {
    let sections = object.sections.iter().zip(&layout.sections).zip(&layout.relocations);
    let code = sections.filter(|((section, _), _)| section.is_code);
    code.flat_map(|((_, address), table)| relocations(table).map(move |it| address + it.offset))
        .collect()
}

/// How long a section of code is with what no instruction is.
fn with_end(size: u64) -> u64 {
    (size + 1).next_multiple_of(64)
}

/// Writes what an object is, or is linked to, into a machine.
fn load(
    object: &Object,
    layout: &Layout,
    seed: u64,
    sections: &[Option<&Vec<u8>>],
    moves: &Moves,
    machine: &mut dyn Processor,
) {
    crate::load(object, layout, seed, sections, moves, machine);
    if object.architecture == Architecture::X86_64 {
        machine.write(STACK, &RETURN.to_le_bytes());
    }
    let is_code = |(_, it): &(usize, &Section)| it.is_code && it.size > 0;
    for (index, section) in object.sections.iter().enumerate().filter(is_code) {
        // no instruction is behind it
        let end = if object.architecture == Architecture::X86_64 { 0xf4 } else { 0 };
        let mut code = sections[index].cloned().unwrap_or_default();
        code.resize(with_end(section.size) as usize, end);
        machine.write_code(layout.sections[index], &code);
    }
}

/// Changes a bit of some units of linked code.
fn damage(linking: &Linking, address: u64, code: &mut [u8], random: &mut Random) {
    for (&start, unit) in &linking.units {
        let (from, end) = (linking.moves.at(start), linking.moves.at(unit.end));
        let at = from.wrapping_sub(address) as usize;
        if at < code.len() && end > from && random.below(4) == 0 {
            let bit = random.below(8 * (code.len() - at).min((end - from) as usize));
            code[at + bit / 8] ^= 1 << (bit % 8);
        }
    }
}

pub fn run_object(
    name: &str,
    object: &Object,
    layout: &Layout,
    random: &mut Random,
    options: &crate::Options,
    machines: &mut [Box<dyn Processor>; 2],
    count: &mut Count,
) {
    let architecture = object.architecture;
    let mut program = link(object, layout, true);
    let (mut units, mut end) = (BTreeMap::new(), CODE);
    for (index, of) in object.sections.iter().enumerate().filter(|(_, it)| it.is_code) {
        // what runs into its end doesn't come to code of others
        end = end.max(layout.sections[index] + with_end(of.size));
        match &program.sections[index] {
            Ok(linked) => add_units(object, layout, &program, index, linked, &mut units),
            Err(error) => *count.errors.entry(error.to_string()).or_default() += 1,
        }
    }
    if units.values().all(|unit| unit.counts.is_none()) {
        return;
    }
    let stack_pointer = machines[0].stack_pointer();
    let moves = std::mem::take(&mut program.moves);
    let pairs = pairs(object, layout, &program);
    let fields = code_fields(object, layout);
    let jump_len = if architecture == Architecture::X86_64 { 15 } else { 4 };
    let linking = Linking { units, moves: &moves, pairs, fields, stack_pointer, jump_len };
    if options.damages {
        for (section, &address) in program.sections.iter_mut().zip(&layout.sections) {
            if let Ok(section) = section {
                damage(&linking, address, &mut section.after, random);
            }
        }
    }
    let seed = random.next();
    let sections: Vec<_> = program.sections.iter().map(|it| it.as_ref().ok()).collect();
    let before: Vec<_> = sections.iter().map(|it| it.map(|it| &it.before)).collect();
    let after: Vec<_> = sections.iter().map(|it| it.map(|it| &it.after)).collect();
    machines.iter_mut().for_each(|machine| machine.place(CODE..end, layout.end));
    load(object, layout, seed, &before, &Moves::default(), machines[0].as_mut());
    load(object, layout, seed, &after, &moves, machines[1].as_mut());
    for symbol in object.symbols.iter().filter(|symbol| symbol.is_function) {
        let Home::Section(index) = symbol.home else { continue };
        let address = layout.sections[index];
        let len = before[index].map_or(0, Vec::len) as u64;
        if !object.sections[index].is_code
            || linking.units.range(address..address + len).next().is_none()
        {
            continue;
        }
        count.functions += 1;
        let pc = address + symbol.value;
        for _ in 0..options.states {
            let state = crate::state(random, machines[0].as_ref(), layout, noise);
            let mut numbers: Numbers = [0; _];
            numbers[..64].copy_from_slice(&state.registers);
            numbers[FLAGS] = state.flags;
            match architecture {
                Architecture::LoongArch64 => numbers[0] = 0,
                // it computes the TOC pointer of its own address
                Architecture::Ppc64 => {
                    (numbers[12], numbers[FLAGS + 2]) = (pc, random.next() >> 32)
                }
                _ => {}
            }
            if let Some(number) = calls(architecture).0 {
                numbers[number] = RETURN;
            }
            let (writes, code) = (Vec::new(), CODE..end);
            let start = Start { architecture, pc, numbers, writes, code, limit: LIMIT };
            let old = machines[0].trace(&start);
            let moved = Start { pc: moves.at(pc), limit: LIMIT + 64, ..start.clone() };
            let new = machines[1].trace(&moved);
            let mut groups = Vec::new();
            let result = linking.compare(&old, &new, &mut groups, |step, numbers| {
                let writes = old.writes[..step.writes].to_vec();
                machines[0].trace(&Start {
                    pc: step.pc,
                    numbers,
                    writes,
                    limit: 2,
                    ..start.clone()
                })
            });
            count.runs += 1;
            groups.iter().for_each(|&code| count.groups.entry(code).or_default().0 += 1);
            match result {
                Ok((instructions, end)) => {
                    count.instructions += instructions as u64;
                    *count.ends.entry(end).or_default() += 1;
                }
                Err(difference) => {
                    count.differ += 1;
                    count.groups.entry(groups.last().copied().unwrap_or(0)).or_default().1 += 1;
                    if count.differ <= 20 {
                        eprintln!("{name} {} at {pc:#x}: {difference}", symbol.name);
                    }
                }
            }
        }
    }
}

/// Prints what was counted, and returns whether it is as it has to be.
pub fn report(counts: &BTreeMap<String, Count>, damages: bool) -> bool {
    let (mut is_right, mut all) = (!counts.is_empty(), 0);
    for (name, it) in counts {
        let groups: u64 = it.groups.values().map(|(groups, _)| groups).sum();
        all += groups;
        for (code, (groups, differ)) in &it.groups {
            println!("{name} type {code}: {groups} groups, {differ} differ");
            is_right &= !damages || *groups < 64 || *differ > 0;
        }
        println!(
            "{name}: {groups} groups in {} instructions, {} runs of {} functions: {} differ, {:?} {:?}",
            it.instructions, it.runs, it.functions, it.differ, it.ends, it.errors
        );
        is_right &= groups > 0 && (damages || it.differ == 0 && it.errors.is_empty());
    }
    println!("{all} groups in functions");
    is_right
}
