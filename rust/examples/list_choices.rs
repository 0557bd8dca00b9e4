// SPDX-License-Identifier: MIT OR Apache-2.0
//! Lists the tables of the rewrites that a linker chooses, of which `choose` takes the first that
//! applies. `tools/generate` makes the tables of the docs and of the header of it.
//!
//! A line has words with tabs between. An architecture is followed by its entries, each in its place,
//! and by the relocations that their conditions name:
//!
//! ```text
//! architecture NAME
//! entry RELOCATION OPCODES INSTRUCTIONS REWRITE NUMBER N RELOCATION_AFTER WRITTEN DELETED OTHER CONDITION..
//! value RELOCATION FORMULA REACH MULTIPLE
//! ```

use linker_utils::aarch64::{self, AArch64Relocation};
use linker_utils::architecture::Relaxation;
use linker_utils::choice_table::{
    ChoiceEntry, ChoiceTable, RewriteSet, Conditions, RelocationName, ValueCondition,
    ValueConditions, choice_by,
};
use linker_utils::elf::{
    Architecture, InstructionRewrite, LinkFacts, Operands, RewriteWindow, Row,
};
use linker_utils::loongarch64::{self, LoongArch64Relocation};
use linker_utils::ppc64::{self, Ppc64Relocation};
use linker_utils::relaxation::RelocationModifier;
use linker_utils::riscv64::{self, RiscVRelocation};
use linker_utils::x86_64::{self, X86_64Relocation};
use std::collections::BTreeMap;
use std::fmt::Debug;
use std::sync::OnceLock;

// ---- Facts: what a bit of a mask asks for is found by trying.

/// What may be said of facts: how it is said where it holds, and where it doesn't, and how it is
/// made to hold or not.
type Statement = (&'static str, &'static str, fn(&mut LinkFacts, bool));

macro_rules! statements {
    ($($field:ident)*) => {
        const STATEMENTS: &[Statement] = &[
            $((
                concat!("`", stringify!($field), "`"),
                concat!("not `", stringify!($field), "`"),
                |facts, holds| facts.$field = holds,
            ),)*
            ("`plt_entry` is `symbol`", "`plt_entry` is not `symbol`", |facts, holds| {
                facts.operands.plt_entry = facts.operands.symbol + u64::from(!holds);
            }),
        ];
        // no field is missing
        const _: fn(LinkFacts) = |LinkFacts { $($field: _,)* operands: _ }| ();
    };
}

statements! {
    is_local is_ifunc is_undefined_weak has_fixed_address is_pcrel_link_time_constant is_executable
    has_local_exec_base may_compress is_class32 is_relaxable has_got_high_part is_label_relaxable toc_base_is_exclusive
    may_change_toc has_addresses group_fits
}

/// The instructions, the rewrite and the relocation of an entry that asks for facts alone; or of
/// none.
#[derive(Clone, Copy, Default, PartialEq)]
struct Probe {
    is_entry: bool,
}

impl InstructionRewrite for Probe {
    fn apply(self, _: &mut [u8], _: &mut u64, _: &mut i64) {}

    fn can_apply(self, _: &[u8], _: u64) -> bool {
        true
    }

    fn window(self) -> RewriteWindow {
        RewriteWindow { back: 0, len: 0 }
    }

    fn next_modifier(&self) -> RelocationModifier {
        RelocationModifier::Normal
    }

    fn is_no_op(self) -> bool {
        !self.is_entry
    }
}

impl RewriteSet for Probe {
    type Relocation = Probe;
    type Originals = Probe;

    fn matches_at(self, _: &Probe, _: &[u8], _: u64) -> bool {
        true
    }

    fn operands_after(self, _: u64, operands: &Operands) -> Operands {
        *operands
    }
}

impl RelocationName for Probe {
    fn find_row(self) -> Option<Row> {
        None
    }
}

/// What a bit of a mask of facts asks for: statements, each with how it is said.
fn has_pattern(bit: u32) -> Vec<&'static str> {
    let entry = Probe { is_entry: true };
    let table: &'static [_] = Box::leak(Box::new([ChoiceEntry {
        originals: entry,
        kind: entry,
        relocation: entry,
        conditions: Conditions { facts: bit, addend: None, values: ValueConditions::None },
    }]));
    let holds = |state: &u32| {
        let mut facts = LinkFacts::default();
        for (at, (_, _, set)) in STATEMENTS.iter().enumerate() {
            set(&mut facts, state >> at & 1 == 1);
        }
        choice_by::<Probe>(table, entry, &[], 0, &facts).kind.is_entry
    };
    let states: Vec<u32> = (0..1 << STATEMENTS.len()).filter(holds).collect();
    let (all, any) = states.iter().fold((!0, 0), |(all, any), state| (all & state, any | state));
    let mut said = vec![];
    for (at, (holding, failing, _)) in STATEMENTS.iter().enumerate() {
        match (all >> at & 1, any >> at & 1) {
            (1, 1) => said.push(*holding),
            (0, 0) => said.push(*failing),
            _ => {}
        }
    }
    assert!(!said.is_empty(), "the fact {bit:#x} asks for nothing that is known here");
    assert_eq!(states.len() << said.len(), 1 << STATEMENTS.len(), "{bit:#x} asks for more");
    said
}

/// The same, found once.
fn said_of(bit: u32) -> &'static [&'static str] {
    static SAID: [OnceLock<Vec<&str>>; 32] = [const { OnceLock::new() }; 32];
    SAID[bit.trailing_zeros() as usize].get_or_init(|| has_pattern(bit))
}

// ---- Conditions, instructions and entries.

/// `from..past`, in hexadecimal.
fn range(from: i64, past: i64) -> String {
    let sign = |number: i64| if number < 0 { "-" } else { "" };
    format!("{}{:#x}..{}{:#x}", sign(from), from.unsigned_abs(), sign(past), past.unsigned_abs())
}

fn value<R: Copy + Debug>(condition: &ValueCondition<R>) -> (String, Option<R>) {
    let (name, held, back, may_be_unknown) = match *condition {
        ValueCondition::Low12 => return ("S + A in 12 bits".into(), None),
        ValueCondition::InReach(name, back) => (name, "in reach".into(), back, false),
        ValueCondition::InReachIfKnown(name, back) => (name, "in reach".into(), back, true),
        ValueCondition::Within(name, (from, past), back) => {
            (name, format!("in {}", range(from, past)), back, false)
        }
        ValueCondition::WithinIfKnown(name, (from, past), back) => {
            (name, format!("in {}", range(from, past)), back, true)
        }
    };
    let place = if back == 0 { String::new() } else { format!(" at -{back}") };
    let known = if may_be_unknown { " if known" } else { "" };
    (format!("`{name:?}`{place} {held}{known}"), Some(name))
}

/// The instructions that an entry is for. None are named where they are those of its rewrite.
fn instructions(architecture: Architecture, originals: &str) -> String {
    let (name, numbers) = originals.split_once('(').unwrap_or((originals, ""));
    let numbers: Vec<usize> = numbers
        .split([',', ')'])
        .filter_map(|number| number.trim().parse().ok())
        .collect();
    match (architecture, name, &numbers[..]) {
        (_, "OfRewrite", []) => String::new(),
        (Architecture::AArch64, "AdrpOfPair", []) => "`adrp xN` before `ldr xN, [xN]`".into(),
        (Architecture::AArch64, "LdrOfPair", []) => "`ldr xN, [xN]` after `adrp xN`".into(),
        (Architecture::AArch64, "OfDescriptor", [at]) => {
            format!("`{}` of a TLS descriptor's sequence", ["adrp", "ldr", "add", "blr"][at / 4])
        }
        (Architecture::AArch64, "Bl", []) => "`bl`".into(),
        (Architecture::AArch64, "B", []) => "`b`".into(),
        (Architecture::RiscV, "Lui", []) => "`lui`".into(),
        (Architecture::RiscV, "AddTp", []) => "`add rd, rs1, tp`".into(),
        (Architecture::RiscV, "Auipc", []) => "`auipc`".into(),
        (Architecture::RiscV, "Ld", []) => "`ld`".into(),
        (Architecture::RiscV, "AddiToA0", []) => "`addi a0, rs1`".into(),
        (Architecture::RiscV | Architecture::LoongArch64, "LowOverOther", []) => {
            "any but an integer store of its own base".into()
        }
        (Architecture::LoongArch64, "Load", []) => "`pcalau12i rd` before `ld.d rd, rd`".into(),
        (Architecture::LoongArch64, "LowOfLoad", []) => "`ld.d rd, rd` after `pcalau12i rd`".into(),
        (Architecture::LoongArch64, "Sum", []) => "`pcalau12i rd` before `addi.d rd, rd`".into(),
        (Architecture::LoongArch64, "LowOfSum", []) => "`addi.d rd, rd` after `pcalau12i rd`".into(),
        (Architecture::LoongArch64, "Pcalau12i", []) => "`pcalau12i`".into(),
        (Architecture::LoongArch64, "Ld", []) => "`ld.d`".into(),
        (Architecture::LoongArch64, "PageOfDescriptor", []) => "`pcalau12i a0`".into(),
        (Architecture::LoongArch64, "LowOfDescriptor", []) => "`addi.d a0, a0`".into(),
        (Architecture::LoongArch64, "LoadOfDescriptor", []) => "`ld.d ra, a0, 0`".into(),
        (Architecture::LoongArch64, "CallOfDescriptor", []) => "`jirl ra, ra, 0`".into(),
        (Architecture::LoongArch64, "Lu12i", []) => "`lu12i.w`".into(),
        (Architecture::LoongArch64, "AddTp", []) => "`add.d rd, rj, tp`".into(),
        // the opcode has a column of its own
        (Architecture::X86_64, "Legacy", [n, _]) => {
            format!("an operand relative to `rip`, and {n} bytes before the field")
        }
        (Architecture::X86_64, "LeaOfDescriptor", [n]) => {
            format!("`lea` with {n} bytes before the field")
        }
        _ => panic!("{architecture:?} has instructions that are not known here: {originals}"),
    }
}

/// What a rewrite does to bytes and other relocations: those that it writes, those that are deleted
/// after it, and the relocations, each counted from the rewrite's offset.
fn effects(architecture: Architecture, kind: Relaxation) -> [String; 3] {
    let window = kind.window();
    let written = match window.len {
        0 => String::new(),
        len => format!("{}..{}", -(window.back as i64), len as i64 - window.back as i64),
    };
    let deleted = match kind.deleted() {
        Some(bytes) => format!("{}..{}", bytes.start, bytes.start + u64::from(bytes.count)),
        None => String::new(),
    };
    let mut others = vec![];
    if let Some(other) = kind.other_relocation() {
        let name = architecture.name(other.relocation).expect("a relocation has a name");
        others.push(format!("that at {} becomes `{name}`", other.offset));
    }
    if let Some(offset) = kind.skipped_offset() {
        others.push(format!("the next, at {offset}, is skipped"));
    }
    [written, deleted, others.join(", ")]
}

/// The words of an entry after its relocation and the opcodes, and the relocations of its
/// conditions.
fn describe<O: Debug, K: Copy + Debug, R: Copy + Debug>(
    architecture: Architecture,
    entry: &ChoiceEntry<O, K, R>,
    kind: impl Fn(K) -> Relaxation,
) -> (String, Vec<R>) {
    let (number, n) = kind(entry.kind).number();
    let mut words = vec![
        instructions(architecture, &format!("{:?}", entry.originals)),
        format!("{:?}", entry.kind),
        number.to_string(),
        n.to_string(),
        format!("{:?}", entry.relocation),
    ];
    words.extend(effects(architecture, kind(entry.kind)));
    let conditions = &entry.conditions;
    let bits = (0..u32::BITS).map(|at| 1 << at).filter(|bit| conditions.facts & bit != 0);
    words.extend(bits.flat_map(said_of).map(|said| said.to_string()));
    words.extend(conditions.addend.map(|addend| format!("addend {addend}")));
    let listed = match &conditions.values {
        ValueConditions::None => vec![],
        ValueConditions::One(one) => vec![one],
        ValueConditions::Both(one, other) => vec![one, other],
    };
    let (values, names): (Vec<_>, Vec<_>) = listed.into_iter().map(value).unzip();
    words.extend(values);
    (words.join("\t"), names.into_iter().flatten().collect())
}

/// Prints what is known of an architecture.
fn list<O: Debug + 'static, K: Copy + Debug + 'static, R: Copy + Debug + Into<u32> + 'static>(
    architecture: Architecture,
    names: &[R],
    entries: impl Fn(R, u8) -> &'static [ChoiceEntry<O, K, R>],
    kind: impl Fn(K) -> Relaxation,
) -> Architecture {
    println!("architecture\t{architecture:?}");
    let mut values = BTreeMap::new();
    for &name in names {
        // the tables, each with its opcodes
        let mut tables: Vec<(Vec<String>, Vec<u8>)> = vec![];
        for opcode in 0..=u8::MAX {
            let mut lines = vec![];
            for entry in entries(name, opcode) {
                let (line, named) = describe(architecture, entry, &kind);
                lines.push(line);
                values.extend(named.into_iter().map(|name| (name.into(), name)));
            }
            match tables.iter_mut().find(|(others, _)| *others == lines) {
                Some((_, opcodes)) => opcodes.push(opcode),
                None => tables.push((lines, vec![opcode])),
            }
        }
        for (lines, opcodes) in tables {
            let listed: Vec<_> = match opcodes.len() {
                256 => vec![],
                _ => opcodes.iter().map(|opcode| format!("{opcode:#04x}")).collect(),
            };
            for line in lines {
                println!("entry\t{name:?}\t{}\t{line}", listed.join(" "));
            }
        }
    }
    for (r_type, name) in values {
        let row = architecture.row(r_type).expect("a relocation of a condition has a row");
        let info = row.info();
        let biased = info.bias.map_or(String::new(), |bias| format!(" + {:#x}", bias.value()));
        let pages = if info.mask.is_some() { ", of pages" } else { "" };
        let reach = row.reach().bounds.map_or(String::new(), |(from, past)| range(from, past));
        println!("value\t{name:?}\t`{:?}`{biased}{pages}\t{reach}\t{}", info.kind, info.alignment);
    }
    architecture
}

fn main() {
    let listed = [
        list(
            Architecture::AArch64,
            AArch64Relocation::ALL,
            |name, _| aarch64::RewriteKind::entries(name, &[], 0),
            Relaxation::AArch64,
        ),
        list(
            Architecture::RiscV,
            RiscVRelocation::ALL,
            |name, _| riscv64::RewriteKind::entries(name, &[], 0),
            Relaxation::RiscV,
        ),
        list(
            Architecture::LoongArch64,
            LoongArch64Relocation::ALL,
            |name, _| loongarch64::RewriteKind::entries(name, &[], 0),
            Relaxation::LoongArch64,
        ),
        list(
            Architecture::Ppc64,
            Ppc64Relocation::ALL,
            |name, _| ppc64::RewriteKind::entries(name, &[], 0),
            Relaxation::Ppc64,
        ),
        list(
            Architecture::X86_64,
            X86_64Relocation::ALL,
            |name, opcode| x86_64::RewriteKind::entries(name, &[opcode, 0], 2),
            Relaxation::X86_64,
        ),
    ];
    let known = (0..=u16::MAX).filter_map(Architecture::from_machine);
    assert!(known.into_iter().all(|architecture| listed.contains(&architecture)));
}
