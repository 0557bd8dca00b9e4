// SPDX-License-Identifier: MIT OR Apache-2.0
//! Calls by structs: with damaged sections and with tables that are too short they do what the
//! functions do that they are inlined over, and with an error the section is as before.

use linker_utils::elf::{Architecture, LinkFacts, Operands};
use linker_utils::output::Origins;
use linker_utils::recognise::{self, FieldBits, Windows};
use linker_utils::rewriting::{
    self, DecisionNumbers, Deletion, FactsSnapshot, Phase, SymbolFacts, UnrelaxableGroups, Words,
};
use linker_utils::runs::{self, Alignment, Item, ItemNumbers, Machine, Relocation, Run, relax};
use linker_utils::section::{self, Addresses, Link, Object, Section, Symbol, memory_len};
use linker_utils::source;
use linker_utils::source::rewriting::{OutputFacts, RelaxContext};
use std::fmt::Debug;

struct Random(u64);

impl Random {
    fn below(&mut self, limit: u64) -> u64 {
        self.0 =
            self.0.wrapping_mul(6_364_136_223_846_793_005).wrapping_add(1_442_695_040_888_963_407);
        (self.0 >> 33) % limit
    }

    fn is_one_of(&mut self, count: u64) -> bool {
        self.below(count) == 0
    }
}

/// Code, and the offset, the type and the addend of its relocations: a call by the GOT, a load and a
/// page of it, an address near the global pointer, one in the GOT, and a load from the TOC.
type Code = (&'static [u8], &'static [(u64, u32, i64)]);

fn code_of(architecture: Architecture) -> Code {
    match architecture {
        Architecture::X86_64 => (&[0xff, 0x15, 0, 0, 0, 0], &[(2, 41, -4)]),
        Architecture::AArch64 => (&[0, 0, 0, 0x90, 0, 0, 0, 0x91], &[(0, 275, 0), (4, 277, 0)]),
        Architecture::RiscV => (
            &[0x37, 5, 0, 0, 3, 0x25, 5, 0, 0x97, 0, 0, 0, 0xe7, 0x80, 0, 0],
            &[(0, 26, 0), (0, 51, 0), (4, 27, 0), (4, 51, 0), (8, 19, 0), (8, 51, 0)],
        ),
        Architecture::LoongArch64 => (
            &[4, 0, 0, 0x1a, 0x84, 0, 0xc0, 0x28, 4, 0, 0, 0x1a, 0x84, 0, 0xc0, 2],
            &[
                (0, 75, 0),
                (0, 100, 0),
                (4, 76, 0),
                (4, 100, 0),
                (8, 71, 0),
                (8, 100, 0),
                (12, 72, 0),
                (12, 100, 0),
            ],
        ),
        _ => (&[0, 0, 0x62, 0x3c, 0, 0, 0x63, 0xe8], &[(0, 50, 0), (4, 64, 0)]),
    }
}

/// What calls write.
#[derive(Debug, Clone, PartialEq)]
struct Written {
    bytes: Vec<u8>,
    relocations: Vec<u8>,
    decisions: Vec<DecisionNumbers>,
    deleted: Vec<Deletion>,
    groups: Vec<UnrelaxableGroups>,
    flags: Vec<bool>,
    facts: Vec<FactsSnapshot>,
    items: Vec<ItemNumbers>,
    makers: Vec<usize>,
    packed: Vec<u8>,
}

/// Whether both calls succeed; they have to return and write the same, and nothing with an error.
#[track_caller]
fn is_same<T: Debug, E: Debug, U: Debug>(
    before: &Written,
    by_structs: impl FnOnce(&mut Written) -> Result<T, E>,
    by_parameters: impl FnOnce(&mut Written) -> Result<T, U>,
) -> bool {
    let (mut left, mut right) = (before.clone(), before.clone());
    let (made, wanted) = (by_structs(&mut left), by_parameters(&mut right));
    assert_eq!(format!("{made:?}"), format!("{wanted:?}"));
    assert_eq!(left, right);
    let is_as_before = left.bytes == before.bytes && left.relocations == before.relocations;
    assert!(made.is_ok() || is_as_before);
    made.is_ok() && left != *before
}

/// Random lengths of tables, of which most are as long as the symbols are many.
fn table<T>(random: &mut Random, mut element: impl FnMut(&mut Random) -> T) -> Vec<T> {
    let len = if random.is_one_of(4) { random.below(4) } else { 4 };
    (0..len).map(|_| element(random)).collect()
}

/// One round; counts for each call how often it wrote.
fn compare(architecture: Architecture, random: &mut Random, counts: &mut [usize; 14]) {
    let (code, entries) = code_of(architecture);
    let is_damaged = random.is_one_of(2);
    let mut bytes = code.repeat(2);
    let mut relocations = Vec::new();
    for index in 0..2 {
        for &(offset, code_there, addend) in entries {
            let offset = offset + index * code.len() as u64;
            let symbol = if code_there == 51 || code_there == 100 { 0 } else { 1 + random.below(2) };
            relocations.extend(offset.to_le_bytes());
            relocations.extend((symbol << 32 | u64::from(code_there)).to_le_bytes());
            relocations.extend(addend.to_le_bytes());
        }
    }
    if is_damaged {
        for _ in 0..random.below(3) {
            let at = random.below(bytes.len() as u64) as usize;
            bytes[at] ^= 1 << random.below(8);
        }
        for _ in 0..random.below(4) {
            let at = random.below(relocations.len() as u64) as usize;
            relocations[at] ^= 1 << random.below(8);
        }
        bytes.truncate(bytes.len() - random.below(3) as usize);
        relocations.truncate(relocations.len() - random.below(30) as usize);
    }
    let count = relocations.len() / 24;
    let link = Link {
        is_executable: !random.is_one_of(8),
        is_fixed: !random.is_one_of(4),
        has_near_symbols: !random.is_one_of(4),
        got_base: 0x1_8000,
        origins: (!random.is_one_of(4))
            .then_some(Origins { thread_pointer: 0x3_0010, module_block: 0x3_0000 }),
        module_entry: (!random.is_one_of(4)).then_some(0x1_8010),
        global_pointer: 0x1_2800,
        ..Link::new(architecture)
    };
    let facts = table(random, |random| SymbolFacts {
        is_local: !random.is_one_of(8),
        is_ifunc: random.is_one_of(16),
        ..SymbolFacts::default()
    });
    let values = table(random, |random| Symbol {
        // near, or near the end of what `adr` reaches
        address: if random.is_one_of(8) { 0x11_0000 } else { 0x1_2000 } + 4 * random.below(0x400),
        address_entry: 0x1_8020,
        ..Symbol::default()
    });
    let groups = table(random, |random| UnrelaxableGroups {
        got_load: random.is_one_of(8),
        ..UnrelaxableGroups::default()
    });
    let high_parts = table(random, |random| random.is_one_of(8));
    let mut facts_snapshot = vec![FactsSnapshot::default(); facts.len()];
    rewriting::snapshot_facts(&link, &Object { facts: &facts, ..Object::default() }, &mut facts_snapshot);
    if random.is_one_of(4) {
        facts_snapshot.pop();
    }
    let object = Object {
        facts: &facts,
        values: &values,
        unrelaxable_groups: &groups,
        facts_snapshot: &facts_snapshot,
        kept_high_parts: &high_parts,
    };
    let (address, base) = (0x1_0000 + 4 * random.below(0x100), 0x100 + random.below(8));
    // a word of symbol 2, at the address of symbol 1
    let words = Words {
        address: values.get(1).map_or(0, |it| it.address),
        relocations: &[[0; 8], (2u64 << 32 | 38).to_le_bytes(), [0; 8]].concat(),
        kept: &[random.is_one_of(8)],
    };
    let phase = [Phase::TlsLocalExec, Phase::GotToPcRel, Phase::ShortPcRel][random.below(3) as usize];

    // the same, with a parameter for each fact
    let output = OutputFacts {
        is_executable: link.is_executable,
        is_fixed: link.is_fixed,
        has_near_symbols: link.has_near_symbols,
    };
    let addresses = Addresses {
        section: address,
        got_base: 0x1_8000,
        thread_origin: if link.origins.is_some() { 0x3_0010 } else { 0 },
        module_origin: if link.origins.is_some() { 0x3_0000 } else { 0 },
        module_entry: if link.module_entry.is_some() { 0x1_8010 } else { 0 },
        has_tls: link.origins.is_some(),
    };
    assert_eq!(link.addresses(address), addresses);
    let (a, o, at, gp) = (architecture, &output, &addresses, 0x1_2800);
    let room = if random.is_one_of(4) { random.below(3) as usize } else { count };
    let mut before = Written {
        bytes,
        relocations,
        decisions: vec![DecisionNumbers::default(); room],
        deleted: vec![Deletion::default(); if random.is_one_of(4) { 0 } else { count }],
        groups: groups.clone(),
        flags: high_parts.clone(),
        facts: vec![FactsSnapshot::default(); facts.len()],
        items: Vec::new(),
        makers: Vec::new(),
        packed: Vec::new(),
    };
    fn of(it: &mut Written, address: u64, base: u64) -> Section<&mut Vec<u8>, &mut Vec<u8>> {
        Section { address, base, ..Section::new(&mut it.bytes, &mut it.relocations) }
    }
    let mut memory = vec![0; memory_len(&before.relocations)];
    let mut other = memory.clone();

    // of a call: its place in `counts`, what it borrows of `Written`, and both ways to call it
    macro_rules! same {
        ($index:literal, $it:ident, [$($written:ident),*] $by_structs:expr, $by_parameters:expr) => {
            counts[$index] += usize::from(is_same(
                &before,
                |$it: &mut Written| {
                    $(let mut $written = std::mem::take(&mut $it.$written);)*
                    let made = $by_structs;
                    $($it.$written = $written;)*
                    made
                },
                |$it: &mut Written| $by_parameters,
            ))
        };
    }
    use source::rewriting as long;
    let in_phase = |phase| RelaxContext {
        architecture: a,
        phase,
        output: o,
        symbols: &facts,
        addresses: at,
        values: &values,
    };
    let section = |it: &Written| {
        let (bytes, relocations) = (it.bytes.clone(), it.relocations.clone());
        Section { bytes, relocations, address, base }
    };
    same!(0, it, [groups] {
        rewriting::survey(&link, &object, &section(it), &mut groups);
        Ok::<(), ()>(())
    }, {
        long::survey(a, o, &facts, &it.relocations, &it.bytes, &mut it.groups);
        Ok::<(), ()>(())
    });
    same!(1, it, [groups] {
        rewriting::survey_placed_section(&link, &object, &section(it), phase, &mut groups)
    }, {
        let Written { bytes, relocations, groups, .. } = it;
        long::survey_placed_section(&in_phase(phase), relocations, bytes, groups)
    });
    same!(2, it, [flags] {
        rewriting::survey_toc_loads(&link, &object, &section(it), &words, &mut flags)
    }, {
        let Written { bytes, relocations, flags, .. } = it;
        let Words { address, relocations: words, .. } = words;
        let context = in_phase(Phase::ShortPcRel);
        long::survey_toc_loads(&context, address, words, relocations, bytes, flags)
    });
    same!(3, it, [flags] {
        rewriting::survey_global_pointer(&link, &object, &section(it), &mut flags)
    }, {
        let Written { bytes, relocations, flags, .. } = it;
        long::survey_global_pointer(&in_phase(phase), gp, relocations, bytes, flags)
    });
    same!(4, it, [decisions] {
        rewriting::rewrite_section(&link, &object, &mut of(it, address, base), &mut decisions)
    }, {
        let Written { bytes, relocations, decisions, .. } = it;
        long::rewrite_section(a, o, &facts, &groups, relocations, bytes, decisions)
    });
    same!(5, it, [decisions, deleted] {
        let (made, gone) = (&mut decisions, &mut deleted);
        let mut section = of(it, address, base);
        rewriting::rewrite_placed_section(&link, &object, &mut section, phase, made, gone)
    }, {
        let Written { bytes, relocations, decisions: made, deleted: gone, .. } = it;
        long::rewrite_placed_section(&in_phase(phase), &groups, relocations, bytes, made, gone)
    });
    same!(6, it, [decisions] {
        let mut section = of(it, address, base);
        rewriting::rewrite_toc_loads(&link, &object, &mut section, &words, &mut decisions)
    }, {
        let Written { bytes, relocations, decisions: made, .. } = it;
        let Words { address, relocations: words, kept } = words;
        let context = in_phase(Phase::ShortPcRel);
        long::rewrite_toc_loads(&context, address, words, kept, relocations, bytes, made)
    });
    same!(7, it, [decisions, deleted] {
        let (made, gone) = (&mut decisions, &mut deleted);
        let mut section = of(it, address, base);
        rewriting::rewrite_global_pointer(&link, &object, &mut section, made, gone)
            .map(|count| (count, rewriting::finish_gp_relaxation(&link, &object, &mut section)))
    }, {
        let Written { bytes, relocations, decisions: made, deleted: gone, .. } = it;
        let context = in_phase(phase);
        long::rewrite_global_pointer(&context, gp, &high_parts, relocations, bytes, made, gone)
            .map(|count| (count, long::finish_gp_relaxation(at, &values, gp, relocations, bytes)))
    });
    same!(8, it, [] {
        section::relocate_section(&link, &object, &mut of(it, address, base), &mut memory)
            .map_err(|it| (it.index, it.error))
    }, {
        let Written { bytes, relocations, .. } = it;
        source::section::relocate_section(a, at, relocations, &values, bytes, &mut other)
            .map_err(|it| (it.index, it.error))
    });
    same!(9, it, [] {
        use rewriting::WritingError::Section;
        let mut section = of(it, address, base);
        rewriting::relocate_rewritten_section(&link, &object, &mut section, &mut memory)
            .map_err(|error| match error {
                Section(it) => format!("{} {:?}", it.index, it.error),
                other => format!("{other:?}"),
            })
    }, {
        let Written { bytes, relocations, .. } = it;
        let (context, kept) = (in_phase(Phase::PreLayout), &facts_snapshot);
        long::relocate_rewritten_section(&context, kept, relocations, bytes, &mut other).map_err(
            |error| match error {
                long::WritingError::Section(it) => format!("{} {:?}", it.index, it.error),
                other => format!("{other:?}"),
            },
        )
    });
    same!(10, it, [facts] {
        rewriting::snapshot_facts(&link, &object, &mut facts);
        Ok::<(), ()>(())
    }, {
        long::snapshot_facts(o, &facts, &mut it.facts);
        Ok::<(), ()>(())
    });

    // the calls of a run, and what they become
    let Some(machine) = Machine::of(architecture) else { return };
    let listed = section::relocations(&before.relocations).map(|it| {
        // near, or out of reach of `pcaddi`
        let target = base + u64::from(it.symbol % 2) * 0x40_0000;
        Relocation::new(it, (it.symbol != 0).then_some(target), true)
    });
    let listed: Vec<_> = listed.collect();
    let none = Alignment { offset: 0, nops: 0, alignment: 1, max_skip: None };
    let none = ItemNumbers::from_item(Item::Aligned(none));
    let gone = [(random.below(20), 4)];
    let len = listed.len() + gone.len();
    (before.items, before.makers) = (vec![none; len], vec![0; len]);
    same!(11, it, [items, makers] {
        runs::rewritten_items_into(machine, &section(it), &listed, &gone, &mut items, &mut makers)
            .map_err(|error| format!("{error:?}"))
    }, {
        let Written { bytes, items, makers, .. } = it;
        source::runs::rewritten_items_into(machine, bytes, base, &listed, &gone, items, makers)
            .map_err(|error| format!("{error:?}"))
    });
    (before.items, before.makers) = (vec![none; len - 1], vec![0; len - 1]);
    same!(12, it, [items, makers] {
        runs::section_items_into(machine, &section(it), &listed, &mut items, &mut makers)
    }, {
        let Written { bytes, items, makers, .. } = it;
        source::runs::section_items_into(machine, bytes, base, &listed, items, makers)
    });
    let Ok(made) = runs::section_items(machine, &section(&before), &listed) else { return };
    let start = address - base;
    if !runs::are_items(&made.items, start) {
        return;
    }
    let plan = relax(&made.items, start).expect("memory");
    let deltas = plan.deletions.deltas();
    let len = runs::packed_run_len(base, before.bytes.len(), deltas);
    before.packed = vec![0; len];
    // the last item may be missing
    let items = &made.items[..made.items.len().saturating_sub(random.below(2) as usize)];
    same!(13, it, [packed] {
        let mut section = of(it, address, base);
        runs::pack_run(machine, &mut section, &Run { start, items, deltas }, &mut packed)
    }, {
        let Written { bytes, relocations, packed, .. } = it;
        source::runs::pack_run(machine, bytes, base, items, deltas, start, relocations, packed)
    });
    let run = Run { start, items, deltas };
    let mut section = Section { base, ..Section::new(before.bytes, before.relocations) };
    let packed = run.pack(machine, section.clone(), before.packed.clone());
    let written = runs::pack_run(machine, &mut section, &run, &mut before.packed);
    let address = start + plan.deletions.input_to_output_offset(base);
    let same = |()| Section { address, ..Section::new(before.packed, section.relocations) };
    assert_eq!(packed, written.map(same));
}

#[test]
fn calls_by_structs_do_what_those_by_parameters_do() {
    let (mut random, mut counts) = (Random(1), [0; 14]);
    for &architecture in Architecture::ALL {
        for _ in 0..4000 {
            compare(architecture, &mut random, &mut counts);
        }
    }
    // each has to have written something, or this tests nothing
    assert!(counts.iter().all(|&count| count > 0), "{counts:?}");
}

#[test]
fn empty_tables_are_no_error_but_of_symbols() {
    for &architecture in Architecture::ALL {
        let (link, object) = (Link::new(architecture), Object::default());
        let mut none = Section::new([], []);
        rewriting::survey(&link, &object, &none, &mut []);
        let decisions: &mut [DecisionNumbers] = &mut [];
        assert_eq!(rewriting::rewrite_section(&link, &object, &mut none, decisions), Ok(()));
        assert_eq!(section::relocate_section(&link, &object, &mut none, &mut []), Ok(()));
        assert_eq!(rewriting::first_changed(&link, &object, &none), None);
        let words = Words::default();
        assert_eq!(rewriting::survey_toc_loads(&link, &object, &none, &words, &mut []), Ok(()));

        // a relocation of a symbol that isn't in the tables
        let (code, entries) = code_of(architecture);
        let mut relocation = [[0; 8], [0; 8], [0; 8]];
        relocation[1] = (7u64 << 32 | u64::from(entries[0].1)).to_le_bytes();
        let relocations = relocation.as_flattened();
        let mut section = Section::new(code.to_vec(), relocations);
        let error = section::relocate_section(&link, &object, &mut section, &mut [0]).unwrap_err();
        let cause = section::RelocationError::Value(section::ValueError::NoSymbol);
        assert_eq!((error.index, error.error, error.rejected), (0, cause, None));
        let memory = &mut [0];
        let made = rewriting::relocate_rewritten_section(&link, &object, &mut section, memory);
        assert_eq!(made, Err(rewriting::WritingError::Section(error)));
        assert_eq!(section.bytes, code);
    }
}

#[test]
fn windows_are_passed_in_their_order() {
    // mov x@GOTPCREL(%rip), %rdi, with R_X86_64_REX_GOTPCRELX, became lea x(%rip), %rdi, and the
    // byte after it is another relocation's
    let original = &[0x48, 0x8b, 0x3d, 0, 0, 0, 0, 0];
    let linked = &[0x48, 0x8d, 0x3d, 0x10, 0x20, 0, 0, 1];
    let (of, code, others) = (Architecture::X86_64, 42, &[FieldBits { offset: 7, bits: 0xff }]);
    let windows = Windows { original, offset: 3, others, linked };
    let found = recognise::architecture::recognise(of, code, &windows);
    assert_eq!(
        found,
        source::recognise::architecture::recognise(of, code, original, 3, others, linked)
    );
    assert_eq!(found.iter().flatten().next().unwrap().value.unwrap().number(), Some(0x2010));
    for is_local in [false, true] {
        let facts = LinkFacts {
            is_local,
            is_pcrel_link_time_constant: true,
            is_executable: true,
            has_addresses: true,
            operands: Operands::new(0x404010, -4, 0x401003),
            ..LinkFacts::default()
        };
        let made = recognise::architecture::recognise_chosen(of, code, &windows, &facts);
        assert_eq!(made.is_some(), is_local);
        let name = linker_utils::x86_64::X86_64Relocation::R_X86_64_REX_GOTPCRELX;
        assert_eq!(recognise::recognise_chosen(name, &windows, &facts).is_some(), is_local);
    }
    let name = linker_utils::x86_64::X86_64Relocation::R_X86_64_REX_GOTPCRELX;
    assert_eq!(recognise::recognise(name, &windows)[0].is_some(), found[0].is_some());
    let alone = Windows { others: &[], ..windows };
    assert_eq!(recognise::architecture::recognise(of, code, &alone), [None; 6]);
}

#[test]
fn values_out_of_reach_are_told() {
    // bl, of R_AARCH64_CALL26, which reaches 128 MiB: from -2^27 to 2^27 - 4 (AAELF64)
    let link = Link::new(Architecture::AArch64);
    let relocations = [[0; 8], (1u64 << 32 | 283).to_le_bytes(), [0; 8]].concat();
    for (address, told) in [
        (0x800_1000, Some((0x800_0000, -0x800_0000))),
        (0x1002, Some((2, -0x800_0000))),
        (0x800_0ffc, None),
    ] {
        let values = [Symbol::default(), Symbol { address, ..Symbol::default() }];
        let object = Object { values: &values, ..Object::default() };
        let section = Section::new([0, 0, 0, 0x94], &relocations);
        let mut section = Section { address: 0x1000, ..section };
        let made = section::relocate_section(&link, &object, &mut section, &mut [0]);
        let rejected = made.err().map(|error| error.rejected.unwrap());
        assert_eq!(rejected.map(|it| (it.value, it.least)), told);
        assert!(rejected.is_none_or(|it| it.alignment == 4 && it.greatest >> 2 == 0x1ff_ffff));
    }
}
