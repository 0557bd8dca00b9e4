// SPDX-License-Identifier: MIT OR Apache-2.0
//! Sections that phases of rewriting left shorter, as linkers pack them.

use super::aligned;
use linker_utils::elf::Architecture;
use linker_utils::output::Origins;
use linker_utils::relaxation::DeltaSlice;
use linker_utils::rewriting::{
    DecisionNumbers, Deletion, Phase, SymbolFacts, UnrelaxableGroups, rewrite_placed_section,
    survey_placed_section,
};
use linker_utils::runs::Isa;
use linker_utils::runs::Machine::{self, LoongArch64};
use linker_utils::runs::shapes::fixed;
use linker_utils::runs::{
    Fault, Item, ItemFault, ItemNumbers, Relocation, RewrittenItemsError, Run, Site,
};
use linker_utils::runs::{first_faulty, pack_run, packed_run_len, relax, rewritten_items_into};
use linker_utils::section::{Link, Object, Section, Symbol};
use linker_utils::section::{memory_len, relocate_section, relocations};

/// RV64.
const RISCV64: Machine = Machine::RiscV(Isa::Rv64);

/// Where the section begins in its run, and where the run does.
const BASE: u64 = 0x100;
const START: u64 = 0xff00;

/// A relocation: its offset, its type, its symbol and its addend.
type Entry = (u64, u32, u32, i64);

/// Symbol 1 is thread-local, at the thread pointer. Symbol 2 is `f`, symbol 3 the section's begin.
fn is_in_run(symbol: u32, f: u64) -> Option<u64> {
    match symbol {
        2 => Some(BASE + f),
        3 => Some(BASE),
        _ => None,
    }
}

type Bytes = Section<Vec<u8>, Vec<u8>>;

/// The bytes of a section of relocations.
fn table(entries: &[Entry]) -> Vec<u8> {
    let mut bytes = Vec::new();
    for &(offset, r_type, symbol, addend) in entries {
        bytes.extend(offset.to_le_bytes());
        bytes.extend((u64::from(r_type) | u64::from(symbol) << 32).to_le_bytes());
        bytes.extend(addend.to_le_bytes());
    }
    bytes
}

fn link(architecture: Architecture) -> Link {
    let origins = Some(Origins { thread_pointer: 0x20000, module_block: 0 });
    Link { is_executable: true, is_fixed: true, origins, ..Link::new(architecture) }
}

/// The section after `Phase::TlsLocalExec`, and what is deleted.
fn without_thread_offsets(
    architecture: Architecture,
    section: &[u8],
    entries: &[Entry],
) -> (Bytes, Vec<Deletion>) {
    let link = link(architecture);
    let object = Object {
        facts: &[SymbolFacts { is_local: true, ..SymbolFacts::default() }; 4],
        values: &[Symbol { address: 0x20000, is_thread_local: true, ..Symbol::default() }; 4],
        ..Object::default()
    };
    let mut section = Section {
        bytes: section.to_vec(),
        relocations: table(entries),
        address: START + BASE,
        base: BASE,
    };
    let mut kept = [UnrelaxableGroups::default(); 4];
    let phase = Phase::TlsLocalExec;
    survey_placed_section(&link, &object, &section, phase, &mut kept).expect("tables that agree");
    let object = Object { unrelaxable_groups: &kept, ..object };
    let mut decisions = vec![DecisionNumbers::default(); entries.len()];
    let mut deleted = vec![Deletion::default(); entries.len()];
    let (made, listed) = (&mut decisions, &mut deleted);
    let count = rewrite_placed_section(&link, &object, &mut section, phase, made, listed);
    deleted.truncate(count.unwrap());
    (section, deleted)
}

/// Requires that a section is rewritten, relaxed and packed so, and that its relocations with a value
/// are then at these offsets, with these types. `f` is where symbol 2 is in it.
fn expect(
    machine: Machine,
    architecture: Architecture,
    section: &[u8],
    entries: &[Entry],
    f: u64,
    expected: &[u8],
    types: &[(u64, u32)],
) {
    let (mut section, deleted) = without_thread_offsets(architecture, section, entries);
    assert_eq!(deleted, [8, 12].map(|offset| Deletion { offset, bytes: 4 }));
    let listed: Vec<_> = relocations(&section.relocations)
        .map(|it| Relocation::new(it, is_in_run(it.symbol, f), true))
        .collect();
    let mut items = vec![aligned(0, 0, 1, None); listed.len() + 2];
    let mut makers = vec![0; listed.len() + 2];
    let (all, of) = (&mut items, &mut makers);
    let count = rewritten_items_into(machine, &section, &listed, &deleted, all, of).unwrap();
    items.truncate(count);
    for (item, &maker) in items.iter().zip(&makers) {
        let offset = listed.get(maker).map(|it| it.offset);
        let offset = offset.unwrap_or_else(|| deleted[maker - listed.len()].offset);
        assert_eq!(item.offset, BASE + offset);
    }
    assert_eq!(first_faulty(&items, START), None);
    let plan = relax(&items, START).unwrap();
    let deltas = plan.deletions.deltas();
    assert!(DeltaSlice::new(deltas).has_valid_deltas());
    let mut packed = vec![0xee; packed_run_len(BASE, section.bytes.len(), deltas)];
    let run = Run { start: START, items: &items, deltas };
    pack_run(machine, &mut section, &run, &mut packed).unwrap();
    assert_eq!(packed, expected);
    let is_mark = |r_type| r_type == 0 || r_type == 51 || r_type == 100; // `R_RISCV_RELAX`, `R_LARCH_RELAX`
    let left: Vec<_> = relocations(&section.relocations)
        .filter(|it| !is_mark(it.r_type))
        .map(|it| (it.offset, it.r_type))
        .collect();
    assert_eq!(left, types);
    // values leave these bytes, and follow a symbol that is elsewhere
    let mut symbols = [Symbol { address: 0x20000, is_thread_local: true, ..Symbol::default() }; 4];
    let f = START + DeltaSlice::new(deltas).input_to_output_offset(BASE + f);
    symbols[2] = Symbol { address: f, ..Symbol::default() };
    symbols[3] = Symbol { address: START + BASE, ..Symbol::default() };
    let mut memory = vec![0; memory_len(&section.relocations)];
    let mut write = |values: &[Symbol], packed: &mut [u8]| {
        let object = Object { values, ..Object::default() };
        let packed = Section::new(packed, &section.relocations);
        let mut packed = Section { address: START + BASE, ..packed };
        relocate_section(&link(architecture), &object, &mut packed, &mut memory)
    };
    assert_eq!(write(&symbols, &mut packed), Ok(()));
    assert_eq!(packed, expected);
    symbols[2].address += 0x400;
    assert_eq!(write(&symbols, &mut packed), Ok(()));
    assert_ne!(packed[..4], expected[..4]);
    assert_eq!(packed[4..8], expected[4..8]);
    symbols[2].address += 1 << 30;
    assert_eq!(write(&symbols, &mut packed).unwrap_err().index, 0);
}

/// `call f`, `lui a0, %tprel_hi(x)`, `add a0, a0, tp`, `lw a0, %tprel_lo(x)(a0)`, `call f`, the nops of
/// `.p2align 4`, and `f: tail _start`, `ret`, as clang 19 assembles them.
const RISC_V: [u8; 52] = [
    0x97, 0x00, 0x00, 0x00, 0xe7, 0x80, 0x00, 0x00, 0x37, 0x05, 0x00, 0x00, 0x33, 0x05, 0x45, 0x00,
    0x03, 0x25, 0x05, 0x00, 0x97, 0x00, 0x00, 0x00, 0xe7, 0x80, 0x00, 0x00, 0x01, 0x00, 0x13, 0x00,
    0x00, 0x00, 0x13, 0x00, 0x00, 0x00, 0x13, 0x00, 0x00, 0x00, 0x17, 0x03, 0x00, 0x00, 0x67, 0x00,
    0x03, 0x00, 0x82, 0x80,
];

const RISC_V_ENTRIES: [Entry; 13] = [
    (0, 19, 2, 0),
    (0, 51, 0, 0),
    (8, 29, 1, 0),
    (8, 51, 0, 0),
    (12, 32, 1, 0),
    (12, 51, 0, 0),
    (16, 30, 1, 0),
    (16, 51, 0, 0),
    (20, 19, 2, 0),
    (20, 51, 0, 0),
    (28, 43, 0, 14),
    (42, 19, 3, 0),
    (42, 51, 0, 0),
];

#[test]
fn riscv_sections_without_thread_offsets_are_packed_as_by_ld_lld() {
    // ld.lld 19, at 0x10000, and what it keeps with `--emit-relocs`: `R_RISCV_JAL`, `TPREL_LO12_I` and
    // `RVC_JUMP`
    let expected = [
        0xef, 0x00, 0x00, 0x01, 0x03, 0x25, 0x02, 0x00, 0xef, 0x00, 0x80, 0x00, 0x13, 0x00, 0x00,
        0x00, 0xc5, 0xbf, 0x82, 0x80,
    ];
    let types = [(0, 17), (4, 30), (8, 17), (16, 45)];
    expect(RISCV64, Architecture::RiscV, &RISC_V, &RISC_V_ENTRIES, 42, &expected, &types);
}

/// `call36 f`, `lu12i.w $a0, %le_hi20_r(x)`, `add.d $a0, $a0, $tp`, `ld.w $a0, $a0, %le_lo12_r(x)`,
/// `call36 f`, the nops of `.p2align 4`, and `f: la.pcrel $a0, f`, `ret`, as clang 19 assembles them.
const LOONGARCH: [u32; 14] = [
    0x1e000001, 0x4c000021, 0x14000004, 0x00108884, 0x28800084, 0x1e000001, 0x4c000021, 0x03400000,
    0x03400000, 0x03400000, 0x1a000004, 0x02c00084, 0x4c000020, 0x03400000,
];

#[test]
fn loongarch_sections_without_thread_offsets_are_packed() {
    let section: Vec<u8> = LOONGARCH[..13].iter().flat_map(|word| word.to_le_bytes()).collect();
    let relaxed = |offset, r_type, symbol| [(offset, r_type, symbol, 0), (offset, 100, 0, 0)];
    let entries = [
        relaxed(0, 110, 2),
        relaxed(8, 121, 1),
        relaxed(12, 122, 1),
        relaxed(16, 123, 1),
        relaxed(20, 110, 2),
        [(28, 102, 0, 12), (40, 0, 0, 0)],
        relaxed(40, 71, 2),
        relaxed(44, 72, 2),
    ]
    .concat();
    // `bl f`, `ld.w $a0, $tp, 0`, `bl f`, `nop`, `f: pcaddi $a0, 0`, `ret`, as clang 19 assembles them
    let expected = [
        0x00, 0x10, 0x00, 0x54, 0x44, 0x00, 0x80, 0x28, 0x00, 0x08, 0x00, 0x54, 0x00, 0x00, 0x40,
        0x03, 0x04, 0x00, 0x00, 0x18, 0x20, 0x00, 0x00, 0x4c,
    ];
    // `R_LARCH_B26`, `TLS_LE_LO12_R` and `PCREL20_S2`
    let types = [(0, 66), (4, 123), (8, 66), (16, 103)];
    expect(LoongArch64, Architecture::LoongArch64, &section, &entries, 40, &expected, &types);
}

fn relocation(offset: u64, r_type: u32, addend: i64, target: Option<u64>) -> Relocation {
    Relocation { offset, r_type, has_symbol: false, addend, target, may_compress: true }
}

/// The items of the RISC-V section with such deletions, and their makers.
fn items_without(
    relocations: &[Relocation],
    deleted: &[(u64, u32)],
) -> Result<(Vec<ItemNumbers>, Vec<usize>), RewrittenItemsError> {
    let room = relocations.len() + deleted.len();
    let (mut items, mut makers) = (vec![aligned(0, 0, 1, None); room], vec![usize::MAX; room]);
    let section = Section { base: BASE, ..Section::new(&RISC_V, []) };
    let (listed, of) = (&mut items, &mut makers);
    let count = rewritten_items_into(RISCV64, &section, relocations, deleted, listed, of)?;
    assert!(makers[count..].iter().all(|&maker| maker == usize::MAX));
    items.truncate(count);
    makers.truncate(count);
    Ok((items, makers))
}

fn gone(offset: u64, len: u32) -> ItemNumbers {
    let offset = BASE + offset;
    ItemNumbers::from_item(Item::Site(Site { offset, len, target: offset, shapes: fixed(0) }))
}

#[test]
fn deletions_stand_where_they_are() {
    let relocations = [
        relocation(0, 19, 0, Some(BASE)),
        relocation(0, 51, 0, None),
        relocation(28, 43, 14, None),
    ];
    let deleted = [(8, 4), (12, 4), (16, 0), (27, 1), (42, 10)];
    let (items, makers) = items_without(&relocations, &deleted).unwrap();
    assert_eq!(makers, [0, 3, 4, 5, 6, 2, 7]);
    assert_eq!(items[1..5], [gone(8, 4), gone(12, 4), gone(16, 0), gone(27, 1)]);
    assert_eq!(items[6], gone(42, 10));
    // without relocations, and without deletions
    let (items, makers) = items_without(&[], &deleted[..2]).unwrap();
    assert_eq!((items, makers), (vec![gone(8, 4), gone(12, 4)], vec![0, 1]));
    assert_eq!(items_without(&relocations, &[]).unwrap().1, [0, 2]);
    assert_eq!(items_without(&[], &[]), Ok((vec![], vec![])));
}

#[test]
fn deletions_that_overlap_are_named() {
    use RewrittenItemsError::{Malformed, Misplaced, Overlaps};
    let call = |offset| [relocation(offset, 19, 0, Some(BASE)), relocation(offset, 51, 0, None)];
    let nops = [relocation(28, 43, 14, None)];
    let at = call(20);
    for (relocations, deleted, expected) in [
        // deletions by themselves
        (&at[..], &[(8, 4), (11, 4)][..], Misplaced(1)),
        (&at, &[(8, 4), (4, 4)], Misplaced(1)),
        (&at, &[(8, 4), (49, 4)], Misplaced(1)),
        (&at, &[(53, 0)], Misplaced(0)),
        (&at, &[(u64::MAX, 2)], Misplaced(0)),
        // bytes of a call, of nops, and those around them
        (&at, &[(16, 5)], Overlaps(0)),
        (&at, &[(20, 1)], Overlaps(0)),
        (&at, &[(27, 1)], Overlaps(0)),
        (&at, &[(24, 0)], Overlaps(0)),
        (&at, &[(16, 20)], Overlaps(0)),
        (&nops, &[(41, 1)], Overlaps(0)),
        // nops in a call, and calls that descend
        (&[&at[..], &[relocation(24, 43, 4, None)]].concat(), &[], Overlaps(2)),
        (&[call(20), call(0)].concat(), &[(8, 4)], Overlaps(2)),
        // nops past the section's end come first
        (&[relocation(40, 43, 14, None)], &[(8, 4), (4, 4)], Malformed(0)),
    ] {
        assert_eq!(items_without(relocations, deleted), Err(expected), "{deleted:?}");
    }
    for deleted in [[(16, 4)], [(28, 4)], [(20, 0)], [(28, 0)]] {
        assert!(items_without(&at, &deleted).is_ok(), "{deleted:?}");
    }
}

#[test]
fn targets_inside_deleted_bytes_are_named() {
    for (target, expected) in [(8, None), (9, Some(2)), (11, Some(2)), (12, None)] {
        let relocations = [relocation(20, 19, 0, Some(BASE + target)), relocation(20, 51, 0, None)];
        let (items, makers) = items_without(&relocations, &[(4, 2), (8, 4)]).unwrap();
        assert_eq!(makers, [2, 3, 0]);
        let fault = |index| ItemFault { index, fault: Fault::TargetInside };
        assert_eq!(first_faulty(&items, START), expected.map(fault));
    }
}
