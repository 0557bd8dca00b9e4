// SPDX-License-Identifier: MIT OR Apache-2.0
//! Which rewrites are chosen, compared with what GNU ld 2.40 and `ld.lld` 19.1.7 made.

use super::linked::{ADDRESS, ENTRY, IMAGE, SITES};
use super::{both, pairs};
use linker_utils::elf::{Choice, InstructionRewrite, LinkFacts, Operands};
use linker_utils::riscv64::{DeletedBytes, RewriteKind, RiscVRelocation, choose, row};
use linker_utils::utils::u32_from_slice;

/// The facts of a relocation that may be relaxed, in a program that is loaded at one address.
fn facts_at(symbol: u64, place: u64) -> LinkFacts {
    LinkFacts {
        has_fixed_address: true,
        is_pcrel_link_time_constant: true,
        may_compress: true,
        is_relaxable: true,
        has_addresses: true,
        operands: Operands { symbol, plt_entry: symbol, place, ..Operands::default() },
        ..LinkFacts::default()
    }
}

/// Rewrites what is at an offset, writes the value there, and returns the choice.
fn link(
    name: RiscVRelocation,
    section: &mut [u8; 8],
    at: u64,
    facts: &LinkFacts,
) -> Choice<RewriteKind, RiscVRelocation> {
    let chosen = choose(name, &*section, at, facts);
    let (mut offset, mut addend) = (at, facts.operands.addend);
    chosen.kind.apply(&mut section[..], &mut offset, &mut addend);
    write(chosen.relocation, section, at, &facts.operands);
    chosen
}

fn write(name: RiscVRelocation, section: &mut [u8; 8], at: u64, operands: &Operands) {
    assert!(at <= 8);
    let row = row(name).expect("a row");
    if let Ok(value) = row.value(operands) {
        assert!(row.write(value, &mut section[at as usize..]).is_ok());
    }
}

fn choice(kind: RewriteKind, relocation: RiscVRelocation) -> Choice<RewriteKind, RiscVRelocation> {
    Choice { kind, relocation }
}

#[test]
fn choices_of_shortened_lui_match_gnu_ld() {
    let shortened = choice(RewriteKind::Hi20ToCLui, RiscVRelocation::R_RISCV_RVC_LUI);
    let as_it_is = choice(RewriteKind::NoOp, RiscVRelocation::R_RISCV_LO12_I);
    for (before, value, after) in pairs::SHORTENED_LUI {
        let facts = facts_at(value as u64, 0x10000);
        let mut section = before;
        let high = link(RiscVRelocation::R_RISCV_HI20, &mut section, 0, &facts);
        let low = link(RiscVRelocation::R_RISCV_LO12_I, &mut section, 4, &facts);
        assert_eq!((high, low), (shortened, as_it_is), "{value:?}");
        let deleted = Some(DeletedBytes { start: 2, count: 2 });
        assert_eq!(high.kind.deleted(), deleted, "{value:?}");
        let [a, b, _, _, c, d, e, f] = section;
        assert_eq!([a, b, c, d, e, f], after, "{value:?}");
    }
}

#[test]
fn choices_of_deleted_lui_match_gnu_ld() {
    let gone = choice(RewriteKind::Hi20Delete, RiscVRelocation::R_RISCV_NONE);
    let from_x0 = choice(RewriteKind::Lo12Rs1ToZero, RiscVRelocation::R_RISCV_LO12_I);
    for (before, value, after) in pairs::DELETED_LUI {
        let facts = facts_at(value, 0x10000);
        let mut section = before;
        let high = link(RiscVRelocation::R_RISCV_HI20, &mut section, 0, &facts);
        let low = link(RiscVRelocation::R_RISCV_LO12_I, &mut section, 4, &facts);
        assert_eq!((high, low), (gone, from_x0), "{value:?}");
        let deleted = Some(DeletedBytes { start: 0, count: 4 });
        assert_eq!(high.kind.deleted(), deleted, "{value:?}");
        let [_, _, _, _, a, b, c, d] = section;
        assert_eq!([a, b, c, d], after, "{value:?}");
    }
}

#[test]
fn choices_of_clui_match_linkers() {
    let name = RiscVRelocation::R_RISCV_RVC_LUI;
    let zeroed = choice(RewriteKind::CLuiToCLi, RiscVRelocation::R_RISCV_NONE);
    let as_it_is = choice(RewriteKind::NoOp, name);
    for (before, value, after) in pairs::CLUI {
        let facts = LinkFacts {
            is_relaxable: false,
            may_compress: false,
            ..facts_at(value as u64, 0x10000)
        };
        let is_zero = (-0x800..0x800).contains(&value);
        let mut section = both([before.into(), 0]);
        assert_eq!(choose(name, &section[..1], 0, &facts), as_it_is, "{value:?}");
        let chosen = choose(name, &section[..2], 0, &facts);
        assert_eq!(chosen, if is_zero { zeroed } else { as_it_is }, "{value:?}");
        assert_eq!(link(name, &mut section, 0, &facts), chosen, "{value:?}");
        assert_eq!(section, both([after.into(), 0]), "{value:?}");
        for unknown in [
            LinkFacts { has_fixed_address: false, ..facts },
            LinkFacts { has_addresses: false, ..facts },
        ] {
            let half = before.to_le_bytes();
            assert_eq!(choose(name, &half, 0, &unknown), as_it_is, "{value:?}");
        }
    }
    // `c.addi16sp sp, 16`, the hint `c.lui x0, 1`, `c.li a0, 1` and a word
    for half in [0x6141u16, 0x6005, 0x4505, 0x6507] {
        let chosen = choose(name, &half.to_le_bytes(), 0, &facts_at(0, 0x10000));
        assert_eq!(chosen, as_it_is, "{half:x}");
    }
}

const CALL: [u32; 2] = [0x0000_0097, 0x0000_80e7];

const TAIL: [u32; 2] = [0x0000_0317, 0x0003_0067];

#[test]
fn choices_of_calls_match_linkers() {
    // each distance before and after the deletion of the `jalr`, and the linker's word
    let table: [([u32; 2], RewriteKind, i64, i64, u32); 3] = [
        (CALL, RewriteKind::CallToJal, 1048572, 1048568, 0x7f9f_f0ef),
        (CALL, RewriteKind::CallToJal, -1048574, -1048574, 0x8020_00ef),
        (TAIL, RewriteKind::TailToJal, 8198, 8194, 0x0020_206f),
    ];
    for (words, kind, input, output, want) in table {
        let place = 0x20_0000u64;
        let facts = facts_at(place.wrapping_add_signed(input), place);
        let mut section = both(words);
        let name = RiscVRelocation::R_RISCV_CALL_PLT;
        let chosen = choose(name, &section, 0, &facts);
        assert_eq!(chosen, choice(kind, RiscVRelocation::R_RISCV_JAL), "{input:?}");
        let deleted = Some(DeletedBytes { start: 4, count: 4 });
        assert_eq!(chosen.kind.deleted(), deleted, "{input:?}");
        let (mut offset, mut addend) = (0, 0);
        chosen.kind.apply(&mut section, &mut offset, &mut addend);
        let closer = facts_at(place.wrapping_add_signed(output), place);
        write(chosen.relocation, &mut section, 0, &closer.operands);
        let [a, b, c, d, _, _, _, _] = section;
        assert_eq!(u32::from_le_bytes([a, b, c, d]), want, "{input:?}");
    }
    // `call t0, f`, of which GNU ld makes a `jal t0`: no rewrite writes that
    let call_t0 = both([0x0000_0317, 0x0003_02e7]);
    let name = RiscVRelocation::R_RISCV_CALL_PLT;
    let chosen = choose(name, &call_t0, 0, &facts_at(4098, 0));
    assert_eq!(chosen, choice(RewriteKind::NoOp, name), "call t0");
}

#[test]
fn short_calls_of_rv32_match_gnu_ld() {
    let name = RiscVRelocation::R_RISCV_CALL_PLT;
    let kind_of = |words, facts: &LinkFacts| choose(name, &both(words), 0, facts).kind;
    // each distance before and after bytes are deleted, and the linker's half
    for (input, output, want) in [(36, 14, 0x2039u16), (8, 2, 0x2009), (-2048, -2048, 0x3001)] {
        let place = 0x20_0000u64;
        let rv64 = facts_at(place.wrapping_add_signed(input), place);
        assert_eq!(kind_of(CALL, &rv64), RewriteKind::CallToJal, "{input:?}");
        let facts = LinkFacts { is_class32: true, ..rv64 };
        let mut section = both(CALL);
        let chosen = choose(name, &section, 0, &facts);
        let short = choice(RewriteKind::CallToCJal, RiscVRelocation::R_RISCV_RVC_JUMP);
        assert_eq!(chosen, short, "{input:?}");
        let deleted = Some(DeletedBytes { start: 2, count: 6 });
        assert_eq!(chosen.kind.deleted(), deleted, "{input:?}");
        let (mut offset, mut addend) = (0, 0);
        chosen.kind.apply(&mut section, &mut offset, &mut addend);
        let closer = facts_at(place.wrapping_add_signed(output), place);
        write(chosen.relocation, &mut section, 0, &closer.operands);
        let [a, b, _, _, _, _, _, _] = section;
        assert_eq!(u16::from_le_bytes([a, b]), want, "{input:?}");
    }
    // too far, without the C extension, and calls that link another register than ra
    let facts = LinkFacts { is_class32: true, ..facts_at(0x1000, 0x1000) };
    let far = LinkFacts { is_class32: true, ..facts_at(0x1800, 0x1000) };
    assert_eq!(kind_of(CALL, &far), RewriteKind::CallToJal);
    assert_eq!(kind_of(CALL, &LinkFacts { may_compress: false, ..facts }), RewriteKind::CallToJal);
    assert_eq!(kind_of(TAIL, &facts), RewriteKind::TailToCJ);
    assert_eq!(kind_of([0x0000_0317, 0x0003_02e7], &facts), RewriteKind::NoOp);
}

#[test]
fn altered_calls_are_left() {
    let name = RiscVRelocation::R_RISCV_CALL;
    let facts = facts_at(0x1800, 0x1000);
    let call = u64::from_le_bytes(both(CALL));
    for bit in 0..64u32 {
        let kind = match bit {
            12..=31 | 52..=63 => RewriteKind::CallToJal,
            // the `jalr` links no register
            39 => RewriteKind::TailToJal,
            _ => RewriteKind::NoOp,
        };
        let altered = (call ^ 1 << bit).to_le_bytes();
        assert_eq!(choose(name, &altered, 0, &facts).kind, kind, "{bit:?}");
    }
}

/// The facts of a symbol of an executable, with a GOT entry and a thread pointer.
fn facts_in(symbol: u64, place: u64, is_local: bool, is_relaxable: bool) -> LinkFacts {
    LinkFacts {
        is_local,
        is_pcrel_link_time_constant: true,
        is_executable: true,
        is_relaxable,
        has_addresses: true,
        operands: Operands {
            symbol,
            place,
            got_entry: ENTRY,
            has_got_entry: true,
            tls_base: IMAGE,
            has_tls_base: true,
            ..Operands::default()
        },
        ..LinkFacts::default()
    }
}

/// What is left of the instruction at an offset, and the choice.
fn left(name: RiscVRelocation, word: u32, facts: &LinkFacts) -> (RewriteKind, u32) {
    let mut section = both([word, 0]);
    let chosen = choose(name, &section, 0, facts);
    let (mut offset, mut addend) = (0, 0);
    chosen.kind.apply(&mut section[..], &mut offset, &mut addend);
    let is_of_entry = chosen.kind == RewriteKind::CallToLd;
    let operands = Operands {
        symbol: if is_of_entry { ENTRY } else { facts.operands.symbol },
        ..facts.operands
    };
    write(chosen.relocation, &mut section, 0, &operands);
    (chosen.kind, u32_from_slice(&section))
}

#[test]
fn choices_of_thread_local_storage_match_linkers() {
    for (r_type, index, flags, symbol, place, before, after) in SITES {
        let facts = facts_in(symbol, place, flags & 2 != 0, flags & 1 != 0);
        let (kind, word) = left(RiscVRelocation::from_elf(r_type), before, &facts);
        let word = if kind == RewriteKind::Delete { 0 } else { word };
        assert_eq!(word, after, "{r_type:?}, {index:?}, {place:?}");
    }
}

/// auipc a5, 0; ld a1, 0(a5)
const LOAD: [u32; 2] = [0x0000_0797, 0x0007_b583];

#[test]
fn a_load_of_a_fixed_address_becomes_the_address() {
    // mold's test `arch-riscv64-relax-got` and the ends of the ranges, in the words of GNU as
    let gone = 0;
    for (symbol, want) in [
        (0i64, [gone, 0x0000_0593]),
        (0xba, [gone, 0x0ba0_0593]),
        (0x7ff, [gone, 0x7ff0_0593]),
        (-0x800, [gone, 0x8000_0593]),
        (0x800, [0x0000_17b7, 0x8007_8593]),
        (0xbeef, [0x0000_c7b7, 0xeef7_8593]),
        (0x0011_beef, [0x0011_c7b7, 0xeef7_8593]),
        (0x7fff_f7ff, [0x7fff_f7b7, 0x7ff7_8593]),
        (-0x8000_0800, [0x8000_07b7, 0x8007_8593]),
        // too far for `lui`
        (0x7fff_f800, LOAD),
        (0xdead_beef, LOAD),
        (-0x8000_0801, LOAD),
    ] {
        let facts = LinkFacts {
            is_local: true,
            has_fixed_address: true,
            has_addresses: true,
            is_relaxable: true,
            has_got_high_part: true,
            is_label_relaxable: true,
            operands: Operands { symbol: symbol as u64, place: 0x1_0000, ..Operands::default() },
            ..LinkFacts::default()
        };
        let word = |name, before| {
            let mut section = both([before, 0]);
            if choose(name, &section, 0, &facts).is_unchanged(name) {
                return before;
            }
            let chosen = link(name, &mut section, 0, &facts);
            if chosen.kind.deleted().is_some() { gone } else { u32_from_slice(&section) }
        };
        let high = |facts: &LinkFacts| {
            let auipc = both([LOAD[0], 0]);
            choose(RiscVRelocation::R_RISCV_GOT_HI20, &auipc, 0, facts).kind
        };
        let auipc = word(RiscVRelocation::R_RISCV_GOT_HI20, LOAD[0]);
        let ld = word(RiscVRelocation::R_RISCV_PCREL_LO12_I, LOAD[1]);
        assert_eq!([auipc, ld], want, "{symbol:#x}");
        for kept in [
            LinkFacts { is_local: false, ..facts },
            LinkFacts { is_ifunc: true, ..facts },
            LinkFacts { has_fixed_address: false, ..facts },
            LinkFacts { is_label_relaxable: false, ..facts },
            LinkFacts { has_addresses: false, ..facts },
        ] {
            assert_eq!(high(&kept), RewriteKind::NoOp, "{symbol:#x}");
        }
        // where nothing may be deleted
        let kind = high(&LinkFacts { is_relaxable: false, ..facts });
        assert_eq!(kind == RewriteKind::AuipcToLui, want != LOAD, "{symbol:#x}");
    }
}

#[test]
fn a_load_from_the_got_becomes_the_address_of_a_linker() {
    let (symbol, place, load, address) = ADDRESS;
    let facts = LinkFacts {
        has_got_high_part: true,
        is_label_relaxable: true,
        ..facts_in(symbol, place, true, false)
    };
    let (high, auipc) = left(RiscVRelocation::R_RISCV_GOT_HI20, load[0], &facts);
    let (low, addi) = left(RiscVRelocation::R_RISCV_PCREL_LO12_I, load[1], &facts);
    assert_eq!((high, low), (RewriteKind::NoOp, RewriteKind::LdToAddi), "{symbol:?}");
    assert_eq!([auipc, addi], address, "{symbol:?}");
    let of_address = LinkFacts { has_got_high_part: false, ..facts };
    let (kind, _) = left(RiscVRelocation::R_RISCV_PCREL_LO12_I, load[1], &of_address);
    assert_eq!(kind, RewriteKind::NoOp, "{symbol:?}");
    for replaceable in [
        LinkFacts { is_local: false, ..facts },
        LinkFacts { is_ifunc: true, ..facts },
        LinkFacts { is_pcrel_link_time_constant: false, ..facts },
        LinkFacts { is_label_relaxable: false, ..facts },
        // the mark of a low part, as compilers write it
        LinkFacts { is_label_relaxable: false, is_relaxable: true, ..facts },
    ] {
        let (kind, _) = left(RiscVRelocation::R_RISCV_PCREL_LO12_I, load[1], &replaceable);
        assert_eq!(kind, RewriteKind::NoOp, "{replaceable:?}");
        let high = RiscVRelocation::R_RISCV_GOT_HI20;
        let kept = choice(RewriteKind::NoOp, high);
        assert_eq!(choose(high, &both([load[0], 0]), 0, &replaceable), kept, "{replaceable:?}");
    }
}
