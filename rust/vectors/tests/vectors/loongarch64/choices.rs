// SPDX-License-Identifier: MIT OR Apache-2.0
//! Which rewrites are chosen, and the words after them, by the encodings of the LoongArch Reference
//! Manual, volume 1, and as GNU ld writes them.

use super::relaxed::{ENTRY, IMAGE, SITES};
use linker_utils::architecture;
use linker_utils::elf::{Architecture, InstructionRewrite, LinkFacts, Operands};
use linker_utils::loongarch64::{
    LoongArch64Relocation as Name, RewriteKind as Kind, choose, fits, row,
};
use linker_utils::utils::u32_from_slice;

const NOP: u32 = 0x0340_0000;

/// `pcalau12i a0`, `ld.d a0, a0` and `addi.d a0, a0`.
const PCALA: u32 = 0x1a00_0004;

const LD: u32 = 0x28c0_0084;

const ADDI: u32 = 0x02c0_0084;

const LOAD: [u32; 4] = [PCALA, LD, 0, 0];

const ADDRESS: [u32; 4] = [PCALA, ADDI, 0, 0];

/// The sequence of a TLS descriptor.
const DESCRIPTOR: [u32; 4] = [PCALA, ADDI, 0x28c0_0081, 0x4c00_0021];

/// `pcaddu18i ra` and `jirl ra, ra`; `pcaddu18i t0` and `jirl zero, t0`.
const CALL: [u32; 4] = [0x1e00_0001, 0x4c00_0021, 0, 0];

const TAIL: [u32; 4] = [0x1e00_000c, 0x4c00_0180, 0, 0];

/// `lu12i.w a1`, `add.d a1, a1, tp` and `ld.w a0, a1`.
const THREAD: [u32; 4] = [0x1400_0005, 0x0010_88a5, 0x2880_00a4, 0];

fn bytes_of(words: [u32; 4]) -> [u8; 16] {
    let [a, b, c, d] = words[0].to_le_bytes();
    let [e, f, g, h] = words[1].to_le_bytes();
    let [i, j, k, l] = words[2].to_le_bytes();
    let [m, n, o, p] = words[3].to_le_bytes();
    [a, b, c, d, e, f, g, h, i, j, k, l, m, n, o, p]
}

/// What is chosen for the relocation at an offset, and the word there with the value written.
fn rewritten(name: Name, words: [u32; 4], at: u64, facts: &LinkFacts) -> (Kind, u32) {
    assert!(at <= 12);
    let mut section = bytes_of(words);
    let place = facts.operands.place.wrapping_add(at);
    let operands = Operands { place, ..facts.operands };
    let here = LinkFacts { operands, ..*facts };
    let chosen = choose(name, &section, at, &here);
    let (mut offset, mut addend) = (at, 0);
    chosen.kind.apply(&mut section, &mut offset, &mut addend);
    let row = row(chosen.relocation).expect("a row");
    if let Ok(value) = row.value(&operands) {
        assert!(row.write(value, &mut section[at as usize..]).is_ok());
    }
    (chosen.kind, u32_from_slice(&section[at as usize..]))
}

/// The facts of a local symbol in an executable, whose code is at 0x1_2000_0100.
fn facts_of(symbol: u64, tls_base: u64, is_relaxable: bool) -> LinkFacts {
    LinkFacts {
        is_local: true,
        is_pcrel_link_time_constant: true,
        is_executable: true,
        is_relaxable,
        has_addresses: true,
        group_fits: true,
        operands: Operands {
            symbol,
            plt_entry: symbol,
            got_entry: 0x1_2001_0020,
            tls_base,
            has_got_entry: true,
            has_tls_base: true,
            place: 0x1_2000_0100,
            ..Operands::default()
        },
        ..LinkFacts::default()
    }
}

#[test]
fn addresses_and_calls_have_their_encodings() {
    let far = facts_of(0x1_2000_8010, 0, false);
    let near = facts_of(0x1_2000_8010, 0, true);
    let call = facts_of(0x1_2000_1100, 0, true);
    let table = [
        (Name::R_LARCH_GOT_PC_HI20, LOAD, 0, far, Kind::NoOp, 0x1a00_0104),
        (Name::R_LARCH_GOT_PC_LO12, LOAD, 4, far, Kind::LdToAddi, 0x02c0_4084),
        (Name::R_LARCH_GOT_PC_HI20, LOAD, 0, near, Kind::PcalaToPcaddi, 0x1803_f884),
        (Name::R_LARCH_GOT_PC_LO12, LOAD, 4, near, Kind::Delete, LD),
        (Name::R_LARCH_PCALA_HI20, ADDRESS, 0, near, Kind::PcalaToPcaddi, 0x1803_f884),
        (Name::R_LARCH_PCALA_LO12, ADDRESS, 4, near, Kind::Delete, ADDI),
        (Name::R_LARCH_CALL36, CALL, 0, call, Kind::CallToBl, 0x5410_0000),
        (Name::R_LARCH_CALL36, TAIL, 0, call, Kind::CallToB, 0x5010_0000),
    ];
    for (name, words, at, facts, kind, want) in table {
        assert_eq!(rewritten(name, words, at, &facts), (kind, want), "{want:?}");
    }
}

#[test]
fn thread_offsets_have_their_encodings() {
    let long = facts_of(0x1_2003_2345, 0x1_2002_0000, false);
    let short = facts_of(0x1_2002_0345, 0x1_2002_0000, true);
    let table = [
        (Name::R_LARCH_TLS_IE_PC_HI20, LOAD, 0, long, Kind::PcalaToLu12i, 0x1400_0244),
        (Name::R_LARCH_TLS_IE_PC_LO12, LOAD, 4, long, Kind::LowToOri, 0x038d_1484),
        (Name::R_LARCH_TLS_IE_PC_HI20, LOAD, 0, short, Kind::ReplaceWithNop, NOP),
        (Name::R_LARCH_TLS_IE_PC_LO12, LOAD, 4, short, Kind::LowToOriZero, 0x038d_1404),
        (Name::R_LARCH_TLS_DESC_PC_HI20, DESCRIPTOR, 0, long, Kind::PcalaToLu12i, 0x1400_0244),
        (Name::R_LARCH_TLS_DESC_PC_LO12, DESCRIPTOR, 4, long, Kind::LowToOri, 0x038d_1484),
        (Name::R_LARCH_TLS_DESC_LD, DESCRIPTOR, 8, long, Kind::ReplaceWithNop, NOP),
        (Name::R_LARCH_TLS_DESC_CALL, DESCRIPTOR, 12, long, Kind::ReplaceWithNop, NOP),
        (Name::R_LARCH_TLS_LE_HI20_R, THREAD, 0, short, Kind::Delete, 0x1400_0005),
        (Name::R_LARCH_TLS_LE_ADD_R, THREAD, 4, short, Kind::Delete, 0x0010_88a5),
        (Name::R_LARCH_TLS_LE_LO12_R, THREAD, 8, short, Kind::BaseToTp, 0x288d_1444),
    ];
    for (name, words, at, facts, kind, want) in table {
        assert_eq!(rewritten(name, words, at, &facts), (kind, want), "{want:?}");
    }
}

/// Instructions over `a1`, and as llvm-mc 19 writes them over `tp` with the offset 0x345.
#[test]
fn low_parts_of_vectors_and_of_preloads_are_over_tp() {
    let facts = facts_of(0x1_2002_0345, 0x1_2002_0000, true);
    let table = [
        (0x2c00_00a4, 0x2c0d_1444), // vld $vr4
        (0x2c40_00a4, 0x2c4d_1444), // vst $vr4
        (0x2c80_00a4, 0x2c8d_1444), // xvld $xr4
        (0x2cc0_00a4, 0x2ccd_1444), // xvst $xr4
        (0x2ac0_00a8, 0x2acd_1448), // preld 8
    ];
    for (low, want) in table {
        let words = [THREAD[0], THREAD[1], low, 0];
        let made = rewritten(Name::R_LARCH_TLS_LE_LO12_R, words, 8, &facts);
        assert_eq!(made, (Kind::BaseToTp, want), "{low:#x}");
    }
}

/// `pcalau12i` and `addi.d` for the entries of general- and local-dynamic, as GNU ld 2.44 relaxes
/// them.
#[test]
fn near_entries_are_made_by_pcaddi() {
    let local = [0x1a00_0005, 0x02c0_00a5, 0, 0];
    let table = [
        (Name::R_LARCH_TLS_GD_PC_HI20, ADDRESS, 0x218, 0x1_ffe0, 0x180f_ee44),
        (Name::R_LARCH_TLS_LD_PC_HI20, local, 0x21c, 0x1_fff0, 0x180f_eea5),
    ];
    for (high, words, place, got_entry, want) in table {
        let operands = Operands { place, got_entry, has_got_entry: true, ..Operands::default() };
        let facts = LinkFacts {
            is_relaxable: true,
            has_addresses: true,
            group_fits: true,
            operands,
            ..LinkFacts::default()
        };
        let made = |name, at| rewritten(name, words, at, &facts);
        assert_eq!(made(high, 0), (Kind::PcalaToPcaddi, want));
        assert_eq!(made(Name::R_LARCH_GOT_PC_LO12, 4), (Kind::DeleteAddi, words[1]));
        // neither linker rewrites the address of another GOT entry
        assert!(!fits(Name::R_LARCH_GOT_PC_HI20, &bytes_of(words), 0, &facts));
    }
}

#[test]
fn other_offsets_go_by_the_got() {
    let mut facts = facts_of(0x1_2003_2345, 0x1_2002_0000, false);
    facts.is_local = false;
    let table = [
        (Name::R_LARCH_TLS_DESC_PC_HI20, 0, Kind::NoOp, 0x1a00_0204),
        (Name::R_LARCH_TLS_DESC_PC_LO12, 4, Kind::AddiToLd, 0x28c0_8084),
        (Name::R_LARCH_TLS_DESC_LD, 8, Kind::ReplaceWithNop, NOP),
        (Name::R_LARCH_TLS_DESC_CALL, 12, Kind::ReplaceWithNop, NOP),
    ];
    for (name, at, kind, want) in table {
        assert_eq!(rewritten(name, DESCRIPTOR, at, &facts), (kind, want), "{want:?}");
    }
}

const OF_DESCRIPTOR: [Name; 4] = [
    Name::R_LARCH_TLS_DESC_PC_HI20,
    Name::R_LARCH_TLS_DESC_PC_LO12,
    Name::R_LARCH_TLS_DESC_LD,
    Name::R_LARCH_TLS_DESC_CALL,
];

/// The words of a descriptor that stay.
fn descriptor_left(facts: &LinkFacts) -> Vec<u32> {
    let words = (0..).step_by(4).zip(OF_DESCRIPTOR);
    let left = words.map(|(at, name)| rewritten(name, DESCRIPTOR, at, facts));
    left.filter(|(kind, _)| *kind != Kind::Delete).map(|(_, word)| word).collect()
}

/// As GNU ld 2.44 leaves them, but for those without marks.
#[test]
fn marked_descriptors_get_shorter() {
    // `ori a0, zero, 0x345`; `lu12i.w a0, 0x12` and `ori a0, a0, 0x345`
    let short = facts_of(0x1_2002_0345, 0x1_2002_0000, true);
    assert_eq!(descriptor_left(&short), [0x038d_1404]);
    let long = facts_of(0x1_2003_2345, 0x1_2002_0000, true);
    assert_eq!(descriptor_left(&long), [0x1400_0244, 0x038d_1484]);
    // `pcalau12i a0, 0x10` and `ld.d a0, a0, 0x20`
    let initial = LinkFacts { is_local: false, ..long };
    assert_eq!(descriptor_left(&initial), [0x1a00_0204, 0x28c0_8084]);
    // without marks `nop`s stay
    let unmarked = LinkFacts { is_relaxable: false, ..short };
    assert_eq!(descriptor_left(&unmarked), [NOP, 0x038d_1404, NOP, NOP]);
}

/// One that stays, in a shared library: `pcaddi a0`, as near as that reaches, and the call.
#[test]
fn near_descriptors_are_made_by_pcaddi() {
    let [.., ld, jirl] = DESCRIPTOR;
    let facts = facts_of(0x1_2003_2345, 0x1_2002_0000, true);
    let stays = LinkFacts { is_executable: false, group_fits: false, ..facts };
    // `pcaddi a0, 0x3fc8`
    assert_eq!(descriptor_left(&stays), [0x1807_f904, ld, jirl]);
    let operands = Operands { got_entry: 0x1_2020_0100, ..facts.operands };
    let far = LinkFacts { operands, ..stays };
    assert_eq!(descriptor_left(&far).len(), 4);
}

/// `pcalau12i t0`, `ld.d t1, t0` and `addi.d t1, zero`.
const PCALA_T0: u32 = 0x1a00_000c;

const LD_T1_T0: u32 = 0x28c0_018d;

const ADDI_T1_ZERO: u32 = 0x02c0_000d;

/// The relocations of one variable, by their offsets in code, as a linker rewrites them: whether each
/// fits, and what becomes of the words.
fn group_made<const N: usize>(
    mut words: [u32; N],
    group: &[(u64, Name)],
    facts: &LinkFacts,
) -> (bool, [u32; N]) {
    let mut section = [0u8; 64];
    for (bytes, word) in section.chunks_mut(4).zip(words) {
        bytes.copy_from_slice(&word.to_le_bytes());
    }
    let at_place = |at: u64, group_fits: bool| {
        let place = facts.operands.place.wrapping_add(at);
        LinkFacts { group_fits, operands: Operands { place, ..facts.operands }, ..*facts }
    };
    let group_fits = group.iter().all(|&(at, name)| {
        let (of, r_type) = (Architecture::LoongArch64, name.r_type());
        architecture::fits(of, r_type, &section, at, &at_place(at, false))
    });
    let chosen: Vec<_> = group
        .iter()
        .map(|&(at, name)| {
            let here = at_place(at, group_fits);
            (at, here, choose(name, &section, at, &here))
        })
        .collect();
    for (at, here, choice) in chosen {
        let (mut offset, mut addend) = (at, 0);
        choice.kind.apply(&mut section, &mut offset, &mut addend);
        let row = row(choice.relocation).expect("a row");
        if let (true, Ok(value)) = (group_fits, row.value(&here.operands)) {
            assert!(row.write(value, &mut section[at as usize..]).is_ok());
        }
    }
    for (bytes, word) in section.chunks(4).zip(&mut words) {
        *word = u32_from_slice(bytes);
    }
    (group_fits, words)
}

/// `pcalau12i t0`; `b` to the `ld.d`; `pcalau12i t0`; `ori t2, t2, 1`; `ld.d t1, t0`: the load has what
/// either `pcalau12i` leaves, and its registers differ. GNU ld makes `lu12i.w t0` and `ori t1, t0` of such
/// halves (`examples/compare/tests/gnu/loongarch64/instructions`).
#[test]
fn halves_are_rewritten_where_they_are() {
    let code = [PCALA_T0, 0x5000_0c00, PCALA_T0, 0x0380_05ce, LD_T1_T0];
    let halves = [
        (0, Name::R_LARCH_TLS_IE_PC_HI20),
        (8, Name::R_LARCH_TLS_IE_PC_HI20),
        (16, Name::R_LARCH_TLS_IE_PC_LO12),
    ];
    let long = facts_of(0x1_2003_2345, 0x1_2002_0000, false);
    let by_two = [0x1400_024c, 0x5000_0c00, 0x1400_024c, 0x0380_05ce, 0x038d_158d];
    assert_eq!(group_made(code, &halves, &long), (true, by_two));
    let short = facts_of(0x1_2002_0345, 0x1_2002_0000, false);
    let by_one = [NOP, 0x5000_0c00, NOP, 0x0380_05ce, 0x038d_140d];
    assert_eq!(group_made(code, &halves, &short), (true, by_one));
}

/// Of the extreme code model: `pcalau12i t0` and `addi.d t1, zero`, of which no `ori` is made.
#[test]
fn halves_of_other_instructions_stay() {
    let code = [PCALA_T0, ADDI_T1_ZERO, PCALA_T0, LD_T1_T0];
    let halves = [
        (0, Name::R_LARCH_TLS_IE_PC_HI20),
        (4, Name::R_LARCH_TLS_IE_PC_LO12),
        (8, Name::R_LARCH_TLS_IE_PC_HI20),
        (12, Name::R_LARCH_TLS_IE_PC_LO12),
    ];
    let facts = facts_of(0x1_2003_2345, 0x1_2002_0000, false);
    assert_eq!(group_made(code, &halves, &facts), (false, code));
    assert!(group_made(code, &halves[2..], &facts).0);
}

/// A descriptor with an `ori t2, t2, 1` between any two of its instructions, for local-exec and for
/// initial-exec; and one of another register, which stays.
#[test]
fn parted_descriptors_are_rewritten() {
    const ORI: u32 = 0x0380_05ce;
    let [pcala, addi, ld, jirl] = DESCRIPTOR;
    let code = [pcala, ORI, addi, ORI, ld, ORI, jirl];
    let group = [
        (0, Name::R_LARCH_TLS_DESC_PC_HI20),
        (8, Name::R_LARCH_TLS_DESC_PC_LO12),
        (16, Name::R_LARCH_TLS_DESC_LD),
        (24, Name::R_LARCH_TLS_DESC_CALL),
    ];
    let facts = facts_of(0x1_2003_2345, 0x1_2002_0000, false);
    let local = [0x1400_0244, ORI, 0x038d_1484, ORI, NOP, ORI, NOP];
    assert_eq!(group_made(code, &group, &facts), (true, local));
    let imported = LinkFacts { is_local: false, ..facts };
    let initial = [0x1a00_0204, ORI, 0x28c0_8084, ORI, NOP, ORI, NOP];
    assert_eq!(group_made(code, &group, &imported), (true, initial));
    // the entry of initial-exec is more than 2 GiB away
    let got_entry = facts.operands.got_entry + (1 << 32);
    let far = LinkFacts { operands: Operands { got_entry, ..facts.operands }, ..imported };
    assert_eq!(group_made(code, &group, &far), (false, code));
    // `pcalau12i a1`
    let other = [pcala + 1, ORI, addi, ORI, ld, ORI, jirl];
    assert_eq!(group_made(other, &group, &facts), (false, other));
}

/// Where `choose` leaves a `nop`, GNU ld deletes the instruction.
#[test]
fn words_match_gnu_ld() {
    for (r_type, at, symbol, place, words, after) in SITES {
        let local = facts_of(symbol, IMAGE, true);
        let operands =
            Operands { got_entry: ENTRY, place: place.wrapping_sub(at), ..local.operands };
        let facts = LinkFacts { is_local: symbol != 0, operands, ..local };
        let (kind, word) = rewritten(Name::from_elf(r_type), words, at, &facts);
        let is_deleted = matches!(kind, Kind::Delete | Kind::ReplaceWithNop);
        let left = if is_deleted { 0 } else { word };
        assert_eq!(left, after, "{r_type:?}, {place:?}");
    }
}
