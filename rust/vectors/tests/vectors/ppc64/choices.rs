// SPDX-License-Identifier: MIT OR Apache-2.0
//! Which rewrites are chosen, and the words that they leave with the relocation after them. The
//! words are encoded after the Power ISA, "Instruction Formats", or are those that linkers wrote.

use super::linked::SITES;
use linker_utils::elf::{Choice, InstructionRewrite, LinkFacts, Operands};
use linker_utils::ppc64::{Ppc64Relocation, RewriteKind, choose, row};

/// The facts of a symbol of an executable, 0x7fe8 below the TOC pointer, 0x6fe8 below the thread
/// pointer and 0x10018 above the instruction.
fn own() -> LinkFacts {
    LinkFacts {
        is_local: true,
        is_pcrel_link_time_constant: true,
        is_executable: true,
        toc_base_is_exclusive: true,
        may_change_toc: true,
        group_fits: true,
        has_addresses: true,
        operands: Operands {
            symbol: 0x1001_0018,
            place: 0x1000_0000,
            got_entry: 0x1001_0100,
            got_base: 0x1001_8000,
            plt_entry: 0x1001_0018,
            tls_base: 0x1001_7000,
            has_got_entry: true,
            has_plt_entry: true,
            has_tls_base: true,
            ..Operands::default()
        },
        ..LinkFacts::default()
    }
}

/// What is chosen for two words.
fn chosen_for(
    name: Ppc64Relocation,
    words: [u32; 2],
    facts: &LinkFacts,
) -> Choice<RewriteKind, Ppc64Relocation> {
    let [a, b, c, d] = words[0].to_le_bytes();
    let [e, f, g, h] = words[1].to_le_bytes();
    choose(name, &[a, b, c, d, e, f, g, h], 0, facts)
}

/// Rewrites two words, writes the value, and returns the choice and the words. The offset is that
/// of the second byte where the place is.
fn linked(
    name: Ppc64Relocation,
    words: [u32; 2],
    facts: &LinkFacts,
) -> (Choice<RewriteKind, Ppc64Relocation>, [u32; 2]) {
    let [a, b, c, d] = words[0].to_le_bytes();
    let [e, f, g, h] = words[1].to_le_bytes();
    let mut section = [a, b, c, d, e, f, g, h];
    let (mut offset, mut addend) = (facts.operands.place % 4, facts.operands.addend);
    let chosen = choose(name, &section[..], offset, facts);
    chosen.kind.apply(&mut section[..], &mut offset, &mut addend);
    assert!(offset <= 4);
    let row = row(chosen.relocation).expect("a row");
    if let Ok(value) = row.value(&facts.operands) {
        assert!(row.write(value, &mut section[offset as usize..]).is_ok());
    }
    let [a, b, c, d, e, f, g, h] = section;
    let made = [u32::from_le_bytes([a, b, c, d]), u32::from_le_bytes([e, f, g, h])];
    (chosen, made)
}

/// A relocation, the two words there, the choice, and the words that it leaves.
type Rewritten = (Ppc64Relocation, [u32; 2], RewriteKind, Ppc64Relocation, [u32; 2]);

const CALL: [u32; 2] = [0x4800_0001, 0x6000_0000];

#[test]
fn own_symbols_need_no_entry() {
    let table: [Rewritten; 24] = [
        (
            Ppc64Relocation::R_PPC64_TOC16_HA,
            [0x3d22_0000, 0],
            RewriteKind::AddisToNop,
            Ppc64Relocation::R_PPC64_NONE,
            [0x6000_0000, 0],
        ),
        (
            Ppc64Relocation::R_PPC64_TOC16_LO,
            [0x3869_0000, 0],
            RewriteKind::BaseToToc,
            Ppc64Relocation::R_PPC64_TOC16,
            [0x3862_8018, 0],
        ),
        (
            Ppc64Relocation::R_PPC64_TOC16_LO_DS,
            [0xe869_0000, 0],
            RewriteKind::BaseToToc,
            Ppc64Relocation::R_PPC64_TOC16_DS,
            [0xe862_8018, 0],
        ),
        (
            Ppc64Relocation::R_PPC64_GOT16_HA,
            [0x3d22_0000, 0],
            RewriteKind::KeepAddis,
            Ppc64Relocation::R_PPC64_TOC16_HA,
            [0x3d22_0000, 0],
        ),
        (
            Ppc64Relocation::R_PPC64_GOT16_LO_DS,
            [0xe869_0000, 0],
            RewriteKind::LdToAddi,
            Ppc64Relocation::R_PPC64_TOC16_LO,
            [0x3869_8018, 0],
        ),
        (
            Ppc64Relocation::R_PPC64_GOT_PCREL34,
            [0x0410_0000, 0xe460_0000],
            RewriteKind::PldToPaddi,
            Ppc64Relocation::R_PPC64_PCREL34,
            [0x0610_0001, 0x3860_0018],
        ),
        (
            Ppc64Relocation::R_PPC64_GOT_TPREL16_HA,
            [0x3d22_0000, 0],
            RewriteKind::AddisToNop,
            Ppc64Relocation::R_PPC64_NONE,
            [0x6000_0000, 0],
        ),
        (
            Ppc64Relocation::R_PPC64_GOT_TPREL16_LO_DS,
            [0xe929_0000, 0],
            RewriteKind::LdToAddisThread,
            Ppc64Relocation::R_PPC64_TPREL16_HA,
            [0x3d2d_0000, 0],
        ),
        (
            Ppc64Relocation::R_PPC64_GOT_TPREL16_DS,
            [0xe922_0000, 0],
            RewriteKind::LdToAddisThread,
            Ppc64Relocation::R_PPC64_TPREL16_HA,
            [0x3d2d_0000, 0],
        ),
        (
            Ppc64Relocation::R_PPC64_TLS,
            [0x7c69_6a14, 0],
            RewriteKind::AddToAddi,
            Ppc64Relocation::R_PPC64_TPREL16_LO,
            [0x3869_9018, 0],
        ),
        (
            Ppc64Relocation::R_PPC64_TLS,
            [0x7c69_682e, 0],
            RewriteKind::IndexedToD,
            Ppc64Relocation::R_PPC64_TPREL16_LO,
            [0x8069_9018, 0],
        ),
        (
            Ppc64Relocation::R_PPC64_TLS,
            [0x7c29_6dae, 0],
            RewriteKind::IndexedToD,
            Ppc64Relocation::R_PPC64_TPREL16_LO,
            [0xd829_9018, 0],
        ),
        (
            Ppc64Relocation::R_PPC64_TLS,
            [0x7c69_682a, 0],
            RewriteKind::IndexedToDs,
            Ppc64Relocation::R_PPC64_TPREL16_LO_DS,
            [0xe869_9018, 0],
        ),
        (
            Ppc64Relocation::R_PPC64_TLS,
            [0x7c69_692a, 0],
            RewriteKind::IndexedToDs,
            Ppc64Relocation::R_PPC64_TPREL16_LO_DS,
            [0xf869_9018, 0],
        ),
        (
            Ppc64Relocation::R_PPC64_TLS,
            [0x7c69_6aaa, 0],
            RewriteKind::IndexedToDs,
            Ppc64Relocation::R_PPC64_TPREL16_LO_DS,
            [0xe869_901a, 0],
        ),
        (
            Ppc64Relocation::R_PPC64_GOT_TLSGD16_LO,
            [0x3869_0000, 0],
            RewriteKind::AddiToAddisThread,
            Ppc64Relocation::R_PPC64_TPREL16_HA,
            [0x3c6d_0000, 0],
        ),
        (
            Ppc64Relocation::R_PPC64_GOT_TLSGD16_LO,
            [0x3bff_0000, 0],
            RewriteKind::AddiToAddisThread,
            Ppc64Relocation::R_PPC64_TPREL16_HA,
            [0x3fed_0000, 0],
        ),
        (
            Ppc64Relocation::R_PPC64_GOT_TLSGD16,
            [0x3862_0000, 0],
            RewriteKind::AddiToAddisThread,
            Ppc64Relocation::R_PPC64_TPREL16_HA,
            [0x3c6d_0000, 0],
        ),
        (
            Ppc64Relocation::R_PPC64_TLSGD,
            CALL,
            RewriteKind::CallToAddi,
            Ppc64Relocation::R_PPC64_TPREL16_LO,
            [0x6000_0000, 0x3863_9018],
        ),
        (
            Ppc64Relocation::R_PPC64_GOT_TLSLD16_LO,
            [0x3869_0000, 0],
            RewriteKind::AddiToAddisThread,
            Ppc64Relocation::R_PPC64_NONE,
            [0x3c6d_0000, 0],
        ),
        (
            Ppc64Relocation::R_PPC64_GOT_TLSLD16_LO,
            [0x3bff_0000, 0],
            RewriteKind::AddiToAddisThread,
            Ppc64Relocation::R_PPC64_NONE,
            [0x3fed_0000, 0],
        ),
        (
            Ppc64Relocation::R_PPC64_GOT_TLSLD16,
            [0x3862_0000, 0],
            RewriteKind::AddiToAddisThread,
            Ppc64Relocation::R_PPC64_NONE,
            [0x3c6d_0000, 0],
        ),
        (
            Ppc64Relocation::R_PPC64_TLSLD,
            CALL,
            RewriteKind::CallToAddi4096,
            Ppc64Relocation::R_PPC64_NONE,
            [0x6000_0000, 0x3863_1000],
        ),
        (
            Ppc64Relocation::R_PPC64_REL24,
            CALL,
            RewriteKind::NopToRestoreToc,
            Ppc64Relocation::R_PPC64_REL24,
            [0x4801_0019, 0xe841_0018],
        ),
    ];
    for (name, before, kind, relocation, after) in table {
        let (chosen, made) = linked(name, before, &own());
        assert_eq!(chosen, Choice { kind, relocation }, "{name:?}");
        assert_eq!(made, after, "{name:?}");
    }
}

/// `lxsd 0,0(9)`, `lxssp 0,0(9)`, `stxsd 0,0(9)` and `stxssp 0,0(9)`; of a multiple of 16 bytes `lxv`
/// and `stxv` of registers 0 and 32, and `lq 4,0(9)`.
#[test]
fn vectors_are_near_the_toc() {
    let name = Ppc64Relocation::R_PPC64_TOC16_LO_DS;
    let chosen =
        Choice { kind: RewriteKind::BaseToToc, relocation: Ppc64Relocation::R_PPC64_TOC16_DS };
    let mut facts = own();
    for (before, after) in [
        (0xe409_0002, 0xe402_801a),
        (0xe409_0003, 0xe402_801b),
        (0xf409_0002, 0xf402_801a),
        (0xf409_0003, 0xf402_801b),
    ] {
        assert_eq!(linked(name, [before, 0], &facts), (chosen, [after, 0]));
    }
    facts.operands.symbol = 0x1001_0020;
    for (before, after) in [
        (0xf409_0001, 0xf402_8021),
        (0xf409_0009, 0xf402_8029),
        (0xf409_0005, 0xf402_8025),
        (0xf409_000d, 0xf402_802d),
        (0xe089_0000, 0xe082_8020),
    ] {
        assert_eq!(linked(name, [before, 0], &facts), (chosen, [after, 0]));
    }
    // `lfdp 0,0(9)`, `stfdp 0,0(9)` and `stq 4,0(9)`
    for word in [0xe409_0000, 0xf409_0000, 0xf889_0002] {
        assert!(chosen_for(name, [word, 0], &facts).is_unchanged(name));
    }
}

/// GNU ld 2.40 makes these words of a variable 0x6ff0 below the thread pointer: `nop` of `addis 9,13`,
/// and register 13 in place of 9 as the base of `addi`, `lwz`, `lbz`, `lha`, `sth`, `lfs`, `lfd`, `stfd`,
/// `ld`, `lwa`, `std`, `lxv` and `stxv`, `lxsd`, `stxssp` and `lq`. ld.lld 19 leaves them.
#[test]
fn offsets_near_the_thread_pointer_have_no_high_half() {
    let mut facts = own();
    facts.operands.symbol = 0x1001_0010;
    let high = Ppc64Relocation::R_PPC64_TPREL16_HA;
    let nop =
        Choice { kind: RewriteKind::AddisThreadToNop, relocation: Ppc64Relocation::R_PPC64_NONE };
    assert_eq!(linked(high, [0x3d2d_0000, 0], &facts), (nop, [0x6000_0000, 0]));
    let low = Ppc64Relocation::R_PPC64_TPREL16_LO;
    let low_ds = Ppc64Relocation::R_PPC64_TPREL16_LO_DS;
    let kind = RewriteKind::BaseToThread;
    for (name, before, after) in [
        (low, 0x3869_0000, 0x386d_9010),
        (low, 0x8069_0000, 0x806d_9010),
        (low, 0x8869_0000, 0x886d_9010),
        (low, 0xa869_0000, 0xa86d_9010),
        (low, 0xb069_0000, 0xb06d_9010),
        (low, 0xc029_0000, 0xc02d_9010),
        (low, 0xc829_0000, 0xc82d_9010),
        (low, 0xd829_0000, 0xd82d_9010),
        (low_ds, 0xe869_0000, 0xe86d_9010),
        (low_ds, 0xe869_0002, 0xe86d_9012),
        (low_ds, 0xf869_0000, 0xf86d_9010),
        (low_ds, 0xf449_0009, 0xf44d_9019),
        (low_ds, 0xf429_0005, 0xf42d_9015),
        (low_ds, 0xe449_0002, 0xe44d_9012),
        (low_ds, 0xf449_0003, 0xf44d_9013),
        (low_ds, 0xe089_0000, 0xe08d_9010),
    ] {
        let (chosen, made) = linked(name, [before, 0], &facts);
        assert_eq!(chosen.kind, kind, "{before:#x}");
        assert_eq!(made, [after, 0], "{before:#x}");
    }
    // `addis 9,2`; `lwzu 3,0(9)`; `std 9,0(9)`; `stfdp 0,0(9)`
    for (name, word) in
        [(high, 0x3d22_0000), (low, 0x8469_0000), (low_ds, 0xf929_0000), (low_ds, 0xf409_0000)]
    {
        assert!(chosen_for(name, [word, 0], &facts).is_unchanged(name), "{word:#x}");
    }
    // 0x7fff above the thread pointer, the first offset above that, and 0x8000 below it, and the last
    // one below that
    for (symbol, is_near) in
        [(0x1001_efff, true), (0x1001_f000, false), (0x1000_f000, true), (0x1000_efff, false)]
    {
        facts.operands.symbol = symbol;
        for (name, word) in [(high, 0x3d2d_0000), (low, 0x3869_0000)] {
            assert_eq!(!chosen_for(name, [word, 0], &facts).is_unchanged(name), is_near);
        }
    }
    // what else has to be so
    let near = LinkFacts { operands: Operands { symbol: 0x1001_0010, ..facts.operands }, ..facts };
    for missing in [
        LinkFacts { is_local: false, ..near },
        LinkFacts { is_ifunc: true, ..near },
        LinkFacts { is_executable: false, ..near },
        LinkFacts { toc_base_is_exclusive: false, ..near },
        LinkFacts { group_fits: false, ..near },
        LinkFacts { has_addresses: false, ..near },
    ] {
        for (name, word) in [(high, 0x3d2d_0000), (low, 0x3869_0000), (low_ds, 0xe869_0000)] {
            assert!(!chosen_for(name, [word, 0], &near).is_unchanged(name));
            assert!(chosen_for(name, [word, 0], &missing).is_unchanged(name));
        }
    }
}

#[test]
fn other_variables_of_an_executable_have_an_entry() {
    let table: [Rewritten; 5] = [
        (
            Ppc64Relocation::R_PPC64_GOT_TLSGD16_HA,
            [0x3d22_0000, 0],
            RewriteKind::KeepAddis,
            Ppc64Relocation::R_PPC64_GOT_TPREL16_HA,
            [0x3d22_0000, 0],
        ),
        (
            Ppc64Relocation::R_PPC64_GOT_TLSGD16_LO,
            [0x3869_0000, 0],
            RewriteKind::AddiToLd,
            Ppc64Relocation::R_PPC64_GOT_TPREL16_LO_DS,
            [0xe869_8100, 0],
        ),
        (
            Ppc64Relocation::R_PPC64_GOT_TLSGD16_LO,
            [0x3bff_0000, 0],
            RewriteKind::AddiToLd,
            Ppc64Relocation::R_PPC64_GOT_TPREL16_LO_DS,
            [0xebff_8100, 0],
        ),
        (
            Ppc64Relocation::R_PPC64_GOT_TLSGD16,
            [0x3862_0000, 0],
            RewriteKind::AddiToLd,
            Ppc64Relocation::R_PPC64_GOT_TPREL16_DS,
            [0xe862_8100, 0],
        ),
        (
            Ppc64Relocation::R_PPC64_TLSGD,
            CALL,
            RewriteKind::CallToAdd,
            Ppc64Relocation::R_PPC64_NONE,
            [0x6000_0000, 0x7c63_6a14],
        ),
    ];
    let facts = LinkFacts { is_local: false, ..own() };
    for (name, before, kind, relocation, after) in table {
        let (chosen, made) = linked(name, before, &facts);
        assert_eq!(chosen, Choice { kind, relocation }, "{name:?}");
        assert_eq!(made, after, "{name:?}");
    }
}

#[test]
fn other_instructions_stay() {
    // `addis 9,3`; `lwzu 3,0(9)`; `std 9,0(9)`; `addis 9,3` twice; `addi 9,2` and `ld 9,0(2)` in place of
    // `addis`; `ld 3,0(0)`; `add 3,9,12`; `lwzux 3,9,13`; `stwx 9,9,13`; `lwaux 3,9,13`; `ldux 3,9,13`;
    // `bl` without `nop`; `li 4,0`; and of calls by their address `mtctr 12` and `bctrl`
    let table: [(Ppc64Relocation, [u32; 2]); 17] = [
        (Ppc64Relocation::R_PPC64_TOC16_HA, [0x3d23_0000, 0]),
        (Ppc64Relocation::R_PPC64_TOC16_LO, [0x8469_0000, 0]),
        (Ppc64Relocation::R_PPC64_TOC16_LO_DS, [0xf929_0000, 0]),
        (Ppc64Relocation::R_PPC64_GOT16_HA, [0x3d23_0000, 0]),
        (Ppc64Relocation::R_PPC64_GOT_TLSGD16_HA, [0x3d23_0000, 0]),
        (Ppc64Relocation::R_PPC64_GOT16_HA, [0x3922_0000, 0]),
        (Ppc64Relocation::R_PPC64_GOT_TLSGD16_HA, [0xe922_0000, 0]),
        (Ppc64Relocation::R_PPC64_GOT16_LO_DS, [0xe860_0000, 0]),
        (Ppc64Relocation::R_PPC64_TLS, [0x7c69_6214, 0]),
        (Ppc64Relocation::R_PPC64_TLS, [0x7c69_686e, 0]),
        (Ppc64Relocation::R_PPC64_TLS, [0x7d29_692e, 0]),
        (Ppc64Relocation::R_PPC64_TLS, [0x7c69_6aea, 0]),
        (Ppc64Relocation::R_PPC64_TLS, [0x7c69_686a, 0]),
        (Ppc64Relocation::R_PPC64_TLSGD, [0x4800_0001, 0x4800_0001]),
        (Ppc64Relocation::R_PPC64_GOT_TLSGD16_LO, [0x3880_0000, 0]),
        (Ppc64Relocation::R_PPC64_TLSGD, [0x7d89_03a6, 0x4e80_0421]),
        (Ppc64Relocation::R_PPC64_TLSLD, [0x4e80_0421, 0x6000_0000]),
    ];
    for (name, before) in table {
        let chosen = chosen_for(name, before, &own());
        let unchanged = Choice { kind: RewriteKind::NoOp, relocation: name };
        assert_eq!(chosen, unchanged, "{before:?}");
    }
}

/// The relocations of thread-local sequences, each with two words where it is rewritten.
const OF_SEQUENCES: [(Ppc64Relocation, [u32; 2]); 18] = [
    (Ppc64Relocation::R_PPC64_TPREL16_HA, [0x3d2d_0000, 0]),
    (Ppc64Relocation::R_PPC64_TPREL16_LO, [0x3869_0000, 0]),
    (Ppc64Relocation::R_PPC64_TPREL16_LO_DS, [0xe869_0000, 0]),
    (Ppc64Relocation::R_PPC64_GOT_TPREL16_HA, [0x3d22_0000, 0]),
    (Ppc64Relocation::R_PPC64_GOT_TPREL16_LO_DS, [0xe929_0000, 0]),
    (Ppc64Relocation::R_PPC64_GOT_TPREL16_DS, [0xe922_0000, 0]),
    (Ppc64Relocation::R_PPC64_TLS, [0x7c69_6a14, 0]),
    (Ppc64Relocation::R_PPC64_GOT_TLSGD16_HA, [0x3d22_0000, 0]),
    (Ppc64Relocation::R_PPC64_GOT_TLSGD16_LO, [0x3869_0000, 0]),
    (Ppc64Relocation::R_PPC64_GOT_TLSGD16, [0x3862_0000, 0]),
    (Ppc64Relocation::R_PPC64_TLSGD, CALL),
    (Ppc64Relocation::R_PPC64_GOT_TLSLD16_HA, [0x3d22_0000, 0]),
    (Ppc64Relocation::R_PPC64_GOT_TLSLD16_LO, [0x3869_0000, 0]),
    (Ppc64Relocation::R_PPC64_GOT_TLSLD16, [0x3862_0000, 0]),
    (Ppc64Relocation::R_PPC64_TLSLD, CALL),
    (Ppc64Relocation::R_PPC64_GOT_TPREL_PCREL34, [0x0410_0000, 0xe520_0000]),
    (Ppc64Relocation::R_PPC64_GOT_TLSGD_PCREL34, [0x0610_0000, 0x3860_0000]),
    (Ppc64Relocation::R_PPC64_GOT_TLSLD_PCREL34, [0x0610_0000, 0x3860_0000]),
];

#[test]
fn sequences_are_rewritten_whole() {
    let apart = LinkFacts { group_fits: false, ..own() };
    for (name, words) in OF_SEQUENCES {
        for is_local in [false, true] {
            let chosen = chosen_for(name, words, &LinkFacts { is_local, ..apart });
            assert!(chosen.is_unchanged(name), "{name:?}");
        }
        assert!(!chosen_for(name, words, &own()).is_unchanged(name), "{name:?}");
    }
    // the argument of `__tls_get_addr` in register 31 (`addi 31,9` and `addi 31,2`)
    for (name, word) in [
        (Ppc64Relocation::R_PPC64_GOT_TLSGD16_LO, 0x3be9_0000),
        (Ppc64Relocation::R_PPC64_GOT_TLSLD16_LO, 0x3be9_0000),
        (Ppc64Relocation::R_PPC64_GOT_TLSGD16, 0x3be2_0000),
        (Ppc64Relocation::R_PPC64_GOT_TLSLD16, 0x3be2_0000),
    ] {
        assert_eq!(
            chosen_for(name, [word, 0], &own()).kind,
            RewriteKind::AddiToAddisThread,
            "{name:?}"
        );
        assert!(chosen_for(name, [word, 0], &apart).is_unchanged(name), "{name:?}");
    }
    // those of calls through the PLT, and the high halves without `@ha`, have no rewrites:
    // `addis 12,2`, `ld 12,0(12)`, `mtctr 12` and `bctrl`
    for (name, word) in [
        (Ppc64Relocation::R_PPC64_PLT16_HA, 0x3d82_0000),
        (Ppc64Relocation::R_PPC64_PLT16_LO_DS, 0xe98c_0000),
        (Ppc64Relocation::R_PPC64_PLTSEQ, 0x7d89_03a6),
        (Ppc64Relocation::R_PPC64_PLTCALL, 0x4e80_0421),
        (Ppc64Relocation::R_PPC64_PLTSEQ_NOTOC, 0x7d89_03a6),
        (Ppc64Relocation::R_PPC64_PLTCALL_NOTOC, 0x4e80_0421),
    ] {
        assert!(chosen_for(name, [word, 0x6000_0000], &own()).is_unchanged(name), "{name:?}");
    }
    for name in [
        Ppc64Relocation::R_PPC64_PLT_PCREL34,
        Ppc64Relocation::R_PPC64_PLT_PCREL34_NOTOC,
        Ppc64Relocation::R_PPC64_GOT_TPREL16_HI,
    ] {
        assert!(chosen_for(name, [0x0410_0000, 0xe460_0000], &own()).is_unchanged(name));
    }
}

/// `paddi 31,0,0,1` and `pld 31,0,1`, and a `paddi` that isn't relative to the instruction, a `pld` over
/// a register, and each in the place of the other.
#[test]
fn prefixed_instructions_keep_their_register() {
    let elsewhere = LinkFacts { is_local: false, ..own() };
    for (name, facts, before, after) in [
        (148, own(), [0x0610_0000, 0x3be0_0000], Some([0x0603_ffff, 0x3bed_9018])),
        (148, elsewhere, [0x0610_0000, 0x3be0_0000], Some([0x0410_0001, 0xe7e0_0100])),
        (149, own(), [0x0610_0000, 0x3be0_0000], Some([0x0600_0000, 0x3bed_1000])),
        (150, own(), [0x0410_0000, 0xe7e0_0000], Some([0x0603_ffff, 0x3bed_9018])),
        (148, own(), [0x0600_0000, 0x3be0_0000], None),
        (148, own(), [0x0610_0000, 0x3be3_0000], None),
        (148, own(), [0x0410_0000, 0xe7e0_0000], None),
        (149, own(), [0x0600_0000, 0x3be0_0000], None),
        (150, own(), [0x0400_0000, 0xe7e0_0000], None),
        (150, own(), [0x0410_0000, 0xe7e3_0000], None),
        (150, own(), [0x0610_0000, 0x3be0_0000], None),
    ] {
        let name = Ppc64Relocation::from_elf(name);
        match after {
            Some(after) => assert_eq!(linked(name, before, &facts).1, after, "{name:?}"),
            None => assert!(chosen_for(name, before, &facts).is_unchanged(name), "{before:x?}"),
        }
    }
}

/// Of prefixed code the mark of `add 3,9,13` is at its second byte, even where `add 3,9,13` can be read
/// there too, and that of TOC code at its first.
#[test]
fn marks_of_prefixed_code_are_at_the_second_byte() {
    let name = Ppc64Relocation::R_PPC64_TLS;
    let [a, b, c, d] = 0x7c69_6a14u32.to_le_bytes();
    let section = [a, b, c, d, 0, a, b, c, d];
    let at = |offset| choose(name, &section, offset, &own()).kind;
    assert_eq!(at(0), RewriteKind::AddToAddi);
    assert_eq!(at(1), RewriteKind::AddToMove);
    for offset in [2, 3, 4, 5, 6] {
        assert_eq!(at(offset), RewriteKind::NoOp, "{offset}");
    }
}

/// `bl` and `nop` with the mark of a call: the `nop` is of the call only where that has `R_PPC64_REL24`.
#[test]
fn calls_are_distinguished_by_their_relocation() {
    let facts = |is_relaxable, is_local| LinkFacts { is_relaxable, is_local, ..own() };
    for (name, facts, kind) in [
        (Ppc64Relocation::R_PPC64_TLSGD, facts(false, true), RewriteKind::CallToAddi),
        (Ppc64Relocation::R_PPC64_TLSGD, facts(false, false), RewriteKind::CallToAdd),
        (Ppc64Relocation::R_PPC64_TLSGD, facts(true, true), RewriteKind::BranchToNop),
        (Ppc64Relocation::R_PPC64_TLSGD, facts(true, false), RewriteKind::BranchToAdd),
        (Ppc64Relocation::R_PPC64_TLSLD, facts(false, true), RewriteKind::CallToAddi4096),
        (Ppc64Relocation::R_PPC64_TLSLD, facts(true, true), RewriteKind::BranchToNop),
    ] {
        assert_eq!(chosen_for(name, CALL, &facts).kind, kind);
        let apart = LinkFacts { group_fits: false, ..facts };
        assert!(chosen_for(name, CALL, &apart).is_unchanged(name));
        let library = LinkFacts { is_executable: false, ..facts };
        assert!(chosen_for(name, CALL, &library).is_unchanged(name));
    }
    // `bl` before another instruction, and `b`
    let name = Ppc64Relocation::R_PPC64_TLSGD;
    let kind = |words, is_relaxable| chosen_for(name, words, &facts(is_relaxable, true)).kind;
    assert_eq!(kind([0x4800_0001, 0x3821_0020], true), RewriteKind::BranchToNop);
    assert_eq!(kind([0x4800_0001, 0x3821_0020], false), RewriteKind::NoOp);
    assert_eq!(kind([0x4800_0000, 0x6000_0000], true), RewriteKind::NoOp);
}

/// The two words of eight bytes.
fn words_of(bytes: u64) -> [u32; 2] {
    [(bytes & 0xffff_ffff) as u32, (bytes >> 32) as u32]
}

/// In an executable whose GOT begins at 0x10040000, and whose TLS segment at 0x10020000. The only
/// GOT entry is that of a variable elsewhere.
#[test]
fn words_match_linkers() {
    for (r_type, flags, symbol, place, before, after) in SITES {
        let name = Ppc64Relocation::from_elf(r_type);
        let is_in_module = matches!(
            name,
            Ppc64Relocation::R_PPC64_DTPREL16_LO
                | Ppc64Relocation::R_PPC64_DTPREL16_HA
                | Ppc64Relocation::R_PPC64_DTPREL34
        );
        let facts = LinkFacts {
            is_local: flags & 1 != 0,
            may_change_toc: flags & 2 != 0,
            is_relaxable: flags & 4 != 0,
            is_pcrel_link_time_constant: true,
            is_executable: true,
            toc_base_is_exclusive: true,
            group_fits: true,
            has_addresses: true,
            operands: Operands {
                symbol,
                place,
                got_entry: 0x1004_0008,
                got_base: 0x1004_8000,
                tls_base: if is_in_module { 0x1002_8000 } else { 0x1002_7000 },
                has_got_entry: true,
                has_tls_base: true,
                ..Operands::default()
            },
            ..LinkFacts::default()
        };
        let (_, made) = linked(name, words_of(before), &facts);
        assert_eq!(made, words_of(after), "{r_type:?}, {place:?}");
    }
}

/// `addis 2,12` and `addi 2,2` at the entry of a function, at 0x100000b0, with the TOC pointer
/// 0x10018000: what GNU ld 2.40 makes of them in a program that is not position-independent, and that
/// nothing is chosen in one that is.
#[test]
fn the_toc_pointer_at_an_entry_is_that_of_gnu_ld() {
    let entry = |addend, place| LinkFacts {
        is_local: true,
        has_fixed_address: true,
        group_fits: true,
        has_addresses: true,
        operands: Operands { symbol: 0x1001_8000, addend, place, ..Operands::default() },
        ..LinkFacts::default()
    };
    let halves = [
        (Ppc64Relocation::R_PPC64_REL16_HA, 0x3c4c_0000u32, 0, 0x3c40_1002),
        (Ppc64Relocation::R_PPC64_REL16_LO, 0x3842_0000, 4, 0x3842_8000),
    ];
    for (name, word, addend, wanted) in halves {
        let facts = entry(addend, 0x1000_00b0 + addend as u64);
        let mut section = word.to_le_bytes();
        let chosen = choose(name, &section, 0, &facts);
        let (mut offset, mut operands) = (0, facts.operands);
        chosen.kind.apply(&mut section, &mut offset, &mut operands.addend);
        let row = row(chosen.relocation).expect("a row");
        let value = row.value(&operands).expect("it has a value");
        row.write(value, &mut section).expect("the value is in reach");
        assert_eq!(u32::from_le_bytes(section), wanted);
        let others = [
            LinkFacts { has_fixed_address: false, ..facts },
            LinkFacts { group_fits: false, ..facts },
            entry(addend + 4, facts.operands.place),
        ];
        for facts in others {
            let chosen = choose(name, &word.to_le_bytes(), 0, &facts);
            assert!(chosen.is_unchanged(name));
        }
    }
}
