// SPDX-License-Identifier: MIT OR Apache-2.0
//! Which relocations require a GOT entry, and which a PLT entry may serve: those whose expression in
//! the psABI's table of relocations has one, and branches. And which may be skipped after a rewrite.

use sathunne::*;
use std::ops::RangeInclusive;

/// An architecture's types, by the table of its psABI.
struct Table {
    architecture: Architecture,
    /// The expression has the address or the offset of a GOT entry.
    got: &'static [RangeInclusive<u32>],
    /// The expression has the address of a PLT entry, or the field is that of a branch.
    plt: &'static [RangeInclusive<u32>],
    /// What assemblers write for a call of `__tls_get_addr`, and the mark `R_RISCV_RELAX`.
    skipped: &'static [RangeInclusive<u32>],
}

const TABLES: [Table; 5] = [
    // ELF for the Arm 64-bit Architecture: G(GDAT(S+A)), GLDM(S), GTLSIDX(S,A), GTPREL(S+A) and
    // GTLSDESC(S+A); TSTBR14, CONDBR19, JUMP26, CALL26, PLT32
    Table {
        architecture: Architecture::AArch64,
        got: &[
            300..=306,
            309..=313,
            315..=315,
            512..=522,
            539..=543,
            560..=566,
        ],
        plt: &[279..=280, 282..=283, 314..=314],
        skipped: &[],
    },
    // RISC-V ELF psABI: GOT_HI20, TLS_GOT_HI20, TLS_GD_HI20, GOT32_PCREL, TLSDESC_HI20; BRANCH, JAL,
    // CALL, CALL_PLT, RVC_BRANCH, RVC_JUMP, PLT32
    Table {
        architecture: Architecture::RiscV,
        got: &[20..=22, 41..=41, 62..=62],
        plt: &[16..=19, 44..=45, 59..=59],
        skipped: &[51..=51],
    },
    // LoongArch ELF psABI: GOT_PC and GOT64_PC, TLS_IE_PC to TLS_GD_HI20, TLS_DESC_PC and
    // TLS_DESC64_PC, TLS_LD_PCREL20_S2 to TLS_DESC_PCREL20_S2; B16, B21, B26, CALL36, CALL30
    Table {
        architecture: Architecture::LoongArch64,
        got: &[75..=78, 87..=98, 111..=114, 124..=126],
        plt: &[64..=66, 110..=110, 127..=127],
        skipped: &[],
    },
    // 64-bit ELF V2 ABI for Power: G, and the entries of GOT_TLSGD, GOT_TLSLD and GOT_TPREL; ADDR24,
    // ADDR14, REL24, REL14, PLT16_HA, PLT16_LO_DS, REL24_NOTOC, PLT_PCREL34 and its _NOTOC
    Table {
        architecture: Architecture::Ppc64,
        got: &[14..=17, 58..=59, 79..=90, 133..=133, 148..=150],
        plt: &[2..=2, 7..=7, 10..=11, 31..=31, 60..=60, 116..=116, 134..=135],
        skipped: &[10..=10, 116..=116],
    },
    // x86-64 psABI: G, TLSGD, TLSLD, GOTTPOFF, GOTPC32_TLSDESC and the CODE_4, 5 and 6 of these; PLT32,
    // PLTOFF64
    Table {
        architecture: Architecture::X86_64,
        got: &[3..=3, 9..=9, 19..=20, 22..=22, 27..=27, 34..=34, 41..=51],
        plt: &[4..=4, 31..=31],
        skipped: &[2..=2, 4..=4, 9..=9, 31..=31, 41..=41],
    },
];

fn lists(types: &[RangeInclusive<u32>], r_type: u32) -> bool {
    types.iter().any(|range| range.contains(&r_type))
}

#[test]
fn entries_are_asked_for_as_the_psabis_say() {
    for table in TABLES {
        let architecture = table.architecture;
        for r_type in 0..1 << 16 {
            let is_known = relocation(architecture, r_type).is_ok();
            assert_eq!(
                asks_for_got(architecture, r_type),
                is_known && lists(table.got, r_type),
                "{architecture:?} {r_type}"
            );
            assert_eq!(
                may_use_plt(architecture, r_type),
                is_known && lists(table.plt, r_type),
                "{architecture:?} {r_type}"
            );
            assert_eq!(
                may_be_skipped(architecture, r_type),
                lists(table.skipped, r_type),
                "{architecture:?} {r_type}"
            );
        }
    }
}
