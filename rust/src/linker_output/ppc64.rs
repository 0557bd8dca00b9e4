// SPDX-License-Identifier: MIT OR Apache-2.0
// Made by tools/generate of crates/linker_output/src/ppc64.rt.
//! What a linker adds to an output of PowerPC64.

use crate::linker_output::addresses::{AddressSection, WordLoad};
use crate::linker_output::description::{Target, plain};
use crate::linker_output::dynamic::{DynamicTypes, named};
use crate::linker_output::flags::FlagRules;
use crate::linker_output::got::{GotHeader, GotLayout, ThreadPointer};
use crate::linker_output::layout::{ProvidedSymbol, RunWord, SaveRestoreRoutines, SymbolPlace, interpreter};
use crate::linker_output::r_types::r_type;
use crate::linker_output::stubs::{field, stub, words};
use crate::linker_output::tags::tag;

/// `std 0, 16(1)`.
const SAVE_LINK: u32 = 0xf801_0010;

/// `ld 0, 16(1)`.
const LOAD_LINK: u32 = 0xe801_0010;

/// `mtlr 0`.
const MTLR_0: u32 = 0x7c08_03a6;

/// `blr`.
const BLR: u32 = 0x4e80_0020;

/// The functions of registers 14 to 31, by the first instruction and those after the last one.
macro_rules! of_registers {
    ($prefix:literal, $word:literal, $tail:expr) => {
        SaveRestoreRoutines {
            prefix: $prefix,
            first: 14,
            count: 18,
            word: $word,
            step: 0x20_0008,
            second: None,
            tail: $tail,
        }
    };
}

/// The functions of vector registers 20 to 31, by the second instruction; the first is
/// `addi 12, 0, -192`.
macro_rules! of_vectors {
    ($prefix:literal, $word:literal) => {
        SaveRestoreRoutines {
            prefix: $prefix,
            first: 20,
            count: 12,
            word: 0x3980_ff40,
            step: 0x10,
            second: Some(RunWord {
                word: $word,
                step: 0x20_0000,
            }),
            tail: &[BLR],
        }
    };
}

/// `mtctr 12` and `bctr`.
macro_rules! to_r12 {
    () => {
        &words!(0x7d89_03a6, 0x4e80_0420)
    };
}

/// A stub by the second of its pair of instructions, and that instruction's relocation.
macro_rules! by_address {
    ($word:literal, $relocation:ident) => {
        stub!(
            // std 2, 24(1); mflr 0; bcl 20, 31, .+4; mflr 12; mtlr 0
            &words!(0xf841_0018, 0x7c08_02a6, 0x429f_0005, 0x7d88_02a6, 0x7c08_03a6),
            words!(0x3d8c_0000, $word), // addis 12, 12, 0
            field!(0, R_PPC64_TOC16_HA),
            Some(field!(4, $relocation)),
            to_r12!(),
            4,
            12,
            0
        )
    };
}

/// A stub by the TOC pointer, after other code, and where a call enters that needs none of that.
macro_rules! by_toc {
    ($head:expr, $entry:literal) => {
        Some(stub!(
            $head,
            words!(0x3d82_0000, 0xe98c_0000), // addis 12, 2, 0; ld 12, 0(12)
            field!(0, R_PPC64_TOC16_HA),
            Some(field!(4, R_PPC64_TOC16_LO_DS)),
            to_r12!(),
            $entry,
            0,
            0
        ))
    };
}

/// A stub by a prefixed instruction.
macro_rules! by_prefixed {
    ($prefix:literal, $suffix:literal) => {
        Some(stub!(&[], words!($prefix, $suffix), field!(0, R_PPC64_PCREL34), None, to_r12!()))
    };
}

/// The description.
pub(crate) static TARGET: Target = Target {
    dynamic_tags: &[
        tag!(0x7000_0000, LazyPlt), // DT_PPC64_GLINK
        tag!(0x7000_0003, Options), // DT_PPC64_OPT
    ],
    thread_pointer: ThreadPointer::BelowImage {
        reserved: 0,
        bias: 0x7000,
    },
    module_bias: 0x8000,
    got: GotLayout {
        header: Some(GotHeader::Base),
        bias: 0x8000,
    },
    address_section: Some(AddressSection {
        name: ".toc",
        loads: &[
            WordLoad {
                word: r_type!(R_PPC64_TOC16_HA),
                entry: r_type!(R_PPC64_GOT16_HA),
            },
            WordLoad {
                word: r_type!(R_PPC64_TOC16_LO),
                entry: r_type!(R_PPC64_GOT16_LO),
            },
            WordLoad {
                word: r_type!(R_PPC64_TOC16_LO_DS),
                entry: r_type!(R_PPC64_GOT16_LO_DS),
            },
        ],
    }),
    filler: [0x8, 0, 0xe0, 0x7f],
    flags: FlagRules {
        same: 0,
        joined: 2,
        own: 2,
    },
    symbols: &[ProvidedSymbol {
        name: ".TOC.",
        place: SymbolPlace::Got,
        offset: 0x8000,
    }],
    runs: &[
        of_registers!("_savegpr0_", 0xf9c1_ff70, &[SAVE_LINK, BLR]), // std 14,-144(1)
        of_registers!("_restgpr0_", 0xe9c1_ff70, &[LOAD_LINK, MTLR_0, BLR]), // ld 14,-144(1)
        of_registers!("_savegpr1_", 0xf9cc_ff70, &[BLR]), // std 14,-144(12)
        of_registers!("_restgpr1_", 0xe9cc_ff70, &[BLR]), // ld 14,-144(12)
        of_registers!("_savefpr_", 0xd9c1_ff70, &[SAVE_LINK, BLR]), // stfd 14,-144(1)
        of_registers!("_restfpr_", 0xc9c1_ff70, &[LOAD_LINK, MTLR_0, BLR]), // lfd 14,-144(1)
        of_vectors!("_savevr_", 0x7e8c_01ce), // stvx 20,12,0
        of_vectors!("_restvr_", 0x7e8c_00ce), // lvx 20,12,0
    ],
    interpreters: &[interpreter!(0, "/lib64/ld64.so.2")],
    prefixed_load_stub: by_prefixed!(0x0410_0000, 0xe580_0000), // pld 12, 0(0), 1
    prefixed_jump_stub: by_prefixed!(0x0610_0000, 0x3980_0000), // paddi 12, 0, 0, 1
    jump_stub: Some(by_address!(0x398c_0000, R_PPC64_TOC16_LO)), // addi 12, 12, 0
    toc_load_stub: by_toc!(&words!(0xf841_0018), 4), // std 2, 24(1)
    toc_far_stub: by_toc!(&[], 0),
    ..plain!(
        Ppc64,
        DynamicTypes {
            word: named!(38, "R_PPC64_ADDR64"),
            relative: named!(22, "R_PPC64_RELATIVE"),
            glob_dat: named!(20, "R_PPC64_GLOB_DAT"),
            jump_slot: named!(21, "R_PPC64_JMP_SLOT"),
            copy: named!(19, "R_PPC64_COPY"),
            irelative: named!(248, "R_PPC64_IRELATIVE"),
            module_number: named!(68, "R_PPC64_DTPMOD64"),
            module_offset: named!(78, "R_PPC64_DTPREL64"),
            thread_offset: named!(73, "R_PPC64_TPREL64"),
            descriptor: None,
        },
        by_address!(0xe98c_0000, R_PPC64_TOC16_LO_DS) // ld 12, 0(12)
    )
};
