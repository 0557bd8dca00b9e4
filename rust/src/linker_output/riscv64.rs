// SPDX-License-Identifier: MIT OR Apache-2.0
// Made by tools/generate of crates/linker_output/src/riscv64.rt.
//! What a linker adds to an output of RISC-V.

use crate::linker_output::description::{Target, plain};
use crate::linker_output::dynamic::{DynamicTypes, named};
use crate::linker_output::flags::FlagRules;
use crate::linker_output::got::{GotHeader, GotLayout};
use crate::linker_output::layout::{CodeUnit, ProvidedSymbol, SymbolPlace, interpreter};
use crate::linker_output::stubs::{field, stub, words};
use crate::linker_output::tags::tag;

/// The description.
pub(crate) static TARGET: Target = Target {
    dynamic_tags: &[
        tag!(0x7000_0001, VariantCalls), // DT_RISCV_VARIANT_CC
    ],
    module_bias: 0x800,
    got: GotLayout {
        header: Some(GotHeader::Dynamic),
        bias: 0,
    },
    page: 0x1000,
    code_unit: CodeUnit {
        len: 4,
        flag: 1,
        flagged_len: 2,
    },
    flags: FlagRules {
        same: 0xe,
        joined: 0x11,
        own: 0,
    },
    symbols: &[ProvidedSymbol {
        name: "__global_pointer$",
        place: SymbolPlace::SmallData,
        offset: 0x800,
    }],
    interpreter_flags: 0xe,
    interpreters: &[
        interpreter!(0, "/lib/ld-linux-riscv64-lp64.so.1"),
        interpreter!(2, "/lib/ld-linux-riscv64-lp64f.so.1"),
        interpreter!(4, "/lib/ld-linux-riscv64-lp64d.so.1"),
    ],
    ..plain!(
        RiscV,
        DynamicTypes {
            word: named!(2, "R_RISCV_64"),
            relative: named!(3, "R_RISCV_RELATIVE"),
            glob_dat: named!(2, "R_RISCV_64"),
            jump_slot: named!(5, "R_RISCV_JUMP_SLOT"),
            copy: named!(4, "R_RISCV_COPY"),
            irelative: named!(58, "R_RISCV_IRELATIVE"),
            module_number: named!(7, "R_RISCV_TLS_DTPMOD64"),
            module_offset: named!(9, "R_RISCV_TLS_DTPREL64"),
            thread_offset: named!(11, "R_RISCV_TLS_TPREL64"),
            descriptor: Some(named!(12, "R_RISCV_TLSDESC")),
        },
        stub!(
            &[],
            words!(0x0000_0e17, 0x000e_3e03), // auipc t3, 0; ld t3, 0(t3)
            field!(0, R_RISCV_PCREL_HI20),
            Some(field!(4, R_RISCV_PCREL_LO12_I)),
            &words!(0x000e_0067) // jr t3
        )
    )
};
