// SPDX-License-Identifier: MIT OR Apache-2.0
// Made by tools/generate of crates/linker_output/src/x86_64.rt.
//! What a linker adds to an output of x86-64.

use crate::linker_output::description::{Target, plain};
use crate::linker_output::dynamic::{DynamicTypes, named};
use crate::linker_output::got::ThreadPointer;
use crate::linker_output::layout::{CodeUnit, ProvidedSymbol, SymbolPlace, interpreter};
use crate::linker_output::properties::LandingProperty;
use crate::linker_output::stubs::{field, stub};

/// The description.
pub(crate) static TARGET: Target = Target {
    thread_pointer: ThreadPointer::AboveImage,
    page: 0x1000,
    code_unit: CodeUnit {
        len: 1,
        flag: 0,
        flagged_len: 1,
    },
    filler: [0xcc, 0xcc, 0xcc, 0xcc],
    symbols: &[ProvidedSymbol {
        name: "_TLS_MODULE_BASE_",
        place: SymbolPlace::ThreadLocal,
        offset: 0,
    }],
    interpreters: &[interpreter!(0, "/lib64/ld-linux-x86-64.so.2")],
    // GNU_PROPERTY_X86_FEATURE_1_AND, and its bit IBT
    landing_property: Some(LandingProperty {
        kind: 0xc000_0002,
        bit: 1,
    }),
    landing_load_stub: Some(stub!(
        &[0xf3, 0x0f, 0x1e, 0xfa], // endbr64
        [0xff, 0x25, 0, 0, 0, 0, 0x66, 0x0f],
        field!(2, R_X86_64_PC32),
        None,
        &[0x1f, 0x44, 0, 0],
        0,
        6,
        -4
    )),
    ..plain!(
        X86_64,
        DynamicTypes {
            word: named!(1, "R_X86_64_64"),
            relative: named!(8, "R_X86_64_RELATIVE"),
            glob_dat: named!(6, "R_X86_64_GLOB_DAT"),
            jump_slot: named!(7, "R_X86_64_JUMP_SLOT"),
            copy: named!(5, "R_X86_64_COPY"),
            irelative: named!(37, "R_X86_64_IRELATIVE"),
            module_number: named!(16, "R_X86_64_DTPMOD64"),
            module_offset: named!(17, "R_X86_64_DTPOFF64"),
            thread_offset: named!(18, "R_X86_64_TPOFF64"),
            descriptor: Some(named!(36, "R_X86_64_TLSDESC")),
        },
        stub!(
            &[],
            [0xff, 0x25, 0, 0, 0, 0, 0xcc, 0xcc],
            field!(2, R_X86_64_PC32),
            None,
            &[],
            0,
            2,
            -4
        )
    )
};
