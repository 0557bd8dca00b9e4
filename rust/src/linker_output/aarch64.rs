// SPDX-License-Identifier: MIT OR Apache-2.0
// Made by tools/generate of crates/linker_output/src/aarch64.rt.
//! What a linker adds to an output of AArch64.

use crate::linker_output::description::{Target, plain};
use crate::linker_output::dynamic::{DynamicTypes, named};
use crate::linker_output::got::ThreadPointer;
use crate::linker_output::layout::interpreter;
use crate::linker_output::properties::LandingProperty;
use crate::linker_output::stubs::{field, stub, words};
use crate::linker_output::tags::tag;

/// The stub to the address that a word has, after other code of a length.
macro_rules! load_stub {
    ($head:expr, $len:literal) => {
        stub!(
            $head,
            words!(0x9000_0010, 0xf940_0211), // adrp x16, 0; ldr x17, [x16]
            field!(0, R_AARCH64_ADR_PREL_PG_HI21),
            Some(field!(4, R_AARCH64_LDST64_ABS_LO12_NC)),
            &words!(0xd61f_0220), // br x17
            0,
            $len,
            0
        )
    };
}

/// The description.
pub(crate) static TARGET: Target = Target {
    dynamic_tags: &[
        tag!(0x7000_0001, LandingPlt), // DT_AARCH64_BTI_PLT
        tag!(0x7000_0003, SignedPlt), // DT_AARCH64_PAC_PLT
        tag!(0x7000_0005, VariantCalls), // DT_AARCH64_VARIANT_PCS
    ],
    thread_pointer: ThreadPointer::BelowImage {
        reserved: 16,
        bias: 0,
    },
    interpreters: &[interpreter!(0, "/lib/ld-linux-aarch64.so.1")],
    // GNU_PROPERTY_AARCH64_FEATURE_1_AND, and its bit BTI
    landing_property: Some(LandingProperty {
        kind: 0xc000_0000,
        bit: 1,
    }),
    landing_load_stub: Some(load_stub!(&words!(0xd503_245f), 4)), // bti c
    jump_stub: Some(stub!(
        &[],
        words!(0x9000_0010, 0x9100_0210), // adrp x16, 0; add x16, x16, 0
        field!(0, R_AARCH64_ADR_PREL_PG_HI21),
        Some(field!(4, R_AARCH64_ADD_ABS_LO12_NC)),
        &words!(0xd61f_0200) // br x16
    )),
    far_stub: Some(stub!(
        &words!(0x5800_0050, 0xd61f_0200), // ldr x16, 8; br x16
        [0; 8],
        field!(0, R_AARCH64_ABS64),
        None,
        &[],
        0,
        8,
        0
    )),
    far_relative_stub: Some(stub!(
        // ldr x16, 16; adr x17, 0; add x16, x16, x17; br x16
        &words!(0x5800_0090, 0x1000_0011, 0x8b11_0210, 0xd61f_0200),
        [0; 8],
        field!(0, R_AARCH64_PREL64),
        None,
        &[],
        0,
        16,
        12 // from `adr`
    )),
    ..plain!(
        AArch64,
        DynamicTypes {
            word: named!(257, "R_AARCH64_ABS64"),
            relative: named!(1027, "R_AARCH64_RELATIVE"),
            glob_dat: named!(1025, "R_AARCH64_GLOB_DAT"),
            jump_slot: named!(1026, "R_AARCH64_JUMP_SLOT"),
            copy: named!(1024, "R_AARCH64_COPY"),
            irelative: named!(1032, "R_AARCH64_IRELATIVE"),
            module_number: named!(1028, "R_AARCH64_TLS_DTPMOD"),
            module_offset: named!(1029, "R_AARCH64_TLS_DTPREL"),
            thread_offset: named!(1030, "R_AARCH64_TLS_TPREL"),
            descriptor: Some(named!(1031, "R_AARCH64_TLSDESC")),
        },
        load_stub!(&[], 0)
    )
};
