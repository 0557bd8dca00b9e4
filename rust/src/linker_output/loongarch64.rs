// SPDX-License-Identifier: MIT OR Apache-2.0
// Made by tools/generate of crates/linker_output/src/loongarch64.rt.
//! What a linker adds to an output of LoongArch.

use crate::linker_output::description::{Target, plain};
use crate::linker_output::dynamic::{DynamicTypes, named};
use crate::linker_output::flags::FlagRules;
use crate::linker_output::layout::interpreter;
use crate::linker_output::stubs::{field, stub, words};

/// The description.
pub(crate) static TARGET: Target = Target {
    filler: [0, 0, 0x2a, 0],
    flags: FlagRules {
        same: 0xc7,
        joined: 0,
        own: 0,
    },
    interpreter_flags: 7,
    interpreters: &[
        interpreter!(1, "/lib64/ld-linux-loongarch-lp64s.so.1"),
        interpreter!(2, "/lib64/ld-linux-loongarch-lp64f.so.1"),
        interpreter!(3, "/lib64/ld-linux-loongarch-lp64d.so.1"),
    ],
    jump_stub: Some(stub!(
        &[],
        words!(0x1e00_000f, 0x4c00_01e0), // pcaddu18i $t3, 0; jirl $zero, $t3, 0
        field!(0, R_LARCH_CALL36),
        None,
        &[]
    )),
    ..plain!(
        LoongArch64,
        DynamicTypes {
            word: named!(2, "R_LARCH_64"),
            relative: named!(3, "R_LARCH_RELATIVE"),
            glob_dat: named!(2, "R_LARCH_64"),
            jump_slot: named!(5, "R_LARCH_JUMP_SLOT"),
            copy: named!(4, "R_LARCH_COPY"),
            irelative: named!(12, "R_LARCH_IRELATIVE"),
            module_number: named!(7, "R_LARCH_TLS_DTPMOD64"),
            module_offset: named!(9, "R_LARCH_TLS_DTPREL64"),
            thread_offset: named!(11, "R_LARCH_TLS_TPREL64"),
            descriptor: Some(named!(14, "R_LARCH_TLS_DESC64")),
        },
        stub!(
            &[],
            words!(0x1a00_000f, 0x28c0_01ef), // pcalau12i $t3, 0; ld.d $t3, $t3, 0
            field!(0, (R_LARCH_GOT_PC_HI20, signed 32)),
            Some(field!(4, R_LARCH_GOT_PC_LO12)),
            &words!(0x4c00_01e0) // jirl $zero, $t3, 0
        )
    )
};
