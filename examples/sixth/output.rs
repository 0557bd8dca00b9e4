//! What a linker adds to an output of the sixth architecture. No fact is that of AArch64, and few are
//! those of another architecture.

use crate::elf::{AllowedRange, Architecture};
use crate::linker_output::description::Target;
use crate::linker_output::dynamic::{DynamicTypes, named};
use crate::linker_output::flags::FlagRules;
use crate::linker_output::got::{GotHeader, GotLayout, ThreadPointer};
use crate::linker_output::layout::{
    CodeUnit, Interpreter, SaveRestoreRoutines, ProvidedSymbol, SymbolPlace,
};
use crate::linker_output::lazy_plt::{LazyField, LazyPiece, LazyPlt, LazyTarget, LazyWord};
use crate::linker_output::stubs::{Stub, StubField};

/// The description.
pub(crate) static TARGET: Target = Target {
    dynamic: DynamicTypes {
        word: named!(1027, "R_SIXTH_WORD"),
        relative: named!(1024, "R_SIXTH_RELATIVE"),
        glob_dat: named!(1026, "R_SIXTH_GLOB_DAT"),
        jump_slot: named!(1025, "R_SIXTH_JUMP_SLOT"),
        copy: named!(1032, "R_SIXTH_COPY"),
        irelative: named!(1028, "R_SIXTH_IRELATIVE"),
        module_number: named!(1030, "R_SIXTH_TLS_MODULE"),
        module_offset: named!(1031, "R_SIXTH_TLS_MODULE_OFFSET"),
        thread_offset: named!(1029, "R_SIXTH_TLS_OFFSET"),
        descriptor: None,
    },
    thread_pointer: ThreadPointer::BelowImage {
        reserved: 0x1230,
        bias: 0x10,
    },
    module_bias: 0x80,
    got: GotLayout {
        header: Some(GotHeader::Base),
        bias: 0x100,
    },
    address_section: None,
    page: 0x4000,
    code_unit: CodeUnit {
        len: 4,
        flag: 0,
        flagged_len: 4,
    },
    filler: [0x1f, 0x20, 0x03, 0xd5], // nop
    flags: FlagRules {
        same: 0x30,
        joined: 0x107,
        own: 0x100,
    },
    symbols: &[ProvidedSymbol {
        name: "__sixth_pointer",
        place: SymbolPlace::Got,
        offset: 0x100,
    }],
    runs: &[
        // `str x19, [sp]` and `str x20, [sp, 8]`
        SaveRestoreRoutines {
            prefix: "_keep_",
            first: 19,
            count: 2,
            word: 0xf900_03f3,
            step: 0x401,
            second: None,
            tail: &[0xd65f_03c0], // ret
        },
    ],
    interpreter_flags: 0x30,
    interpreters: &[
        Interpreter {
            flags: 0x10,
            path: "/lib/ld-sixth-short.so.1",
        },
        Interpreter {
            flags: 0x20,
            path: "/lib/ld-sixth.so.1",
        },
    ],
    dynamic_tags: &[],
    landing_property: None,
    instructions: Architecture::Sixth,
    load_stub: Stub {
        head: &[
            0x5f, 0x24, 3, 0xd5, // bti c
        ],
        pair: [
            0x0e, 0, 0, 0x90, // adrp x14, 0
            0xcf, 1, 0x40, 0xf9, // ldr x15, [x14]
        ],
        first: field(0, 20),
        second: Some(field(4, 62)),
        tail: &[
            0xe0, 1, 0x1f, 0xd6, // br x15
            0x20, 0, 0x20, 0xd4, // brk 1
        ],
        entry: 0,
        origin: 4,
        addend: 0,
    },
    landing_load_stub: None,
    jump_stub: Some(Stub {
        head: &[],
        pair: [
            0x0e, 0, 0, 0x90, // adrp x14, 0
            0xce, 1, 0, 0x91, // add x14, x14, 0
        ],
        first: field(0, 20),
        second: Some(field(4, 24)),
        tail: &[
            0xc0, 1, 0x1f, 0xd6, // br x14
            0x20, 0, 0x20, 0xd4, // brk 1
        ],
        entry: 0,
        origin: 0,
        addend: 0,
    }),
    far_stub: None,
    far_relative_stub: None,
    toc_load_stub: None,
    toc_far_stub: None,
    prefixed_load_stub: None,
    prefixed_jump_stub: None,
};

/// A field at an offset, with the value of a relocation.
const fn field(offset: usize, relocation: u32) -> StubField {
    StubField {
        offset,
        relocation,
        range: AllowedRange { bounds: None },
    }
}

/// An instruction with a field, whose value is computed from the word of an entry.
const fn of_word(code: [u8; 8], field: StubField) -> LazyPiece {
    LazyPiece {
        code,
        len: 4,
        field: Some(LazyField {
            field,
            target: LazyTarget::Word,
            origin: 0,
            addend: 0,
        }),
    }
}

/// The lazy PLT, whose header only traps.
pub(crate) static LAZY_PLT: LazyPlt = LazyPlt {
    instructions: Architecture::Sixth,
    alignment: 8,
    header: &[LazyPiece {
        code: [0x20, 0, 0x20, 0xd4, 0x1f, 0x20, 3, 0xd5], // brk 1, nop
        len: 8,
        field: None,
    }],
    entry: &[
        of_word([0x0e, 0, 0, 0x90, 0, 0, 0, 0], field(0, 20)), // adrp x14, 0
        of_word([0xcf, 1, 0x40, 0xf9, 0, 0, 0, 0], field(0, 62)), // ldr x15, [x14]
        LazyPiece {
            code: [0xe0, 1, 0x1f, 0xd6, 0x20, 0, 0x20, 0xd4], // br x15, brk 1
            len: 8,
            field: None,
        },
    ],
    header_words: &[LazyWord::Dynamic],
    word: LazyWord::Header,
};
