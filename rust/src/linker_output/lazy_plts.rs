// SPDX-License-Identifier: MIT OR Apache-2.0
// Made by tools/generate of crates/linker_output/src/lazy_plts.rt.
//! The lazy PLTs of the architectures.

use crate::linker_output::lazy_plt::{LazyField, LazyPiece, LazyPlt, LazyTarget, LazyWord};
use crate::linker_output::stubs::{field, words};
use crate::elf::Architecture;

/// Code of a length, and its field: the place, the relocation, what the value is computed from, the
/// origin and the addend.
macro_rules! piece {
    ($code:expr, $len:literal) => {
        piece!($code, $len, None)
    };
    ($code:expr, $len:literal, $field:expr) => {
        LazyPiece {
            code: $code,
            len: $len,
            field: $field,
        }
    };
    (
        $code:expr, $len:literal, $place:literal, $relocation:tt, $target:ident, $origin:literal,
        $addend:expr
    ) => {
        piece!(
            $code,
            $len,
            Some(LazyField {
                field: field!($place, $relocation),
                target: LazyTarget::$target,
                origin: $origin,
                addend: $addend,
            })
        )
    };
}

/// An instruction of 4 bytes, and its field.
macro_rules! one {
    ($word:literal $(, $field:tt)*) => {
        piece!(words!($word, 0), 4 $(, $field)*)
    };
}

/// Two instructions of 4 bytes.
macro_rules! two {
    ($first:literal, $second:literal) => {
        piece!(words!($first, $second), 8)
    };
}

/// An opcode of x86-64, and its field of 4 bytes.
macro_rules! opcode {
    ([$first:literal], $($field:tt),*) => {
        piece!([$first, 0, 0, 0, 0, 0, 0, 0], 5, 1 $(, $field)*)
    };
    ([$first:literal, $second:literal], $($field:tt),*) => {
        piece!([$first, $second, 0, 0, 0, 0, 0, 0], 6, 2 $(, $field)*)
    };
}

/// Pieces of AArch64's code, `adrp`, `ldr` and `add`, whose first is at an offset, of the address
/// of a word or so far above it, and other pieces.
macro_rules! loads {
    ([$($before:expr),*], $origin:literal, $addend:literal, [$($after:expr),*]) => {
        &[
            $($before,)*
            one!(0x9000_0010, 0, R_AARCH64_ADR_PREL_PG_HI21, Word, $origin, $addend), // adrp x16, 0
            one!(0xf940_0211, 0, R_AARCH64_LDST64_ABS_LO12_NC, Word, $origin, $addend), // ldr x17, [x16, 0]
            one!(0x9100_0210, 0, R_AARCH64_ADD_ABS_LO12_NC, Word, $origin, $addend), // add x16, x16, 0
            $($after,)*
        ]
    };
}

/// AArch64's, of a header and an entry.
macro_rules! aarch64 {
    ($header:expr, $entry:expr) => {
        LazyPlt {
            instructions: Architecture::AArch64,
            alignment: 16,
            header: $header,
            entry: $entry,
            header_words: &[LazyWord::Zero, LazyWord::Zero, LazyWord::Zero],
            word: LazyWord::Header,
        }
    };
}

/// `stp x16, x30, [sp, -16]!`, the pieces, and `br x17`.
macro_rules! header {
    () => {
        loads!(
            [one!(0xa9bf_7bf0)],
            4,
            16,
            [
                two!(0xd61f_0220, 0xd503_201f), // br x17; nop
                two!(0xd503_201f, 0xd503_201f)  // nop; nop
            ]
        )
    };
}

/// The same after `bti c`.
macro_rules! landing_header {
    () => {
        loads!(
            [two!(0xd503_245f, 0xa9bf_7bf0)], // bti c; stp
            8,
            16,
            [
                two!(0xd61f_0220, 0xd503_201f), // br x17; nop
                one!(0xd503_201f)               // nop
            ]
        )
    };
}

/// An entry of 24 bytes that ends in two instructions.
macro_rules! wide_entry {
    ($first:literal, $second:literal) => {
        loads!([], 0, 0, [two!($first, $second), one!(0xd503_201f)]) // nop
    };
}

/// The same after `bti c`.
macro_rules! landing_entry {
    ($first:literal, $second:literal) => {
        loads!([one!(0xd503_245f)], 4, 0, [two!($first, $second)])
    };
}

/// AArch64.
#[cfg(feature = "aarch64")]
pub(crate) static AARCH64: LazyPlt = aarch64!(
    header!(),
    loads!([], 0, 0, [one!(0xd61f_0220)]) // br x17
);

/// AArch64, whose header begins with `bti c`.
#[cfg(feature = "aarch64")]
pub(crate) static AARCH64_LANDING: LazyPlt = aarch64!(
    landing_header!(),
    wide_entry!(0xd61f_0220, 0xd503_201f) // br x17; nop
);

/// AArch64, whose header and entries begin with `bti c`.
#[cfg(feature = "aarch64")]
pub(crate) static AARCH64_LANDING_ENTRY: LazyPlt = aarch64!(
    landing_header!(),
    landing_entry!(0xd61f_0220, 0xd503_201f) // br x17; nop
);

/// AArch64, whose entries authenticate the address.
#[cfg(feature = "aarch64")]
pub(crate) static AARCH64_AUTHENTICATED: LazyPlt = aarch64!(
    header!(),
    wide_entry!(0xd503_219f, 0xd61f_0220) // autia1716; br x17
);

/// The same, whose header begins with `bti c`.
#[cfg(feature = "aarch64")]
pub(crate) static AARCH64_AUTHENTICATED_LANDING: LazyPlt = aarch64!(
    landing_header!(),
    wide_entry!(0xd503_219f, 0xd61f_0220) // autia1716; br x17
);

/// The same, whose header and entries begin with `bti c`.
#[cfg(feature = "aarch64")]
pub(crate) static AARCH64_AUTHENTICATED_LANDING_ENTRY: LazyPlt = aarch64!(
    landing_header!(),
    landing_entry!(0xd503_219f, 0xd61f_0220) // autia1716; br x17
);

/// LoongArch.
#[cfg(feature = "loongarch64")]
pub(crate) static LOONGARCH64: LazyPlt = LazyPlt {
    instructions: Architecture::LoongArch64,
    alignment: 16,
    header: &[
        one!(0x1c00_000e, 0, (R_LARCH_TLS_LE_HI20_R, signed 32), Word, 0, 0), // pcaddu12i $t2, 0
        one!(0x0011_bdad), // sub.d $t1, $t1, $t3
        one!(0x28c0_01cf, 0, R_LARCH_TLS_LE_LO12_R, Word, 0, 0), // ld.d $t3, $t2, 0
        one!(0x02ff_51ad), // addi.d $t1, $t1, -44
        one!(0x02c0_01cc, 0, R_LARCH_TLS_LE_LO12_R, Word, 0, 0), // addi.d $t0, $t2, 0
        two!(0x0045_05ad, 0x28c0_218c), // srli.d $t1, $t1, 1; ld.d $t0, $t0, 8
        one!(0x4c00_01e0), // jr $t3
    ],
    entry: &[
        one!(0x1c00_000f, 0, (R_LARCH_TLS_LE_HI20_R, signed 32), Word, 0, 0), // pcaddu12i $t3, 0
        one!(0x28c0_01ef, 0, R_LARCH_TLS_LE_LO12_R, Word, 0, 0), // ld.d $t3, $t3, 0
        two!(0x4c00_01ed, 0x0340_0000), // jirl $t1, $t3, 0; nop
    ],
    header_words: &[LazyWord::Zero, LazyWord::Zero],
    word: LazyWord::Header,
};

/// PowerPC64.
#[cfg(feature = "ppc64")]
pub(crate) static PPC64: LazyPlt = LazyPlt {
    instructions: Architecture::Ppc64,
    alignment: 4,
    header: &[
        two!(0x7c08_02a6, 0x429f_0005), // mflr 0; bcl 20, 31, .+4
        two!(0x7d68_02a6, 0x7c08_03a6), // mflr 11; mtlr 0
        two!(0x7d8b_6050, 0x380c_ffcc), // sub 12, 12, 11; addi 0, 12, -52
        two!(0x7800_f082, 0xe98b_002c), // srdi 0, 0, 2; ld 12, 44(11)
        two!(0x7d6c_5a14, 0xe98b_0000), // add 11, 12, 11; ld 12, 0(11)
        two!(0xe96b_0008, 0x7d89_03a6), // ld 11, 8(11); mtctr 12
        one!(0x4e80_0420), // bctr
        // how far `.plt` is above the third instruction
        piece!([0; 8], 8, 0, R_PPC64_REL64, Word, 8, 0),
    ],
    entry: &[
        one!(0x4800_0000, 0, R_PPC64_REL24, Header, 0, 0), // b header
    ],
    header_words: &[LazyWord::Zero, LazyWord::Zero],
    word: LazyWord::Entry(0),
};

/// RISC-V.
#[cfg(feature = "riscv64")]
pub(crate) static RISCV64: LazyPlt = LazyPlt {
    instructions: Architecture::RiscV,
    alignment: 16,
    header: &[
        one!(0x0000_0397, 0, R_RISCV_PCREL_HI20, Word, 0, 0), // auipc t2, 0
        one!(0x41c3_0333), // sub t1, t1, t3
        one!(0x0003_be03, 0, R_RISCV_PCREL_LO12_I, Word, 0, 0), // ld t3, 0(t2)
        one!(0xfd43_0313), // addi t1, t1, -44
        one!(0x0003_8293, 0, R_RISCV_PCREL_LO12_I, Word, 0, 0), // addi t0, t2, 0
        two!(0x0013_5313, 0x0082_b283), // srli t1, t1, 1; ld t0, 8(t0)
        one!(0x000e_0067), // jr t3
    ],
    entry: &[
        one!(0x0000_0e17, 0, R_RISCV_PCREL_HI20, Word, 0, 0), // auipc t3, 0
        one!(0x000e_3e03, 0, R_RISCV_PCREL_LO12_I, Word, 0, 0), // ld t3, 0(t3)
        two!(0x000e_0367, 0x0000_0013), // jalr t1, t3; nop
    ],
    header_words: &[LazyWord::Zero, LazyWord::Zero],
    word: LazyWord::Header,
};

/// x86-64's, of an entry and its word.
macro_rules! x86_64 {
    ($entry:expr, $word:literal) => {
        LazyPlt {
            instructions: Architecture::X86_64,
            alignment: 16,
            header: &[
                opcode!([0xff, 0x35], R_X86_64_PC32, Word, 2, 4), // push 8+words(%rip)
                opcode!([0xff, 0x25], R_X86_64_PC32, Word, 8, 12), // jmp *16+words(%rip)
                piece!([0xf, 0x1f, 0x40, 0, 0, 0, 0, 0], 4), // nopl 0(%rax)
            ],
            entry: $entry,
            header_words: &[LazyWord::Dynamic, LazyWord::Zero, LazyWord::Zero],
            word: LazyWord::Entry($word),
        }
    };
}

/// x86-64.
#[cfg(feature = "x86_64")]
pub(crate) static X86_64: LazyPlt = x86_64!(
    &[
        opcode!([0xff, 0x25], R_X86_64_PC32, Word, 2, (-4)), // jmp *word(%rip)
        opcode!([0x68], R_X86_64_32S, Index, 0, 0),          // push index
        opcode!([0xe9], R_X86_64_PC32, Header, 12, (-4)),    // jmp header
    ],
    6
);

/// x86-64, to whose entries stubs come that begin with `endbr64` too.
#[cfg(feature = "x86_64")]
pub(crate) static X86_64_LANDING: LazyPlt = x86_64!(
    &[
        piece!([0xf3, 0xf, 0x1e, 0xfa, 0, 0, 0, 0], 4), // endbr64
        opcode!([0x68], R_X86_64_32S, Index, 0, 0),     // push index
        opcode!([0xe9], R_X86_64_PC32, Header, 10, (-4)), // jmp header
        piece!([0x66, 0x90, 0, 0, 0, 0, 0, 0], 2),      // xchg %ax,%ax
    ],
    0
);
