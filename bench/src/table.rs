// SPDX-License-Identifier: MIT OR Apache-2.0
//! What is measured: forms, rewrites and the mixes of relocations.

use sathunne::Architecture;

pub const AARCH64: u16 = Architecture::AArch64.machine();
pub const RISCV: u16 = Architecture::RiscV.machine();
pub const LOONGARCH64: u16 = Architecture::LoongArch64.machine();
pub const PPC64: u16 = Architecture::Ppc64.machine();
pub const X86_64: u16 = Architecture::X86_64.machine();

pub const MACHINES: [u16; 5] = [AARCH64, RISCV, LOONGARCH64, PPC64, X86_64];

/// What the tables call a machine.
pub fn name_of(machine: u16) -> &'static str {
    match machine {
        AARCH64 => "AArch64",
        RISCV => "RISC-V",
        LOONGARCH64 => "LoongArch",
        PPC64 => "PowerPC64",
        _ => "x86-64",
    }
}

/// Gives a macro the forms of each machine: number, name, how many values are tried (those below
/// that), and where the original crate's reads are not ours (docs/DIFFERENCES.md).
macro_rules! forms {
    ($then:ident) => {
        $then! {
            AARCH64 AArch64 AArch64Instruction {
                0 Adr (1 << 21) Same, 1 Movkz (1 << 16) Same, 2 Movnz (1 << 64) Same,
                3 Ldr (1 << 19) Same, 4 LdrRegister (1 << 12) Same, 5 Add (1 << 12) Same,
                6 LdSt (1 << 12) Same, 7 TstBr (1 << 14) Same, 8 Bcond (1 << 19) Same,
                9 JumpCall (1 << 26) Same, 10 MachOLow12 (1 << 12) Missing
            }
            RISCV RiscV RiscVInstruction {
                0 UType (1 << 64) Other, 1 IType (1 << 64) Same, 2 SType (1 << 64) Same,
                3 BType (1 << 64) Same, 4 JType (1 << 64) Same, 5 CbType (1 << 64) Same,
                6 CjType (1 << 64) Same, 7 CluiType (1 << 64) Same, 8 UiType (1 << 64) Other
            }
            LOONGARCH64 LoongArch64 LoongArch64Instruction {
                0 Shift5 (1 << 20) Same, 1 Shift10 (1 << 12) Same, 2 Branch26 (1 << 26) Same,
                3 Branch21 (1 << 21) Same, 4 Call30 (1 << 20) Other,
                // no carry out of the high part, which the original crate puts next to the field
                5 Call36 ((1 << 36) - 0x8000) Other
            }
            PPC64 Ppc64 Ppc64Instruction {
                0 D (1 << 64) Same, 1 Ds (1 << 64) Same, 2 Branch14 (1 << 64) Same,
                3 Branch24 (1 << 64) Same
            }
        }
    };
}
pub(crate) use forms;

/// The original crate's reads of a form.
#[derive(Clone, Copy, PartialEq)]
pub enum Reads {
    Same,
    /// They return another value.
    Other,
    /// It has none.
    Missing,
}

pub struct Form {
    pub machine: u16,
    pub number: u32,
    pub name: &'static str,
    pub values: u128,
    pub reads: Reads,
}

macro_rules! form_table {
    ($($machine:ident $variant:ident $kind:ident {
        $($number:literal $form:ident $values:tt $reads:ident),*
    })*) => {
        pub const FORMS: &[Form] = &[$($(Form {
            machine: $machine,
            number: $number,
            name: stringify!($form),
            values: $values,
            reads: Reads::$reads,
        }),*),*];
    };
}
forms!(form_table);

/// Gives a macro the rewrites of each machine: number, name, and its parameter where it has one.
macro_rules! rewrites {
    ($then:ident) => {
        $then! {
            AARCH64 AArch64 aarch64 {
                0 NoOp, 1 ReplaceWithNop, 2 MovzX0Lsl16, 3 MovkX0, 4 MovzXnLsl16, 5 MovkXn,
                6 AdrpToAdr, 7 AdrpX0, 8 LdrX0, 9 AddToAdr, 10 LdrToAdr, 11 LdrToAdd,
                12 AdrpAddToNopAdr
            }
            RISCV RiscV riscv64 {
                0 NoOp, 1 ReplaceWithNop, 2 CallToJal, 3 Hi20ToCLui, 4 Hi20Delete, 5 Lo12Rs1ToZero
            }
            LOONGARCH64 LoongArch64 loongarch64 { 0 NoOp, 1 ReplaceWithNop }
            PPC64 Ppc64 ppc64 { 0 NoOp }
            X86_64 X86 x86_64 {
                0 MovIndirectToLea, 1 MovIndirectToAbsolute, 2 RexMovIndirectToAbsolute(3),
                2 RexMovIndirectToAbsolute(4), 2 RexMovIndirectToAbsolute(6),
                3 RexAddIndirectToAbsolute(2), 3 RexAddIndirectToAbsolute(3),
                3 RexAddIndirectToAbsolute(4), 3 RexAddIndirectToAbsolute(6),
                4 RexSubIndirectToAbsolute(3), 4 RexSubIndirectToAbsolute(4),
                4 RexSubIndirectToAbsolute(6), 5 RexCmpIndirectToAbsolute(3),
                5 RexCmpIndirectToAbsolute(4), 5 RexCmpIndirectToAbsolute(6),
                6 CallIndirectToRelative, 7 JmpIndirectToRelative, 8 NoOp, 9 TlsGdToLocalExec,
                10 TlsGdToLocalExecLarge, 11 TlsLdToLocalExec, 12 TlsLdToLocalExecNoPlt,
                13 TlsLdToLocalExec64, 14 TlsGdToInitialExec, 15 TlsDescToLocalExec(3),
                15 TlsDescToLocalExec(4), 16 TlsDescToInitialExec, 17 SkipTlsDescCall
            }
        }
    };
}
pub(crate) use rewrites;

#[derive(Clone, Copy)]
pub struct Rewrite {
    pub machine: u16,
    pub number: u32,
    pub n: u8,
    pub name: &'static str,
}

impl Rewrite {
    /// Whether the original crate writes the same bytes: not where it has another `nop`.
    pub fn is_same(&self) -> bool {
        (self.machine, self.number) != (LOONGARCH64, 1)
    }
}

macro_rules! rewrite_table {
    ($($machine:ident $variant:ident $module:ident {
        $($number:literal $rewrite:ident $(($n:literal))?),*
    })*) => {
        pub const REWRITES: &[Rewrite] = &[$($(Rewrite {
            machine: $machine,
            number: $number,
            n: 0 $(+ $n)?,
            name: concat!(stringify!($rewrite) $(, "(", stringify!($n), ")")?),
        }),*),*];
    };
}
rewrites!(rewrite_table);

/// The types of AArch64's relocations whose rows differ on purpose (docs/DIFFERENCES.md):
/// `R_AARCH64_GOTREL64`, `R_AARCH64_GOTREL32`, `R_AARCH64_GOT_LD_PREL19`,
/// `R_AARCH64_TLSLD_LD_PREL19` and `R_AARCH64_TLSGD_MOVW_G1`.
pub const OTHER_ROWS: [u32; 5] = [307, 308, 309, 522, 515];

/// The types of LoongArch's relocations that the original crate may know by others:
/// `R_LARCH_CALL30` and `R_LARCH_PCADD_HI20`.
pub const OTHER_TYPES: [u32; 2] = [127, 128];

/// How often each relocation comes, in parts, in programs of a machine.
pub const MIXES: [(u16, &str, &[(&str, usize)]); 5] = [
    (
        AARCH64,
        "R_AARCH64_",
        &[
            ("CALL26", 114),
            ("ADD_ABS_LO12_NC", 28),
            ("ADR_PREL_PG_HI21", 25),
            ("ABS64", 19),
            ("LDST64_ABS_LO12_NC", 17),
            ("CONDBR19", 30),
            ("JUMP26", 20),
        ],
    ),
    (
        RISCV,
        "R_RISCV_",
        &[
            ("CALL_PLT", 122),
            ("HI20", 51),
            ("LO12_I", 55),
            ("LO12_S", 11),
            ("RVC_BRANCH", 15),
            ("RVC_JUMP", 15),
            ("BRANCH", 16),
            ("64", 19),
            ("32", 13),
            ("PCREL_HI20", 22),
            ("PCREL_LO12_I", 48),
        ],
    ),
    (
        LOONGARCH64,
        "R_LARCH_",
        &[
            ("B26", 134),
            ("B21", 15),
            ("B16", 13),
            ("PCALA_HI20", 22),
            ("PCALA_LO12", 22),
        ],
    ),
    (
        PPC64,
        "R_PPC64_",
        &[
            ("REL24", 121),
            ("ADDR64", 38),
            ("TOC16_HA", 36),
            ("TOC16_LO_DS", 34),
            ("TOC16_LO", 10),
        ],
    ),
    (
        X86_64,
        "R_X86_64_",
        &[("PC32", 50), ("PLT32", 100), ("GOTPCRELX", 52), ("64", 13)],
    ),
];
