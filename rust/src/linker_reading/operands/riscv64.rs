// SPDX-License-Identifier: MIT OR Apache-2.0
// Made by tools/generate of crates/linker_reading/src/operands/riscv64.rt.
//! The instructions of RISC-V with an immediate.

use crate::linker_reading::operands::{Base, Encoding, encoding};
use crate::linker_elf::elf::{AnyForm, RiscVInstruction};

macro_rules! rv {
    ($mask:literal, $bits:literal, $form:ident) => {
        encoding!(4, $mask, $bits, RiscV [RiscVInstruction::$form])
    };
}

macro_rules! rvc {
    ($mask:literal, $bits:literal $(, $form:ident)?) => {
        encoding!(2, $mask, $bits, RiscV [$(RiscVInstruction::$form)?])
    };
}

/// LUI or AUIPC, and an instruction whose base is its destination.
macro_rules! rv_pair {
    ($mask:literal, $bits:literal) => {
        Encoding {
            len: 8,
            mask: $mask << 32 | 0x5f,
            bits: $bits << 32 | 0x17,
            base: Base::From7And47,
            forms: &[
                AnyForm::RiscV(RiscVInstruction::UType),
                AnyForm::RiscV(RiscVInstruction::UiType),
            ],
        }
    };
}

/// RISC-V unprivileged ISA, "RV32/64G Instruction Set Listings" and "RVC Instruction Set Listings".
pub(super) static ENCODINGS: &[Encoding] = &[
    // x0 is no base
    rv!(0xfdf, 0x17, UType),
    rv_pair!(0x707f, 0x13),
    rv_pair!(0x707f, 0x67),
    rv_pair!(0x407f, 0x03),
    rv_pair!(0x607f, 0x4003),
    rv_pair!(0x707f, 0x6003),
    rv_pair!(0x707f, 0x1007),
    rv_pair!(0x607f, 0x2007),
    rv!(0x5f, 0x17, UType),
    rv!(0x707f, 0x13, IType),
    rv!(0x607f, 0x2013, IType),
    rv!(0x707f, 0x4013, IType),
    rv!(0x607f, 0x6013, IType),
    rv!(0x707f, 0x1b, IType),
    rv!(0x707f, 0x67, IType),
    rv!(0x407f, 0x03, IType),
    rv!(0x607f, 0x4003, IType),
    rv!(0x707f, 0x6003, IType),
    rv!(0x707f, 0x1007, IType),
    rv!(0x607f, 0x2007, IType),
    rv!(0x407f, 0x23, SType),
    rv!(0x707f, 0x1027, SType),
    rv!(0x607f, 0x2027, SType),
    rv!(0x607f, 0x63, BType),
    rv!(0x407f, 0x4063, BType),
    rv!(0x7f, 0x6f, JType),
    rvc!(0xc003, 0xc001, CbType),
    rvc!(0xe003, 0xa001, CjType),
    // C.ADDI16SP
    rvc!(0xef83, 0x6101),
    rvc!(0xe003, 0x6001, CluiType),
];
