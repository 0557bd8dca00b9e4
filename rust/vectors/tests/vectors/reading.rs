// SPDX-License-Identifier: MIT OR Apache-2.0
//! Words and addresses as `ld.lld` 19.1.7 links them without relaxation, with the code at 0x401ff8,
//! `v` at 0x7ff800 and `f` at 0x3ff000.

use linker_utils::aarch64::{self, AArch64Relocation};
use linker_utils::elf::{Operands, Row};
use linker_utils::loongarch64::{self, LoongArch64Relocation};
use linker_utils::ppc64::{self, Ppc64Relocation};
use linker_utils::reading::{FieldValue, join, read, solve};
use linker_utils::riscv64::{self, RiscVRelocation};

const V: u64 = 0x7ff800;

const F: u64 = 0x3ff000;

/// What is known of the address of a relocation at a place, from the word there.
fn address(row: Option<Row>, place: u64, word: u32) -> FieldValue {
    let row = row.expect("the relocation has a row");
    let value = read(&row, &word.to_le_bytes()).expect("the field holds a value");
    let operands = Operands { place, ..Operands::default() };
    solve(&row.info(), &value, &operands).expect("the row has an inverse")
}

#[test]
fn calls_lead_to_their_targets() {
    let call = aarch64::row(AArch64Relocation::R_AARCH64_CALL26);
    assert_eq!(address(call, 0x402000, 0x97ff_f400).number(), Some(F));
    let jal = riscv64::row(RiscVRelocation::R_RISCV_JAL);
    assert_eq!(address(jal, 0x402008, 0xff9f_c0ef).number(), Some(F));
    let bl = loongarch64::row(LoongArch64Relocation::R_LARCH_B26);
    assert_eq!(address(bl, 0x402000, 0x57d0_03ff).number(), Some(F));
}

#[test]
fn two_halves_are_one_address() {
    // `adrp` and `add`
    let high = aarch64::row(AArch64Relocation::R_AARCH64_ADR_PREL_PG_HI21);
    let low = aarch64::row(AArch64Relocation::R_AARCH64_ADD_ABS_LO12_NC);
    let high = address(high, 0x401ff8, 0xd000_1fe0);
    let low = address(low, 0x401ffc, 0x9120_0000);
    let whole = join(&high, &low).expect("the halves meet");
    assert_eq!(whole.number(), Some(V));
    // `auipc` and `addi`, whose place is that of the `auipc`
    let high = riscv64::row(RiscVRelocation::R_RISCV_PCREL_HI20);
    let low = riscv64::row(RiscVRelocation::R_RISCV_PCREL_LO12_I);
    let high = address(high, 0x401ff8, 0x003f_e517);
    let low = address(low, 0x401ff8, 0x8085_0513);
    let whole = join(&high, &low).expect("the halves meet");
    assert_eq!(whole.number(), Some(V));
    // `lis` and `addi`
    let high = ppc64::row(Ppc64Relocation::R_PPC64_ADDR16_HA);
    let low = ppc64::row(Ppc64Relocation::R_PPC64_ADDR16_LO);
    let high = address(high, 0x402000, 0x3c80_0080);
    let low = address(low, 0x402004, 0x3884_f800);
    let whole = join(&high, &low).expect("the halves meet");
    assert_eq!(whole.number(), Some(V));
    // `pcalau12i` and `addi.d`: nothing checks the high half, so bits 0 to 31 are known
    let high = loongarch64::row(LoongArch64Relocation::R_LARCH_PCALA_HI20);
    let low = loongarch64::row(LoongArch64Relocation::R_LARCH_PCALA_LO12);
    let high = address(high, 0x401ff8, 0x1a00_7fe4);
    let low = address(low, 0x401ffc, 0x02e0_0084);
    let whole = join(&high, &low).expect("the halves meet");
    assert!(whole.is_of(V));
    assert!(!whole.is_of(V + 1));
}

/// A `jirl` holds bits 2 to 11 of the low part, and a MOVK 16 bits without a sign.
#[test]
fn words_are_read_by_their_opcode() {
    let low = loongarch64::row(LoongArch64Relocation::R_LARCH_PCALA_LO12).expect("a row");
    for (word, number) in [(0x4c02_3581, 0x234), (0x4ff8_0180, 0x800), (0x02c4_d884, 0x136)] {
        let value = read(&low, &u32::to_le_bytes(word)).expect("the field holds a value");
        assert_eq!((value.known.start, value.known.end, value.bits), (0, 12, number), "{word:x}");
    }
    let g0 = aarch64::row(AArch64Relocation::R_AARCH64_MOVW_PREL_G0).expect("a row");
    for (word, is_read) in [(0xf29d_ff80, [true, true]), (0x9282_0060, [true, false])] {
        let value = read(&g0, &u32::to_le_bytes(word)).expect("the field holds a value");
        assert_eq!([-0x1004, 0xeffc].map(|v: i64| value.is_of(v as u64)), is_read);
    }
}
