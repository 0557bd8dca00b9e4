// SPDX-License-Identifier: MIT OR Apache-2.0
//! Words of assemblers and linkers, as the static library writes and reads them. The tables are those
//! of the tests of the Rust crate, in `rust/vectors`.
#![allow(dead_code, reason = "some tables are of calls that this crate hasn't")]

use sathunne::*;

#[rustfmt::skip]
#[path = "../../../rust/vectors/tests/vectors/aarch64/fields.rs"]
mod aarch64_fields;
#[rustfmt::skip]
#[path = "../../../rust/vectors/tests/vectors/aarch64/moves.rs"]
mod aarch64_moves;
#[rustfmt::skip]
#[path = "../../../rust/vectors/tests/vectors/aarch64/offsets.rs"]
mod aarch64_offsets;
#[rustfmt::skip]
#[path = "../../../rust/vectors/tests/vectors/loongarch64/assembled.rs"]
mod loongarch64_assembled;
#[rustfmt::skip]
#[path = "../../../rust/vectors/tests/vectors/loongarch64/linked.rs"]
mod loongarch64_linked;
#[rustfmt::skip]
#[path = "../../../rust/vectors/tests/vectors/loongarch64/relaxed.rs"]
mod loongarch64_relaxed;
#[rustfmt::skip]
#[path = "../../../rust/vectors/tests/vectors/ppc64/linked.rs"]
mod ppc64_linked;
#[rustfmt::skip]
#[path = "../../../rust/vectors/tests/vectors/riscv64/linked.rs"]
mod riscv64_linked;
#[rustfmt::skip]
#[path = "../../../rust/vectors/tests/vectors/riscv64/pairs.rs"]
mod riscv64_pairs;
#[rustfmt::skip]
#[path = "../../../rust/vectors/tests/vectors/riscv64/words.rs"]
mod riscv64_words;

/// The bytes after a write.
fn written<const N: usize>(
    form: impl Into<Form>,
    before: [u8; N],
    value: u64,
    negative: bool,
) -> [u8; N] {
    let (form, mut bytes) = (form.into(), before);
    let outcome = write(form, value, negative, &mut bytes);
    assert_eq!(outcome, Ok(()), "{form:?}, {value:x}");
    bytes
}

/// The bytes of a section after a rewrite of the instruction at an offset, which stays.
fn rewritten<const N: usize>(rewrite: RiscVRewrite, before: [u8; N], at: u64) -> [u8; N] {
    let (mut section, mut offset, mut addend) = (before, at, 0);
    let outcome = apply(rewrite, &mut section, &mut offset, &mut addend);
    assert_eq!((outcome, offset, addend), (Ok(()), at, 0), "{rewrite:?}");
    section
}

#[test]
fn words_of_aarch64_match_assemblers() {
    use aarch64_fields::*;
    use aarch64_offsets::*;
    // each form, the bits that its table's machine number has, and the table
    let forms: [(AArch64Form, u64, &[(u32, u64, u32, i64)]); 10] = [
        (AArch64Form::Adr, u64::MAX, &ADR),
        (AArch64Form::Movkz, 0xffff, &MOVKZ),
        (AArch64Form::Ldr, u64::MAX, &LDR),
        (AArch64Form::LdrRegister, u64::MAX, &LDR_REGISTER),
        (AArch64Form::Add, u64::MAX, &ADD),
        (AArch64Form::TstBr, u64::MAX, &TST_BR),
        (AArch64Form::Bcond, u64::MAX, &BCOND),
        (AArch64Form::JumpCall, u64::MAX, &JUMP_CALL),
        (AArch64Form::LdSt, 0xfff, &LD_ST),
        (AArch64Form::MachOLow12, u64::MAX, &MACHO_LOW12),
    ];
    for (form, mask, table) in forms {
        for &(before, value, after, machine) in table {
            let bytes = written(form, before.to_le_bytes(), value, false);
            assert_eq!(u32::from_le_bytes(bytes), after, "{form:?}, {value:x}");
            let (number, negative) = read(form, &bytes).expect("a number");
            let expected = machine as u64 & mask;
            assert_eq!((number & mask, negative), (expected, false), "{after:x}");
        }
    }
    for &(before, value, negative, after) in &aarch64_moves::MOVNZ {
        let bytes = written(AArch64Form::Movnz, before.to_le_bytes(), value, negative);
        assert_eq!(u32::from_le_bytes(bytes), after, "{value:x}");
        let (number, flag) = read(AArch64Form::Movnz, &bytes).expect("a number");
        assert_eq!(
            (number & 0xffff, flag),
            (value & 0xffff, negative),
            "{after:x}"
        );
    }
    for &(rd, value, words) in &aarch64_moves::MOV_SEQUENCES {
        let mut bytes = [0; 16];
        assert_eq!(
            write_mov_sequence(&mut bytes, rd, value),
            Ok(()),
            "{value:x}"
        );
        assert_eq!(
            bytes.as_slice(),
            words.map(u32::to_le_bytes).as_flattened(),
            "{value:x}"
        );
    }
}

#[test]
fn words_of_riscv_match_assemblers() {
    use riscv64_words::*;
    let forms: [(RiscVForm, &[Word]); 8] = [
        (RiscVForm::UType, &U_TYPE),
        (RiscVForm::IType, &I_TYPE),
        (RiscVForm::SType, &S_TYPE),
        (RiscVForm::BType, &B_TYPE),
        (RiscVForm::JType, &J_TYPE),
        (RiscVForm::CbType, &CB_TYPE),
        (RiscVForm::CjType, &CJ_TYPE),
        (RiscVForm::CluiType, &CLUI_TYPE),
    ];
    for (form, table) in forms {
        for &(before, value, after, machine) in table {
            let bytes = written(form, before.to_le_bytes(), value as u64, value < 0);
            assert_eq!(u32::from_le_bytes(bytes), after, "{form:?}, {value:x}");
            // a high part is read as the least value that it is written for
            let is_high = matches!(form, RiscVForm::UType | RiscVForm::CluiType);
            let least = machine - if is_high { 0x800 } else { 0 };
            let negative = machine < 0 && form != RiscVForm::UType;
            assert_eq!(
                read(form, &bytes),
                Ok((least as u64, negative)),
                "{after:x}"
            );
        }
    }
    for (before, value, after) in riscv64_pairs::UI {
        let value = value as u64;
        let bytes = written(RiscVForm::UiType, bytes_of(before), value, false);
        assert_eq!(bytes, bytes_of(after), "{value:x}");
        assert_eq!(
            read(RiscVForm::UiType, &bytes),
            Ok((value, false)),
            "{value:x}"
        );
    }
}

#[test]
fn rewrites_of_riscv_match_gnu_ld() {
    for (before, value, after) in riscv64_pairs::SHORTENED_LUI {
        let value = value as u64;
        assert!(hi20_fits_clui(value), "{value:x}");
        let mut section = rewritten(RiscVRewrite::Hi20ToCLui, before, 0);
        assert_eq!(
            write(RiscVForm::CluiType, value, false, &mut section),
            Ok(())
        );
        assert_eq!(
            write(RiscVForm::IType, value, false, &mut section[4..]),
            Ok(())
        );
        let [a, b, _, _, c, d, e, f] = section;
        assert_eq!([a, b, c, d, e, f], after, "{value:x}");
    }
    for (before, value, after) in riscv64_pairs::DELETED_LUI {
        assert!(hi20_is_zero(value), "{value:x}");
        let section = rewritten(RiscVRewrite::Hi20Delete, before, 0);
        assert_eq!(section, before, "{value:x}");
        let mut section = rewritten(RiscVRewrite::Lo12Rs1ToZero, before, 4);
        assert_eq!(
            write(RiscVForm::IType, value, false, &mut section[4..]),
            Ok(())
        );
        assert_eq!(section[4..], after, "{value:x}");
    }
}

#[test]
fn words_of_loongarch_match_assemblers() {
    use loongarch64_assembled::*;
    for (form, table) in [
        (LoongArch64Form::Shift5, SHIFT_5.as_slice()),
        (LoongArch64Form::Shift10, SHIFT_10.as_slice()),
    ] {
        for &(before, value, after) in table {
            let bytes = written(form, before.to_le_bytes(), value, false);
            assert_eq!(u64::from_le_bytes(bytes), after, "{form:?}, {value:x}");
            let (number, negative) = read(form, &bytes).expect("a number");
            assert_eq!(
                (number & 0xfff, negative),
                (value & 0xfff, false),
                "{after:x}"
            );
        }
    }
    for (form, table) in [
        (LoongArch64Form::Branch26, BRANCH_26.as_slice()),
        (LoongArch64Form::Branch21, BRANCH_21.as_slice()),
    ] {
        for &(before, value, after, distance) in table {
            let bytes = written(form, before.to_le_bytes(), value, false);
            assert_eq!(u64::from_le_bytes(bytes), after, "{form:?}, {value:x}");
            let number = (distance as u64, distance < 0);
            assert_eq!(read(form, &bytes), Ok(number), "{after:x}");
        }
    }
    for (value, after, _) in loongarch64_linked::CALL_36 {
        let before = bytes_of([0x1e00_0001, 0x4c00_0021]);
        let bytes = written(LoongArch64Form::Call36, before, value, false);
        assert_eq!(u64::from_le_bytes(bytes), after, "{value:x}");
        assert_eq!(
            read(LoongArch64Form::Call36, &bytes),
            Ok((value, false)),
            "{after:x}"
        );
    }
    // `pcalau12i`, `addi.d`, `lu32i.d`, `lu52i.d` and `add.d`
    let before = [
        0x1a00_0004,
        0x02c0_0005,
        0x1600_0005,
        0x0300_00a5,
        0x0010_9484u32,
    ];
    for (pc, target, first, second) in loongarch64_linked::FIVE {
        let mut bytes: [u8; 20] = before
            .map(u32::to_le_bytes)
            .as_flattened()
            .try_into()
            .unwrap();
        assert_eq!(
            write_address_sequence(&mut bytes, pc, target),
            Ok(()),
            "{target:x}"
        );
        let after = [first.to_le_bytes(), second.to_le_bytes()];
        assert_eq!(bytes[..16], *after.as_flattened(), "{target:x}");
        assert_eq!(bytes[16..], before[4].to_le_bytes(), "{target:x}");
    }
}

/// Two words as the bytes of a section.
fn bytes_of([first, second]: [u32; 2]) -> [u8; 8] {
    (u64::from(first) | u64::from(second) << 32).to_le_bytes()
}

/// Rewrites what is at an offset of a section as is chosen, writes the value, and returns what was
/// chosen.
fn link(
    architecture: Architecture,
    r_type: u32,
    section: &mut [u8],
    at: u64,
    facts: &LinkFacts,
) -> Rewrite {
    let choice = choose(architecture, r_type, section, at, facts).expect("a choice");
    let (mut offset, mut addend) = (at, 0);
    let outcome = apply(choice.rewrite, section, &mut offset, &mut addend);
    assert_eq!(outcome, Ok(()), "{:?}", choice.rewrite);
    let mut operands = facts.operands;
    if choice.rewrite == RiscVRewrite::CallToLd.into() {
        operands.symbol = operands.got_entry;
    }
    // some rewrites leave no value
    if let Ok(value) = value(architecture, choice.relocation, &operands) {
        let dest = &mut section[offset as usize..];
        let outcome = relocate(architecture, choice.relocation, value, dest);
        assert_eq!(outcome, Ok(()), "{:?}", choice.rewrite);
    }
    choice.rewrite
}

/// The facts of a symbol of an executable, with these operands.
fn facts_with(is_local: bool, operands: Operands) -> LinkFacts {
    LinkFacts {
        is_local,
        is_pcrel_link_time_constant: true,
        is_executable: true,
        has_addresses: true,
        operands,
        ..LinkFacts::default()
    }
}

#[test]
fn choices_of_riscv_match_lld() {
    use riscv64_linked::*;
    for (r_type, _, flags, symbol, place, before, after) in SITES {
        let operands = Operands {
            symbol,
            place,
            got_entry: ENTRY,
            tls_base: IMAGE,
            has_got_entry: true,
            has_tls_base: true,
            ..Operands::default()
        };
        let mut facts = facts_with(flags & 2 != 0, operands);
        facts.is_relaxable = flags & 1 != 0;
        let mut section = bytes_of([before, 0]);
        let chosen = link(Architecture::RiscV, r_type, &mut section, 0, &facts);
        let is_deleted = chosen == RiscVRewrite::Delete.into();
        let left = if is_deleted {
            [0; 4]
        } else {
            section[..4].try_into().unwrap()
        };
        assert_eq!(u32::from_le_bytes(left), after, "{r_type}, {place:x}");
    }
}

/// Where `choose` leaves a `nop`, GNU ld deletes the instruction.
#[test]
fn choices_of_loongarch_match_gnu_ld() {
    use loongarch64_relaxed::*;
    let deleted: [Rewrite; 2] = [
        LoongArch64Rewrite::Delete.into(),
        LoongArch64Rewrite::ReplaceWithNop.into(),
    ];
    for (r_type, at, symbol, place, words, after) in SITES {
        let operands = Operands {
            symbol,
            place,
            plt_entry: symbol,
            got_entry: ENTRY,
            tls_base: IMAGE,
            has_plt_entry: true,
            has_got_entry: true,
            has_tls_base: true,
            ..Operands::default()
        };
        let mut facts = facts_with(symbol != 0, operands);
        facts.is_relaxable = true;
        facts.group_fits = true;
        let mut section: [u8; 16] = words
            .map(u32::to_le_bytes)
            .as_flattened()
            .try_into()
            .unwrap();
        let chosen = link(Architecture::LoongArch64, r_type, &mut section, at, &facts);
        let word = section[at as usize..][..4].try_into().unwrap();
        let left = if deleted.contains(&chosen) {
            [0; 4]
        } else {
            word
        };
        assert_eq!(u32::from_le_bytes(left), after, "{r_type}, {place:x}");
    }
}

/// In an executable whose GOT begins at 0x10040000, and whose TLS segment at 0x10020000. The only
/// GOT entry is that of a variable elsewhere.
#[test]
fn choices_of_powerpc64_match_linkers() {
    for (r_type, flags, symbol, place, before, after) in ppc64_linked::SITES {
        // `R_PPC64_DTPREL16_LO`, `R_PPC64_DTPREL16_HA` and `R_PPC64_DTPREL34`
        let is_in_module = matches!(r_type, 75 | 77 | 147);
        let operands = Operands {
            symbol,
            place,
            got_entry: 0x1004_0008,
            got_base: 0x1004_8000,
            tls_base: if is_in_module {
                0x1002_8000
            } else {
                0x1002_7000
            },
            has_got_entry: true,
            has_tls_base: true,
            ..Operands::default()
        };
        let mut facts = facts_with(flags & 1 != 0, operands);
        facts.may_change_toc = flags & 2 != 0;
        facts.is_relaxable = flags & 4 != 0;
        facts.toc_base_is_exclusive = true;
        facts.group_fits = true;
        let mut section = before.to_le_bytes();
        // `R_PPC64_TLS` of prefixed code is at the second byte of its instruction
        let at = place % 4;
        link(Architecture::Ppc64, r_type, &mut section, at, &facts);
        assert_eq!(u64::from_le_bytes(section), after, "{r_type}, {place:x}");
    }
}
