// SPDX-License-Identifier: MIT OR Apache-2.0
//! RISC-V: instructions, pairs and rewrites as assemblers and linkers write them, and values worked
//! by hand from the manual.

mod choices;
pub(crate) mod linked;
pub(crate) mod pairs;
mod words;

use linker_utils::elf::{
    InstructionForm, InstructionRewrite, Operands, RelocateError, RelocationInstruction,
    RiscVInstruction,
};
use linker_utils::relaxation::RelocationModifier;
use linker_utils::riscv64::{RelaxationKind, RewriteKind, clui_row, is_plain_call, jal_site};
use linker_utils::utils::u32_from_slice;

/// What `read_value` returns where the machine reads `machine`.
fn reading(form: RiscVInstruction, machine: i64) -> (u64, bool) {
    match form {
        RiscVInstruction::UType => ((machine as u64).wrapping_sub(0x800), false),
        RiscVInstruction::CluiType => ((machine as u64).wrapping_sub(0x800), machine < 0),
        RiscVInstruction::UiType => (machine as u64, false),
        _ => (machine as u64, machine < 0),
    }
}

#[test]
fn words_match_assemblers() {
    let forms: [(RiscVInstruction, &[words::Word]); 8] = [
        (RiscVInstruction::UType, &words::U_TYPE),
        (RiscVInstruction::IType, &words::I_TYPE),
        (RiscVInstruction::SType, &words::S_TYPE),
        (RiscVInstruction::BType, &words::B_TYPE),
        (RiscVInstruction::JType, &words::J_TYPE),
        (RiscVInstruction::CbType, &words::CB_TYPE),
        (RiscVInstruction::CjType, &words::CJ_TYPE),
        (RiscVInstruction::CluiType, &words::CLUI_TYPE),
    ];
    for (form, words) in forms {
        for (before, value, after, machine) in words {
            let mut bytes = before.to_le_bytes();
            form.write_to_value(*value as u64, *value < 0, &mut bytes);
            assert_eq!(u32::from_le_bytes(bytes), *after, "{form:?}, {value:?}");
            assert_eq!(form.read_value(&bytes), reading(form, *machine), "{form:?}, {value:?}");
        }
    }
}

#[test]
fn hi20_lo12_i_pairs_match_linkers() {
    for (before, value, after) in &pairs::U_WITH_I {
        let mut high = before[0].to_le_bytes();
        let mut low = before[1].to_le_bytes();
        RiscVInstruction::UType.write_to_value(*value as u64, false, &mut high);
        RiscVInstruction::IType.write_to_value(*value as u64, false, &mut low);
        assert_eq!(u32::from_le_bytes(high), after[0], "{value:?}");
        assert_eq!(u32::from_le_bytes(low), after[1], "{value:?}");
        let (rounded, _) = RiscVInstruction::UType.read_value(&high);
        let (rest, _) = RiscVInstruction::IType.read_value(&low);
        let sum = rounded.wrapping_add(0x800).wrapping_add(rest);
        assert_eq!(sum, *value as u64, "{value:?}");
    }
}

#[test]
fn hi20_lo12_s_pairs_match_linkers() {
    for (before, value, after) in &pairs::U_WITH_S {
        let mut high = before[0].to_le_bytes();
        let mut low = before[1].to_le_bytes();
        RiscVInstruction::UType.write_to_value(*value as u64, false, &mut high);
        RiscVInstruction::SType.write_to_value(*value as u64, false, &mut low);
        assert_eq!(u32::from_le_bytes(high), after[0], "{value:?}");
        assert_eq!(u32::from_le_bytes(low), after[1], "{value:?}");
        let (rounded, _) = RiscVInstruction::UType.read_value(&high);
        let (rest, _) = RiscVInstruction::SType.read_value(&low);
        let sum = rounded.wrapping_add(0x800).wrapping_add(rest);
        assert_eq!(sum, *value as u64, "{value:?}");
    }
}

#[test]
fn call_pairs_match_linkers() {
    for (before, value, after) in &pairs::UI {
        let mut bytes = both(*before);
        RiscVInstruction::UiType.write_to_value(*value as u64, false, &mut bytes);
        assert_eq!(bytes, both(*after), "{value:?}");
        let read = RiscVInstruction::UiType.read_value(&bytes);
        assert_eq!(read, (*value as u64, false), "{value:?}");
    }
}

/// Two words as the bytes of a section.
fn both(words: [u32; 2]) -> [u8; 8] {
    (words[0] as u64 | (words[1] as u64) << 32).to_le_bytes()
}

#[test]
fn shortened_lui_match_gnu_ld() {
    for (before, value, after) in pairs::SHORTENED_LUI {
        let value = value as u64;
        assert!(RelaxationKind::hi20_fits_clui(value), "{value:?}");
        let mut section = before;
        let mut offset = 0;
        let mut addend = 0;
        RewriteKind::Hi20ToCLui.apply(&mut section, &mut offset, &mut addend);
        RiscVInstruction::CluiType.write_to_value(value, false, &mut section);
        RiscVInstruction::IType.write_to_value(value, false, &mut section[4..]);
        let [a, b, _, _, c, d, e, f] = section;
        assert_eq!([a, b, c, d, e, f], after, "{value:?}");
    }
}

#[test]
fn deleted_lui_match_gnu_ld() {
    for (before, value, after) in pairs::DELETED_LUI {
        assert!(RelaxationKind::hi20_is_zero(value), "{value:?}");
        let mut section = before;
        let mut addend = 0;
        let mut high = 0;
        RewriteKind::Hi20Delete.apply(&mut section, &mut high, &mut addend);
        assert_eq!(section, before, "{value:?}");
        let mut low = 4;
        RewriteKind::Lo12Rs1ToZero.apply(&mut section, &mut low, &mut addend);
        RiscVInstruction::IType.write_to_value(value, false, &mut section[4..]);
        let [_, _, _, _, a, b, c, d] = section;
        assert_eq!([a, b, c, d], after, "{value:?}");
    }
}

#[test]
fn trait_calls_match_calls_of_the_form() {
    let insn = RelocationInstruction::RiscV(RiscVInstruction::UiType);
    let mut call = both([0x0000_0097, 0x0000_80e7]);
    assert_eq!(insn.window(), 8);
    assert!(insn.fits(u64::MAX, &call));
    insn.write(0x800, false, &mut call);
    assert_eq!(call, both([0x0000_1097, 0x8000_80e7]));
    assert_eq!(insn.read(&call), (0x800, false));
}

#[test]
fn tail_calls_are_not_plain_calls() {
    let plain = both([0x0000_0097, 0x0000_80e7]);
    assert!(is_plain_call(&plain, 0));
    assert!(!is_plain_call(&plain, 1));
    assert!(!is_plain_call(&plain[..7], 0));
    let tail = [0x17, 0x03, 0x00, 0x00, 0x67, 0x00, 0x03, 0x00];
    assert!(!is_plain_call(&tail, 0));
    let mut section = tail;
    assert_eq!(jal_site(&mut section, 0, 8194), Ok(()));
    assert!(section.starts_with(&[0x6f, 0x23, 0x20, 0x00]));
}

#[test]
fn tail_calls_become_jumps_of_linkers() {
    let tail = [0x17, 0x03, 0x00, 0x00, 0x67, 0x00, 0x03, 0x00];
    // what GNU ld writes for a distance of 8194, and `c.j` of distance 8
    let table: [(RewriteKind, RiscVInstruction, u64, u32); 2] = [
        (RewriteKind::TailToJal, RiscVInstruction::JType, 8194, 0x0020_206f),
        (RewriteKind::TailToCJ, RiscVInstruction::CjType, 8, 0x0000_a021),
    ];
    for (kind, form, distance, after) in table {
        let mut section = tail;
        let mut offset = 0;
        let mut addend = 5;
        assert!(kind.can_apply(&section, 0), "{kind:?}");
        kind.apply(&mut section, &mut offset, &mut addend);
        assert_eq!((offset, addend), (0, 5), "{kind:?}");
        assert_eq!(kind.next_modifier(), RelocationModifier::SkipNextRelocation, "{kind:?}");
        form.write_to_value(distance, false, &mut section);
        assert_eq!(u32_from_slice(&section), after, "{kind:?}");
    }
}

#[test]
fn rewrites_match_their_instructions() {
    // by GNU as: `call f`, `tail f`, `call t0, f`; and a `jalr` from another register than the
    // `auipc`'s
    let call = both([0x0000_0097, 0x0000_80e7]);
    let tail = both([0x0000_0317, 0x0003_0067]);
    let call_t0 = both([0x0000_0317, 0x0003_02e7]);
    let apart = both([0x0000_0317, 0x0003_8067]);
    // `lui a0` and `lui sp`, and then `addi a0, a0` and `ori a0, a0`
    let lui = both([0x0000_0537, 0x0005_0513]);
    let lui_sp = both([0x0000_0137, 0x0005_6513]);
    let table: [(RewriteKind, &[u8], u64, bool); 18] = [
        (RewriteKind::CallToJal, &call, 0, true),
        (RewriteKind::CallToJal, &tail, 0, false),
        (RewriteKind::CallToJal, &call_t0, 0, false),
        (RewriteKind::CallToJal, &call, 4, false),
        (RewriteKind::TailToJal, &tail, 0, true),
        (RewriteKind::TailToCJ, &tail, 0, true),
        (RewriteKind::CallToCJal, &call, 0, true),
        (RewriteKind::CallToCJal, &tail, 0, false),
        (RewriteKind::CallToCJal, &call_t0, 0, false),
        (RewriteKind::TailToJal, &call, 0, false),
        (RewriteKind::TailToJal, &call_t0, 0, false),
        (RewriteKind::TailToJal, &apart, 0, false),
        (RewriteKind::Hi20ToCLui, &lui, 0, true),
        (RewriteKind::Hi20ToCLui, &lui_sp, 0, false),
        (RewriteKind::Hi20Delete, &lui_sp, 0, true),
        (RewriteKind::Hi20Delete, &lui, 4, false),
        (RewriteKind::Lo12Rs1ToZero, &lui, 4, true),
        (RewriteKind::Lo12Rs1ToZero, &lui_sp, 4, false),
    ];
    for (kind, section, offset, want) in table {
        assert_eq!(kind.matches(section, offset), want, "{kind:?}, {section:?}");
        assert!(!kind.matches(section, 5), "{kind:?}");
    }
    // `lb`, `lwu`, `flw`, `fsd`, `sd`, `jalr`, and a vector load, which has no immediate
    let words: [(u32, bool); 7] = [
        (0x0005_0503, true),
        (0x0005_6503, true),
        (0x0005_2507, true),
        (0x00a5_3027, true),
        (0x00a5_3023, true),
        (0x0005_0567, true),
        (0x0205_6007, false),
    ];
    for (word, want) in words {
        let section = word.to_le_bytes();
        assert_eq!(RewriteKind::Lo12Rs1ToZero.matches(&section, 0), want, "{word:?}");
    }
}

/// LLVM's and GNU's assemblers reject `c.lui a0, 0`, and write these words for what it takes.
#[test]
fn c_lui_has_no_immediate_0() {
    let row = clui_row();
    for (value, after) in [
        (0x800, Ok(0x6505)),
        (-0x801, Ok(0x757d)),
        (0x1f7ff, Ok(0x657d)),
        (-0x20800, Ok(0x7501)),
        (0x7ff, Err(RelocateError::OutOfReach)),
        (0, Err(RelocateError::OutOfReach)),
        (-0x800, Err(RelocateError::OutOfReach)),
        (0x1f800, Err(RelocateError::OutOfReach)),
        (-0x20801, Err(RelocateError::OutOfReach)),
    ] {
        let mut half = 0x6501u16.to_le_bytes();
        let written = row.write(value, &mut half);
        assert_eq!(written.map(|()| u16::from_le_bytes(half)), after, "{value}");
        let operands = Operands { symbol: value as u64, ..Operands::default() };
        assert_eq!(row.reaches(&operands), after.is_ok(), "{value}");
    }
    assert_eq!(row.reach().bounds, Some((-0x20800, 0x1f800)));
}
