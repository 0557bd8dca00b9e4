// SPDX-License-Identifier: MIT OR Apache-2.0
//! Each call of the static library, with values of the manuals and ABIs that the header names, worked by
//! hand.

use sathunne::*;
use std::ops::Range;

/// The bytes of words, lowest byte first.
fn bytes_of(words: &[u32]) -> Vec<u8> {
    words.iter().flat_map(|word| word.to_le_bytes()).collect()
}

/// The word that a value makes of another.
fn written(form: impl Into<Form>, before: u32, value: i64) -> Result<u32, Status> {
    let mut bytes = before.to_le_bytes();
    write(form, value as u64, value < 0, &mut bytes)?;
    Ok(u32::from_le_bytes(bytes))
}

fn read_back(form: impl Into<Form>, word: u32) -> (i64, bool) {
    let (value, flag) = read(form, &word.to_le_bytes()).expect("a word is read");
    (value as i64, flag)
}

/// What a rewrite leaves of the bytes, the offset and the addend.
fn rewritten(
    rewrite: impl Into<Rewrite>,
    section: &[u8],
    offset: u64,
    addend: i64,
) -> (Vec<u8>, u64, i64) {
    let rewrite = rewrite.into();
    let (mut section, mut offset, mut addend) = (section.to_vec(), offset, addend);
    assert_eq!(can_apply(rewrite, &section, offset), Ok(()));
    assert_eq!(
        apply(rewrite, &mut section, &mut offset, &mut addend),
        Ok(())
    );
    (section, offset, addend)
}

fn deletions(pairs: &[(u64, u32)]) -> Vec<Deletion> {
    pairs
        .iter()
        .map(|&(offset, bytes)| Deletion { offset, bytes })
        .collect()
}

fn deltas(pairs: &[(u64, u32)]) -> Vec<Delta> {
    let deletions = deletions(pairs);
    let mut deltas = vec![Delta::default(); deletions.len()];
    assert_eq!(deletions_valid(&deletions), Ok(()));
    assert_eq!(deltas_create(&deletions, &mut deltas), Ok(()));
    let mut in_one_pass = vec![Delta::default(); deletions.len()];
    let created = deltas_create_in_one_pass(&deletions, &mut in_one_pass);
    assert_eq!((created, &in_one_pass), (Ok(()), &deltas));
    deltas
}

/// The error of an array as a whole, and of one of its entries.
fn failure(status: Status) -> ArrayError {
    let index = None;
    ArrayError { status, index }
}

fn at(index: usize, status: Status) -> ArrayError {
    let index = Some(index);
    ArrayError { status, index }
}

fn sums(deltas: &[Delta]) -> Vec<u64> {
    deltas
        .iter()
        .map(|delta| delta.cumulative_deleted)
        .collect()
}

// `auipc ra, 0`, `jalr ra`, `nop`
const CALL: [u8; 12] = [0x97, 0, 0, 0, 0xe7, 0x80, 0, 0, 0x13, 0, 0, 0];

#[test]
fn writes_and_reads_values_in_words() {
    assert_eq!(
        written(RiscVForm::UType, 0x0000_0537, 0x800),
        Ok(0x0000_1537)
    );
    assert_eq!(read_back(RiscVForm::UType, 0x0000_1537), (0x800, false));
    assert_eq!(
        written(RiscVForm::IType, 0x0005_0513, 0x800),
        Ok(0x8005_0513)
    );
    assert_eq!(written(RiscVForm::SType, 0, -1), Ok(0xfe00_0f80));
    assert_eq!(
        written(RiscVForm::BType, 0x0000_0063, -4096),
        Ok(0x8000_0063)
    );
    assert_eq!(read_back(RiscVForm::BType, 0x8000_0063), (-4096, true));
    assert_eq!(
        written(RiscVForm::JType, 0x0000_006f, -1048576),
        Ok(0x8000_006f)
    );
    assert_eq!(
        written(RiscVForm::JType, 0x0000_006f, 1048574),
        Ok(0x7fff_f06f)
    );

    assert_eq!(
        written(AArch64Form::Adr, 0x1000_0000, 0x1f_ffff),
        Ok(0x70ff_ffe0)
    );
    assert_eq!(read_back(AArch64Form::Adr, 0x70ff_ffe0), (-1, false));
    assert_eq!(
        written(AArch64Form::Movkz, 0xf280_0000, 0xffff),
        Ok(0xf29f_ffe0)
    );
    assert_eq!(read_back(AArch64Form::Movnz, 0x92a0_0023), (-2, true));
    assert_eq!(
        written(AArch64Form::Ldr, 0x5800_0000, 0x7_ffff),
        Ok(0x58ff_ffe0)
    );
    assert_eq!(
        written(AArch64Form::LdrRegister, 0xf940_0000, 1),
        Ok(0xf940_0400)
    );
    assert_eq!(
        written(AArch64Form::Add, 0x9100_0000, 0xfff),
        Ok(0x913f_fc00)
    );
    assert_eq!(written(AArch64Form::LdSt, 0, 0xfff), Ok(0x003f_fc00));
    assert_eq!(read_back(AArch64Form::LdSt, 0x003f_fc00), (-1, false));
    assert_eq!(
        written(AArch64Form::TstBr, 0x3600_0000, 0x3fff),
        Ok(0x3607_ffe0)
    );
    assert_eq!(written(AArch64Form::Bcond, 0x5400_0000, 1), Ok(0x5400_0020));
    assert_eq!(
        written(AArch64Form::JumpCall, 0x9400_0000, 0x3ff_ffff),
        Ok(0x97ff_ffff)
    );
    assert_eq!(
        written(AArch64Form::MachOLow12, 0x3dc0_0000, 0x120),
        Ok(0x3dc0_4800)
    );
    assert_eq!(
        read_back(AArch64Form::MachOLow12, 0x3dc0_4800),
        (0x120, false)
    );

    assert_eq!(
        written(LoongArch64Form::Shift5, 0x1800_0000, 0xf_ffff),
        Ok(0x19ff_ffe0)
    );
    assert_eq!(
        written(LoongArch64Form::Shift10, 0x02c0_0000, 0x800),
        Ok(0x02e0_0000)
    );
    assert_eq!(
        read_back(LoongArch64Form::Shift10, 0x02e0_0000),
        (0x800, false)
    );
    assert_eq!(
        written(LoongArch64Form::Branch26, 0x5000_0000, 0x3ff_ffff),
        Ok(0x53ff_ffff)
    );
    assert_eq!(
        written(LoongArch64Form::Branch21, 0x4000_0000, 0x1f_ffff),
        Ok(0x43ff_fc1f)
    );
    assert_eq!(
        read_back(LoongArch64Form::Branch21, 0x43ff_fc1f),
        (-1, true)
    );

    assert_eq!(
        written(Ppc64Form::D, 0xabcd_0000, 0x1_2345),
        Ok(0xabcd_2345)
    );
    assert_eq!(written(Ppc64Form::Ds, 0xe800_0001, 0xffff), Ok(0xe800_fffd));
    assert_eq!(
        written(Ppc64Form::Branch14, 0x4182_0000, 8),
        Ok(0x4182_0008)
    );
    assert_eq!(
        written(Ppc64Form::Branch24, 0x4800_0001, 0x3ff_ffff),
        Ok(0x4bff_fffd)
    );
}

#[test]
fn the_sign_chooses_the_opcode_of_a_move() {
    let mut word = 0xd2a0_0003_u32.to_le_bytes();
    assert_eq!(write(AArch64Form::Movnz, 0xfffe, true, &mut word), Ok(()));
    assert_eq!(u32::from_le_bytes(word), 0x92a0_0023);
}

#[test]
fn writes_values_in_half_words_and_pairs() {
    let halves = [
        (RiscVForm::CbType, 0xc001_u16, 254, 0xcc7d_u16),
        (RiscVForm::CjType, 0xa001, -2, 0xbffd),
        (RiscVForm::CluiType, 0x6501, -0x1000, 0x757d),
    ];
    for (form, before, value, after) in halves {
        let mut half = before.to_le_bytes();
        assert_eq!(window(form), Ok(2));
        assert_eq!(write(form, value as u64, value < 0, &mut half), Ok(()));
        assert_eq!(u16::from_le_bytes(half), after, "{form:?}");
    }
    assert_eq!(
        read(RiscVForm::CluiType, &[0x7d, 0x75]),
        Ok((-0x1800_i64 as u64, true))
    );

    let mut pair = [0; 8];
    assert_eq!(window(RiscVForm::UiType), Ok(8));
    assert_eq!(write(RiscVForm::UiType, 0x800, false, &mut pair), Ok(()));
    assert_eq!(pair.to_vec(), bytes_of(&[0x0000_1000, 0x8000_0000]));

    let mut pair = [0; 8];
    let words = ((1_u64 << 38) - 4) >> 2;
    assert_eq!(
        write(LoongArch64Form::Call36, words, false, &mut pair),
        Ok(())
    );
    assert_eq!(pair.to_vec(), bytes_of(&[0, 0x03ff_fc00]));
    assert_eq!(
        read(LoongArch64Form::Call36, &pair),
        Ok(((1 << 36) - 1, false))
    );

    let mut pair = [0; 8];
    assert_eq!(
        write(LoongArch64Form::Call30, 0xf_ffff, false, &mut pair),
        Ok(())
    );
    assert_eq!(pair.to_vec(), bytes_of(&[0x01ff_c000, 0x0007_fc00]));
}

#[test]
fn rejects_forms_and_values() {
    // an architecture without forms, one that is none, and a number past the last form of each
    let (mut len, mut value, mut negative) = (9, 9, 9);
    let bytes = [0; 8];
    let (at, unknown) = (bytes.as_ptr(), Status::UnknownArchitecture.number());
    // SAFETY: the slice is `bytes`, and the references are of one value.
    unsafe {
        for (architecture, forms) in [
            (Architecture::AArch64, 11),
            (Architecture::RiscV, 9),
            (Architecture::LoongArch64, 6),
            (Architecture::Ppc64, 6),
        ] {
            let status = raw::linker_utils_window(architecture.machine(), forms, &mut len);
            assert_eq!((status, len), (Status::UnknownForm.number(), 9));
        }
        for machine in [Architecture::X86_64.machine(), 0, 1, u16::MAX] {
            let status = raw::linker_utils_window(machine, 0, &mut len);
            assert_eq!((status, len), (unknown, 9));
            assert_eq!(
                raw::linker_utils_fits_nonnull(machine, 0, 0, at, 8),
                unknown
            );
            let status =
                raw::linker_utils_read_nonnull(machine, 0, at, 8, &mut value, &mut negative);
            assert_eq!((status, value, negative), (unknown, 9, 9));
        }
    }
    let adr = AArch64Form::Adr;
    let mut word = [0; 4];
    assert_eq!(
        write(adr, 1 << 21, false, &mut word),
        Err(Status::DoesNotFit)
    );
    assert_eq!(write(adr, 0, false, &mut word[..3]), Err(Status::TooShort));
    assert_eq!(word, [0; 4]);
    assert_eq!(fits(adr, 1 << 21, &word), Err(Status::DoesNotFit));
    assert_eq!(fits(adr, (1 << 21) - 1, &word), Ok(()));
    assert_eq!(fits(adr, 0, &word[..3]), Err(Status::TooShort));
    assert_eq!(read(adr, &[]), Err(Status::TooShort));

    // the scale of a load of 16 bytes
    let load = 0x3dc0_0000_u32.to_le_bytes();
    assert_eq!(
        fits(AArch64Form::MachOLow12, 0x1_0000, &load),
        Err(Status::DoesNotFit)
    );
    assert_eq!(fits(AArch64Form::MachOLow12, 0xffff, &load), Ok(()));
}

#[test]
fn rewrites_instructions() {
    let (section, offset, addend) = rewritten(RiscVRewrite::CallToJal, &CALL, 0, 5);
    assert_eq!(section[..4], [0xef, 0, 0, 0]);
    assert_eq!((&section[4..], offset, addend), (&CALL[4..], 0, 5));
    let lui = 0x0000_0537_u32.to_le_bytes();
    assert_eq!(
        rewritten(RiscVRewrite::Hi20ToCLui, &lui, 0, 0).0,
        [0x01, 0x65, 0, 0]
    );
    let addi = 0x0005_0513_u32.to_le_bytes();
    assert_eq!(
        rewritten(RiscVRewrite::Lo12Rs1ToZero, &addi, 0, 0).0,
        bytes_of(&[0x0000_0513])
    );
    assert_eq!(
        rewritten(RiscVRewrite::ReplaceWithNop, &addi, 0, 0).0,
        [1, 0, 1, 0]
    );
    assert_eq!(rewritten(RiscVRewrite::Hi20Delete, &lui, 9, 0).0, lui);

    let pair = bytes_of(&[0x9000_0003, 0x9100_0063]);
    let nop_adr = bytes_of(&[0xd503_201f, 0x1000_0003]);
    assert_eq!(
        rewritten(AArch64Rewrite::AdrpAddToNopAdr, &pair, 4, 0).0,
        nop_adr
    );
    let ldr = 0xf940_0421_u32.to_le_bytes();
    assert_eq!(
        rewritten(AArch64Rewrite::LdrToAdd, &ldr, 0, 0).0,
        bytes_of(&[0x9100_0421])
    );
    let ldr = 0xf940_0021_u32.to_le_bytes();
    assert_eq!(
        rewritten(AArch64Rewrite::MovkXn, &ldr, 0, 0).0,
        bytes_of(&[0xf280_0001])
    );
    assert_eq!(
        rewritten(LoongArch64Rewrite::ReplaceWithNop, &ldr, 0, 0).0,
        [0, 0, 0x40, 3]
    );
    assert_eq!(
        rewritten(Ppc64Rewrite::NoOp, &ldr, 7, 1),
        (ldr.to_vec(), 7, 1)
    );

    let mov = [0x4c, 0x8b, 0x15, 0, 0, 0, 0];
    let moved = [0x49, 0xc7, 0xc2, 0, 0, 0, 0];
    let rex_mov = X86_64Rewrite::RexMovIndirectToAbsolute(3);
    assert_eq!(rewritten(rex_mov, &mov, 3, -4), (moved.to_vec(), 3, 0));
    let jmp = [0xff, 0x25, 0, 0, 0, 0];
    let jumped = [0xe9, 0, 0, 0, 0, 0x90];
    let jump = X86_64Rewrite::JmpIndirectToRelative;
    assert_eq!(rewritten(jump, &jmp, 2, -4), (jumped.to_vec(), 1, -4));
    let add = [0x64, 0, 0, 0x03, 0x15];
    let added = [0xdc, 0, 0, 0x81, 0xc2];
    assert_eq!(
        rewritten(X86_64Rewrite::RexAddIndirectToAbsolute(6), &add, 5, 0).0,
        added
    );
    let sub = X86_64Rewrite::RexSubIndirectToAbsolute(4);
    assert_eq!(
        rewritten(sub, &[0x44, 0x2b, 0x0d], 3, 0).0,
        [0x11, 0x81, 0xe9]
    );
    let cmp = X86_64Rewrite::RexCmpIndirectToAbsolute(3);
    assert_eq!(
        rewritten(cmp, &[0x4c, 0x3b, 0x3d], 3, 0).0,
        [0x49, 0x81, 0xff]
    );
    let tls = [0x64, 0x48, 0x8b, 0x04, 0x25, 0, 0, 0, 0, 0x48, 0x8d, 0x80];
    let local = X86_64Rewrite::TlsGdToLocalExec;
    assert_eq!(rewritten(local, &[0; 12], 4, 7), (tls.to_vec(), 12, 0));
    let skip = X86_64Rewrite::SkipTlsDescCall;
    assert_eq!(rewritten(skip, &[0xff, 0x10], 0, 0).0, [0x66, 0x90]);
}

#[test]
fn rejects_rewrites() {
    // `ldr x1, [x2]`
    let (mut section, mut offset, mut addend) = ([0x41, 0, 0x40, 0xf9], 0, 7);
    let cannot = Err(Status::CannotApply);
    assert_eq!(can_apply(AArch64Rewrite::MovkXn, &section, 0), cannot);
    let rewritten = apply(
        AArch64Rewrite::MovkXn,
        &mut section,
        &mut offset,
        &mut addend,
    );
    assert_eq!(rewritten, cannot);
    let (mut modifier, at) = (9, section.as_mut_ptr());
    // past the last rewrite of each architecture, and a machine that is none
    let unknown = [
        (Architecture::AArch64.machine(), 13),
        (Architecture::RiscV.machine(), 21),
        (Architecture::LoongArch64.machine(), 13),
        (Architecture::Ppc64.machine(), 28),
        (Architecture::X86_64.machine(), 24),
        (0, 0),
    ];
    for (machine, rewrite) in unknown {
        let status = match machine {
            0 => Status::UnknownArchitecture.number(),
            _ => Status::UnknownRewrite.number(),
        };
        // SAFETY: the slice is `section`, and the references are of one value.
        unsafe {
            let can = raw::linker_utils_can_apply_nonnull(machine, rewrite, 0, at, 4, 0);
            let done = raw::linker_utils_apply_nonnull(
                machine,
                rewrite,
                0,
                at,
                4,
                &mut offset,
                &mut addend,
            );
            let meant = raw::linker_utils_matches_nonnull(machine, rewrite, 0, at, 4, 0);
            let next = raw::linker_utils_next_modifier(machine, rewrite, 0, &mut modifier);
            let mut window = RewriteWindow { back: 5, len: 6 };
            let bounds = raw::linker_utils_rewrite_window(machine, rewrite, 0, &mut window);
            assert_eq!(
                [can, done, meant, next, modifier, bounds],
                [status, status, status, status, 9, status]
            );
            assert_eq!(window, RewriteWindow { back: 5, len: 6 });
            let choice = raw::Choice {
                rewrite,
                ..raw::Choice::default()
            };
            assert!(!raw::linker_utils_is_unchanged(machine, 0, &choice));
        }
    }
    assert_eq!((section, offset, addend), ([0x41, 0, 0x40, 0xf9], 0, 7));
    let jump = X86_64Rewrite::JmpIndirectToRelative;
    assert_eq!(can_apply(jump, &[0; 6], 2), Ok(()));
    assert_eq!(can_apply(jump, &[0; 6], 1), Err(Status::CannotApply));
    assert_eq!(can_apply(jump, &[0; 6], u64::MAX), Err(Status::CannotApply));
}

#[test]
fn tells_what_a_rewrite_is_meant_for() {
    // `auipc ra, 0; jalr ra, 0(ra)`, and the same of `t1` and `x0`, as GNU as writes `call` and `tail`
    let call = [0x97, 0, 0, 0, 0xe7, 0x80, 0, 0];
    let tail = [0x17, 0x03, 0, 0, 0x67, 0, 0x03, 0];
    let no_match = Err(Status::DoesNotMatch);
    assert_eq!(matches(RiscVRewrite::CallToJal, &call, 0), Ok(()));
    assert_eq!(matches(RiscVRewrite::CallToJal, &tail, 0), no_match);
    assert_eq!(matches(RiscVRewrite::TailToJal, &tail, 0), Ok(()));
    assert_eq!(matches(RiscVRewrite::TailToJal, &tail, u64::MAX), no_match);
    // `mov x@GOTPCREL(%rip), %rbx`, and `lea`
    let (mov, lea) = (
        [0x48, 0x8b, 0x1d, 0, 0, 0, 0],
        [0x48, 0x8d, 0x1d, 0, 0, 0, 0],
    );
    assert_eq!(matches(X86_64Rewrite::MovIndirectToLea, &mov, 3), Ok(()));
    assert_eq!(matches(X86_64Rewrite::MovIndirectToLea, &lea, 3), no_match);
}

#[test]
fn choices_are_by_what_the_linker_knows() {
    let mut facts = LinkFacts {
        is_local: true,
        is_pcrel_link_time_constant: true,
        ..LinkFacts::default()
    };
    // `call *f@GOTPCREL(%rip)` with R_X86_64_GOTPCRELX becomes `addr32 call f` with R_X86_64_PC32
    let call = [0xff, 0x15, 0, 0, 0, 0];
    facts.operands.addend = -4;
    let unchanged = |rewrite: Rewrite, relocation| Choice {
        rewrite,
        relocation,
        modifier: Modifier::Normal,
        skipped_offset: None,
        deleted: 0..0,
        other: None,
    };
    let direct = unchanged(X86_64Rewrite::CallIndirectToRelative.into(), 2);
    let no_op = unchanged(X86_64Rewrite::NoOp.into(), 41);
    assert!(no_op.is_unchanged(41) && !no_op.is_unchanged(2) && !direct.is_unchanged(2));
    assert_eq!(
        choose(Architecture::X86_64, 41, &call, 2, &facts),
        Ok(direct)
    );
    assert_eq!(
        choose(Architecture::X86_64, 41, &call, 3, &facts),
        Ok(no_op.clone())
    );
    facts.is_local = false;
    assert_eq!(
        choose(Architecture::X86_64, 41, &call, 2, &facts),
        Ok(no_op)
    );

    // `auipc t1` and `jalr zero, t1` with R_RISCV_CALL_PLT become `c.j`, with R_RISCV_RVC_JUMP: the
    // R_RISCV_RELAX after it is skipped, and six bytes are deleted
    let tail = [0x17, 0x03, 0, 0, 0x67, 0x00, 0x03, 0];
    facts.operands = Operands {
        symbol: 0x1800,
        place: 0x1002,
        plt_entry: 0x1800,
        has_plt_entry: true,
        ..Operands::default()
    };
    facts.has_addresses = true;
    facts.is_relaxable = true;
    facts.may_compress = true;
    let jump = Choice {
        rewrite: RiscVRewrite::TailToCJ.into(),
        relocation: 45,
        modifier: Modifier::SkipNextRelocation,
        skipped_offset: Some(0),
        deleted: 2..8,
        other: None,
    };
    assert_eq!(choose(Architecture::RiscV, 19, &tail, 0, &facts), Ok(jump));
    facts.operands.place = 0x1000; // 2 bytes out of reach
    let jal = choose(Architecture::RiscV, 19, &tail, 0, &facts).map(|choice| choice.rewrite);
    assert_eq!(jal, Ok(RiscVRewrite::TailToJal.into()));
    // auipc ra, 0 and jalr ra become c.jal on RV32, where it reaches
    let call = [0x97, 0, 0, 0, 0xe7, 0x80, 0, 0];
    facts.operands.place = 0x1002;
    for (is_class32, rewrite) in [(false, RiscVRewrite::CallToJal), (true, RiscVRewrite::CallToCJal)] {
        facts.is_class32 = is_class32;
        let choice = choose(Architecture::RiscV, 19, &call, 0, &facts).map(|choice| choice.rewrite);
        assert_eq!(choice, Ok(rewrite.into()), "{is_class32}");
    }
    facts.is_class32 = false;

    // `adrp x3` and `add x3, x3` become `nop` and `adr x3`, with R_AARCH64_ADR_PREL_LO21, and the
    // relocation of the `adrp` becomes R_AARCH64_NONE
    let pair = bytes_of(&[0x9000_0003, 0x9100_0063]);
    let near = Choice {
        other: Some(OtherRelocation {
            offset: -4,
            r_type: 0,
        }),
        ..unchanged(AArch64Rewrite::AdrpAddToNopAdr.into(), 274)
    };
    assert_eq!(
        choose(Architecture::AArch64, 277, &pair, 4, &facts),
        Ok(near)
    );

    // a branch of LoongArch stays, and of PowerPC64 nothing is rewritten
    let same = unchanged(LoongArch64Rewrite::NoOp.into(), 66);
    assert_eq!(
        choose(Architecture::LoongArch64, 66, &[0; 8], 0, &facts),
        Ok(same)
    );
    let same = unchanged(Ppc64Rewrite::NoOp.into(), 10);
    assert!(same.is_unchanged(10) && !same.is_unchanged(11));
    assert_eq!(
        choose(Architecture::Ppc64, 10, &[0; 8], 0, &facts),
        Ok(same)
    );
}

#[test]
fn a_relocation_fits_where_its_instruction_can_be_rewritten() {
    let facts = LinkFacts {
        is_local: true,
        is_executable: true,
        ..LinkFacts::default()
    };
    // R_PPC64_GOT_TPREL16_LO_DS at `ld 9,0(9)`, which becomes `addis 9,13,0`, and at `lwz 9,0(9)`
    let fits = |word: u32, facts| {
        relocation_fits(Architecture::Ppc64, 88, &word.to_le_bytes(), 0, facts)
    };
    assert!(fits(0xe929_0000, &facts));
    assert!(!fits(0x8129_0000, &facts));
    // in a shared library it has to stay
    assert!(!fits(0xe929_0000, &LinkFacts::default()));
}

#[test]
fn tells_the_bytes_that_a_rewrite_writes() {
    let lens: [(Rewrite, u64, u64); 22] = [
        // `data16 lea x@tlsgd(%rip), %rdi; data16 data16 rex.W call __tls_get_addr`: the field is 4
        // bytes from the beginning, and the 16 bytes end with that of the `lea` that is written
        (X86_64Rewrite::TlsGdToLocalExec.into(), 4, 16 - 4),
        (X86_64Rewrite::TlsGdToInitialExec.into(), 4, 16 - 4),
        // `lea x@tlsld(%rip), %rdi` of 7 bytes, and a call of 5, or 6 through the GOT
        (X86_64Rewrite::TlsLdToLocalExec.into(), 3, 7 + 5),
        (X86_64Rewrite::TlsLdToLocalExecNoPlt.into(), 3, 7 + 6),
        // the same `lea`, `movabs` of 10, `add` of 3 and `call` of 2
        (X86_64Rewrite::TlsLdToLocalExec64.into(), 3, 7 + 10 + 3 + 2),
        // `call *(%rax)`
        (X86_64Rewrite::SkipTlsDescCall.into(), 0, 2),
        // `jmp *x@GOTPCREL(%rip)`: opcode, ModRM byte and the field; of the `call` the first two
        (X86_64Rewrite::JmpIndirectToRelative.into(), 2, 6),
        (X86_64Rewrite::CallIndirectToRelative.into(), 2, 2),
        // an opcode, a REX byte and what follows it, and what follows the first byte of EVEX
        (X86_64Rewrite::MovIndirectToLea.into(), 2, 1),
        (X86_64Rewrite::RexAddIndirectToAbsolute(3).into(), 3, 3),
        (X86_64Rewrite::RexAddIndirectToAbsolute(6).into(), 5, 5),
        (X86_64Rewrite::NoOp.into(), 0, 0),
        // an instruction, and a pair whose second one is at the offset
        (AArch64Rewrite::LdrToAdd.into(), 0, 4),
        (AArch64Rewrite::AdrpAddToNopAdr.into(), 4, 8),
        // `jal`, `c.j`, and an instruction that is deleted as it is
        (RiscVRewrite::CallToJal.into(), 0, 4),
        (RiscVRewrite::TailToCJ.into(), 0, 2),
        (RiscVRewrite::CallToCJal.into(), 0, 2),
        (RiscVRewrite::Delete.into(), 0, 0),
        (LoongArch64Rewrite::CallToBl.into(), 0, 4),
        // `addis`, a prefixed instruction, and an `add` whose mark is at its second byte
        (Ppc64Rewrite::AddisToNop.into(), 0, 4),
        (Ppc64Rewrite::PldToPaddi.into(), 0, 8),
        (Ppc64Rewrite::AddToMove.into(), 1, 4),
    ];
    for (rewrite, back, len) in lens {
        let window = rewrite_window(rewrite);
        assert_eq!(window, Ok(RewriteWindow { back, len }), "{rewrite:?}");
    }
}

#[test]
fn tells_what_becomes_of_the_next_relocation() {
    let skipped: [Rewrite; 16] = [
        RiscVRewrite::CallToJal.into(),
        RiscVRewrite::CallToCJal.into(),
        RiscVRewrite::TailToJal.into(),
        RiscVRewrite::TailToCJ.into(),
        RiscVRewrite::Hi20Delete.into(),
        Ppc64Rewrite::CallToAddi.into(),
        Ppc64Rewrite::CallToAdd.into(),
        Ppc64Rewrite::CallToAddi4096.into(),
        Ppc64Rewrite::BranchToNop.into(),
        Ppc64Rewrite::BranchToAdd.into(),
        X86_64Rewrite::TlsGdToLocalExec.into(),
        X86_64Rewrite::TlsGdToLocalExecLarge.into(),
        X86_64Rewrite::TlsGdToInitialExec.into(),
        X86_64Rewrite::TlsLdToLocalExec.into(),
        X86_64Rewrite::TlsLdToLocalExecNoPlt.into(),
        X86_64Rewrite::TlsLdToLocalExec64.into(),
    ];
    for rewrite in skipped {
        let modifier = next_modifier(rewrite);
        assert_eq!(modifier, Ok(Modifier::SkipNextRelocation), "{rewrite:?}");
    }
    let all = (AArch64Rewrite::ALL.iter().map(|&it| it.into()))
        .chain(RiscVRewrite::ALL.iter().map(|&it| it.into()))
        .chain(LoongArch64Rewrite::ALL.iter().map(|&it| it.into()))
        .chain(Ppc64Rewrite::ALL.iter().map(|&it| it.into()))
        .chain((0..24).map(|it| {
            X86_64Rewrite::from_numbers(it, 3)
                .expect("one of 24")
                .into()
        }));
    for rewrite in all.filter(|it: &Rewrite| !skipped.contains(it)) {
        assert_eq!(next_modifier(rewrite), Ok(Modifier::Normal), "{rewrite:?}");
    }
}

/// What a relocation of whole bytes means.
fn in_bytes(kind: RelocationKind, byte_size: u8) -> RelocationInfo {
    RelocationInfo {
        kind,
        size: RelocationSize::Bytes(byte_size),
        mask: None,
        range: None,
        alignment: 1,
        bias: 0,
        thunkable: false,
        implicit_addend: false,
    }
}

/// What a relocation of bits from the first up, below the end, means.
fn in_bits(kind: RelocationKind, range: Range<u8>, form: impl Into<Form>) -> RelocationInfo {
    RelocationInfo {
        size: RelocationSize::Bits {
            range,
            form: form.into(),
        },
        ..in_bytes(kind, 0)
    }
}

fn within(range: Range<i64>, info: RelocationInfo) -> RelocationInfo {
    RelocationInfo {
        range: Some(range),
        ..info
    }
}

#[test]
fn tells_what_relocations_mean() {
    use Architecture::{AArch64, LoongArch64, Ppc64, RiscV, X86_64};
    let meanings = [
        (
            AArch64,
            0,
            "R_AARCH64_NONE",
            in_bytes(RelocationKind::None, 0),
        ),
        (
            AArch64,
            307,
            "R_AARCH64_GOTREL64",
            in_bytes(RelocationKind::SymRelGotBase, 8),
        ),
        (
            AArch64,
            282,
            "R_AARCH64_JUMP26",
            RelocationInfo {
                alignment: 4,
                thunkable: true,
                ..within(
                    -(1 << 27)..1 << 27,
                    in_bits(RelocationKind::PltRelative, 2..28, AArch64Form::JumpCall),
                )
            },
        ),
        (
            AArch64,
            275,
            "R_AARCH64_ADR_PREL_PG_HI21",
            RelocationInfo {
                mask: Some(PageMask::SymbolPlusAddendAndPosition),
                ..within(
                    -(1 << 32)..1 << 32,
                    in_bits(RelocationKind::Relative, 12..33, AArch64Form::Adr),
                )
            },
        ),
        (
            AArch64,
            313,
            "R_AARCH64_LD64_GOTPAGE_LO15",
            RelocationInfo {
                mask: Some(PageMask::GotBase),
                alignment: 8,
                ..within(
                    0..1 << 15,
                    in_bits(RelocationKind::GotRelGotBase, 3..15, AArch64Form::LdSt),
                )
            },
        ),
        (
            AArch64,
            569,
            "R_AARCH64_TLSDESC_CALL",
            in_bytes(RelocationKind::TlsDescCall, 0),
        ),
        (
            RiscV,
            1,
            "R_RISCV_32",
            within(-(1 << 31)..1 << 32, in_bytes(RelocationKind::Absolute, 4)),
        ),
        (
            RiscV,
            17,
            "R_RISCV_JAL",
            RelocationInfo {
                alignment: 2,
                ..within(
                    -1048576..1048575,
                    in_bits(RelocationKind::Relative, 0..32, RiscVForm::JType),
                )
            },
        ),
        (
            RiscV,
            61,
            "R_RISCV_SUB_ULEB128",
            in_bytes(RelocationKind::PairSubtractionULEB128RiscV, 8),
        ),
        (
            LoongArch64,
            71,
            "R_LARCH_PCALA_HI20",
            RelocationInfo {
                mask: Some(PageMask::SymbolPlusAddendAndPosition),
                bias: 0x800,
                ..in_bits(RelocationKind::Relative, 12..32, LoongArch64Form::Shift5)
            },
        ),
        (
            LoongArch64,
            75,
            "R_LARCH_GOT_PC_HI20",
            RelocationInfo {
                mask: Some(PageMask::GotEntryAndPosition),
                bias: 0x800,
                ..in_bits(RelocationKind::GotRelative, 12..32, LoongArch64Form::Shift5)
            },
        ),
        (
            LoongArch64,
            102,
            "R_LARCH_ALIGN",
            in_bytes(RelocationKind::Alignment, 0),
        ),
        (
            LoongArch64,
            20,
            "R_LARCH_MARK_LA",
            in_bytes(RelocationKind::None, 0),
        ),
        (
            Ppc64,
            252,
            "R_PPC64_REL16_HA",
            RelocationInfo {
                bias: 0x8000,
                ..in_bits(RelocationKind::Relative, 16..32, Ppc64Form::D)
            },
        ),
        (
            Ppc64,
            85,
            "R_PPC64_GOT_TLSLD16_HI",
            in_bits(RelocationKind::TlsLdGotBase, 16..32, Ppc64Form::D),
        ),
        (
            X86_64,
            11,
            "R_X86_64_32S",
            within(-(1 << 31)..1 << 31, in_bytes(RelocationKind::Absolute, 4)),
        ),
        (
            X86_64,
            51,
            "R_X86_64_CODE_6_GOTPC32_TLSDESC",
            within(-(1 << 31)..1 << 31, in_bytes(RelocationKind::TlsDesc, 4)),
        ),
    ];
    for (architecture, r_type, name, meaning) in meanings {
        assert_eq!(relocation(architecture, r_type), Ok(meaning), "{name}");
        let found = relocation_name(architecture, r_type);
        assert_eq!(found.as_deref(), Ok(name), "{r_type}");
    }
    let compressed = in_bits(RelocationKind::Absolute, 0..32, RiscVForm::CluiType);
    assert_eq!(clui_rel_info(), within(-(1 << 31)..1 << 32, compressed));
}

#[test]
fn rejects_relocations() {
    let unknown = Err(Status::UnknownRelocation);
    for &architecture in Architecture::ALL {
        assert_eq!(relocation(architecture, u32::MAX), unknown);
        let name = relocation_name(architecture, u32::MAX);
        assert_eq!(name, Err(Status::UnknownRelocation));
    }
    let (mut info, mut name, mut used) = (raw::RelocationInfo::default(), [0xaa; 11], 7);
    // SAFETY: the slice is `name`, and the references are of one value.
    unsafe {
        let status = raw::linker_utils_relocation(0, 0, &mut info);
        assert_eq!(status, Status::UnknownArchitecture.number());
        for (machine, status) in [
            (Architecture::X86_64.machine(), Status::TooShort),
            (0, Status::UnknownArchitecture),
        ] {
            let at = name.as_mut_ptr();
            // `R_X86_64_32S` has 12 letters
            let returned =
                raw::linker_utils_relocation_name_nonnull(machine, 11, at, 11, &mut used);
            assert_eq!(returned, status.number());
        }
    }
    assert_eq!(info, raw::RelocationInfo::default());
    assert_eq!((name, used), ([0xaa; 11], 7));
}

#[test]
fn jumps_link_the_register_that_gnu_ld_takes() {
    let rows = [
        ([0x0000_0317, 0x0003_0067], 8194, 0x0020_206f),
        ([0x0000_0317, 0x0003_02e7], 4098, 0x0020_12ef),
    ];
    for ([auipc, jalr], distance, jump) in rows {
        let mut section = bytes_of(&[auipc, jalr]);
        assert_eq!(
            jal_site_with(&mut section, 0, distance, LinkRegister::OfJalr),
            Ok(())
        );
        assert_eq!(section, bytes_of(&[jump, jalr]));
    }
    let before = bytes_of(&[0x0000_0317, 0x0002_0067]);
    for (site, distance, status) in [(1, 9, Status::OutOfSection), (0, 9, Status::NotACall)] {
        let mut section = before.clone();
        let error = jal_site_with(&mut section, site, distance, LinkRegister::OfJalr);
        assert_eq!(error, Err(status));
        assert_eq!(section, before);
    }
    for (distance, status) in [(9, Status::OddDistance), (1 << 20, Status::TooFar)] {
        let mut section = before.clone();
        let error = jal_site_with(&mut section, 0, distance, LinkRegister::OfAuipc);
        assert_eq!(error, Err(status));
        assert_eq!(section, before);
    }
}

#[test]
fn turns_calls_into_jumps() {
    let mut section = CALL;
    assert_eq!(jal_site(&mut section, 0, 8), Ok(()));
    assert_eq!(section[..4], [0xef, 0, 0x80, 0]);
    let rejected = [
        (9, 8, Status::OutOfSection),
        (u64::MAX, 8, Status::OutOfSection),
        (0, 1048575, Status::OddDistance),
        (0, 1048576, Status::TooFar),
    ];
    for (site, distance, status) in rejected {
        let mut section = CALL;
        assert_eq!(jal_site(&mut section, site, distance), Err(status));
        assert_eq!(section, CALL);
    }

    let relaxed: [(&[(u64, u32)], u64, u64, [u8; 4]); 6] = [
        (&[], 0, 8, [0xef, 0, 0x80, 0]),
        (&[(4, 4)], 0, 8, [0xef, 0, 0x40, 0]),
        (&[(4, 4)], 0, 12, [0xef, 0, 0x80, 0]),
        (&[(2, 0)], 0, 8, [0xef, 0, 0x80, 0]),
        // targets inside a deletion: what follows it, and the section's end
        (&[(4, 4)], 0, 6, [0xef, 0, 0x40, 0]),
        (&[(10, 4)], 0, 12, [0xef, 0, 0xa0, 0]),
    ];
    for (pairs, site, target, word) in relaxed {
        let mut section = CALL;
        assert_eq!(
            relax_call(&mut section, &deltas(pairs), site, target),
            Ok(())
        );
        assert_eq!(section[..4], word, "{pairs:?}, from {site} to {target}");
        assert_eq!(section[4..], CALL[4..]);
    }
    let rejected: [(&[(u64, u32)], u64, u64, Status); 5] = [
        (&[], 10, 0, Status::OutOfSection),
        (&[], 0, 13, Status::OutOfSection),
        (&[(0, 4)], 0, 8, Status::SiteDeleted),
        (&[(4, 4)], 3, 8, Status::SiteDeleted),
        (&[(4, 1)], 0, 8, Status::OddDistance),
    ];
    for (pairs, site, target, status) in rejected {
        let mut section = CALL;
        assert_eq!(
            relax_call(&mut section, &deltas(pairs), site, target),
            Err(status)
        );
        assert_eq!(section, CALL);
    }
    let mut long = vec![0; 1048580];
    assert_eq!(relax_call(&mut long, &[], 0, 1048576), Err(Status::TooFar));
    assert_eq!(relax_call(&mut long, &[], 0, 1048574), Ok(()));
}

#[test]
fn tests_calls_distances_and_high_parts() {
    assert!(is_plain_call(&CALL, 0));
    assert!(!is_plain_call(&CALL, 4));
    assert!(!is_plain_call(&CALL, u64::MAX));
    // `tail f`: the `auipc` names x6, and the `jalr` links x0
    assert!(!is_plain_call(&[0x17, 0x03, 0, 0, 0x67, 0, 0x03, 0], 0));
    assert!(distance_fits_jal(-1048576));
    assert!(distance_fits_jal(1048575));
    assert!(!distance_fits_jal(1048576));
    assert!(hi20_is_zero(0x7ff));
    assert!(hi20_is_zero(1 << 32));
    assert!(!hi20_is_zero(0x800));
    for value in [0x1000, 0x1f7ff, -0x1000, -0x20800] {
        assert!(hi20_fits_clui(value as u64), "{value}");
    }
    for value in [0x1f800, 0x20000, -0x20801, -0x800] {
        assert!(!hi20_fits_clui(value as u64), "{value}");
    }
    assert!(rd_valid_for_clui(1));
    assert!(!rd_valid_for_clui(0));
    assert!(!rd_valid_for_clui(2));
}

#[test]
fn writes_sequences() {
    let mut dest = [0xaa; 17];
    assert_eq!(
        write_mov_sequence(&mut dest, 5, 0x0123_4567_89ab_cdef),
        Ok(())
    );
    let moves = bytes_of(&[0xd299_bde5, 0xf2b1_3565, 0xf2c8_ace5, 0xf2e0_2465]);
    assert_eq!((&dest[..16], dest[16]), (&moves[..], 0xaa));
    assert_eq!(
        write_mov_sequence(&mut dest, 31, 0),
        Err(Status::BadRegister)
    );
    assert_eq!(
        write_mov_sequence(&mut dest[..15], 31, 0),
        Err(Status::TooShort)
    );
    assert_eq!((&dest[..16], dest[16]), (&moves[..], 0xaa));

    let mut five = [0; 20];
    assert_eq!(write_address_sequence(&mut five, 0, 0x800), Ok(()));
    let low = bytes_of(&[0x0000_0020, 0x0020_0000, 0x01ff_ffe0, 0x003f_fc00, 0]);
    assert_eq!(five.to_vec(), low);
    let mut five = [0; 20];
    let target = 0xffff_ffff_8000_0000;
    assert_eq!(write_address_sequence(&mut five, 0x1000, target), Ok(()));
    let high = bytes_of(&[0x00ff_ffe0, 0, 0x01ff_ffe0, 0x003f_fc00, 0]);
    assert_eq!(five.to_vec(), high);
    assert_eq!(
        write_address_sequence(&mut five[..19], 0, 0),
        Err(Status::TooShort)
    );
    assert_eq!(five.to_vec(), high);
    assert_eq!(
        highest_relocation_with_bias(0x800, 8),
        0xffff_ffff_8000_1000
    );
    assert_eq!(
        highest_relocation_with_bias(target, 0x1008),
        0xffff_ffff_ffff_f000
    );

    let pairs = [
        (0x8000, 0x3c00_0001, 0x3800_8000),
        (u64::MAX, 0x3c00_0000, 0x3800_ffff),
    ];
    for (value, high, low) in pairs {
        let (mut ha, mut lo) = (0x3c00_0000_u32.to_le_bytes(), 0x3800_0000_u32.to_le_bytes());
        assert_eq!(write_ha_lo(&mut ha, &mut lo, value), Ok(()));
        assert_eq!(
            (u32::from_le_bytes(ha), u32::from_le_bytes(lo)),
            (high, low)
        );
        assert_eq!(write_ha_lo(&mut ha[..3], &mut lo, 0), Err(Status::TooShort));
        assert_eq!(write_ha_lo(&mut ha, &mut lo[..3], 0), Err(Status::TooShort));
        assert_eq!(
            (u32::from_le_bytes(ha), u32::from_le_bytes(lo)),
            (high, low)
        );
    }
}

#[test]
fn reads_numbers() {
    let bytes = [1, 2, 3, 4, 5, 6, 7, 0x88, 9];
    assert_eq!(u32_from_slice(&bytes), Ok(0x0403_0201));
    assert_eq!(u64_from_slice(&bytes), Ok(0x8807_0605_0403_0201));
    assert_eq!(u32_from_slice(&bytes[..3]), Err(Status::TooShort));
    assert_eq!(u64_from_slice(&bytes[..7]), Err(Status::TooShort));
    let mut content = &bytes[..5];
    assert_eq!(read_u32(&mut content), Ok(0x0403_0201));
    assert_eq!(content, [5]);
    assert_eq!(read_u32(&mut content), Err(Status::TooShort));
    assert_eq!(content, [5]);

    let nines = |last| [[0xff; 9].as_slice(), &[last]].concat();
    let (greatest, past, endless) = (nines(1), nines(2), nines(0x80));
    let read: [(&[u8], Result<u64, Status>, &[u8]); 8] = [
        (&[0xe5, 0x8e, 0x26], Ok(624485), &[]),
        (&[0xe5, 0x8e, 0x26, 7], Ok(624485), &[7]),
        (&[0x80, 0], Ok(0), &[]),
        (&greatest, Ok(u64::MAX), &[]),
        (&past, Err(Status::Uleb128TooLarge), &past),
        (&endless, Err(Status::Uleb128TooLarge), &endless),
        (&[0x80], Err(Status::Uleb128Ended), &[0x80]),
        (&[], Err(Status::Uleb128Ended), &[]),
    ];
    for (bytes, number, rest) in read {
        let mut content = bytes;
        assert_eq!(read_uleb128(&mut content), number, "{bytes:02x?}");
        assert_eq!(content, rest);
    }
}

#[test]
fn translates_offsets() {
    let one = deltas(&[(4, 4)]);
    for (input, output) in [(0, 0), (4, 4), (8, 4)] {
        assert_eq!(deltas_input_to_output(&one, input), output);
    }
    // inside the deletion: what follows it
    assert_eq!(deltas_input_to_output(&one, 6), 4);
    assert_eq!(deltas_output_to_input(&one, 3), Ok(3));
    assert_eq!(deltas_output_to_input(&one, 4), Ok(8));
    assert_eq!(deltas_total_deleted(&one), 4);

    let joined = deltas(&[(4, 4), (8, 4)]);
    assert_eq!(deltas_output_to_input(&joined, 4), Ok(12));
    assert_eq!(deltas_input_to_output(&joined, 8), 4);
    assert_eq!(deltas_input_to_output(&joined, 12), 4);

    let nothing_first = deltas(&[(4, 0), (6, 2)]);
    assert_eq!(deltas_input_to_output(&nothing_first, 6), 6);
    assert_eq!(deltas_input_to_output(&nothing_first, 8), 6);
    assert_eq!(deltas_output_to_input(&nothing_first, 4), Ok(4));
    assert_eq!(deltas_output_to_input(&nothing_first, 6), Ok(8));

    let last = deltas(&[(u64::MAX - 3, 3)]);
    assert_eq!(deltas_input_to_output(&last, u64::MAX), u64::MAX - 3);
    assert_eq!(deltas_output_to_input(&last, u64::MAX - 3), Ok(u64::MAX));
    assert_eq!(
        deltas_output_to_input(&last, u64::MAX - 2),
        Err(Status::TooLarge)
    );

    assert_eq!(deltas_total_deleted(&[]), 0);
    assert_eq!(deltas_input_to_output(&[], 5), 5);
    assert_eq!(deltas_output_to_input(&[], u64::MAX), Ok(u64::MAX));

    let many: Vec<_> = (0..65).map(|k| (8 * k, 4)).collect();
    let many = deltas(&many);
    assert_eq!(deltas_total_deleted(&many), 260);
    assert_eq!(deltas_input_to_output(&many, 512), 256);
    assert_eq!(deltas_input_to_output(&many, 520), 260);
    assert_eq!(deltas_output_to_input(&many, 255), Ok(511));
    assert_eq!(deltas_output_to_input(&many, 256), Ok(516));
}

#[test]
fn translates_many_offsets() {
    let two = deltas(&[(4, 4), (12, 2)]);
    let mut outputs = [0; 5];
    assert_eq!(
        deltas_translate_all(&two, &[4, 8, 8, 14, 20], &mut outputs),
        Ok(())
    );
    assert_eq!(outputs, [4, 4, 4, 8, 14]);
    let rejected: [(&[u64], ArrayError); 2] = [
        (&[4, 8, 8, 14], failure(Status::DifferentLengths)),
        (&[4, 8, 7, 13, 20], at(2, Status::NotAscending)),
    ];
    for (queries, error) in rejected {
        let translated = deltas_translate_all(&two, queries, &mut outputs);
        assert_eq!(translated, Err(error));
        assert_eq!(outputs, [4, 4, 4, 8, 14]);
    }
    // inside the deletions: what follows them
    let inside = deltas_translate_all(&two, &[5, 7, 8, 13, 14], &mut outputs);
    assert_eq!((inside, outputs), (Ok(()), [4, 4, 4, 8, 8]));
    assert_eq!(deltas_translate_all(&two, &[], &mut []), Ok(()));
    assert_eq!(
        deltas_translate_all(&[], &[3, 9], &mut outputs[..2]),
        Ok(())
    );
    assert_eq!(outputs[..2], [3, 9]);
}

#[test]
fn tests_and_lists_deletions() {
    assert_eq!(sums(&deltas(&[(0, 2), (8, 4), (16, 4)])), [2, 6, 10]);
    // after the last no offset is left
    assert_eq!(sums(&deltas(&[(8, 4), (u64::MAX, 0)])), [4, 4]);
    let mut places = [Delta::default(); 2];
    let invalid: [(&[(u64, u32)], usize); 5] = [
        (&[(4, 4), (7, 1)], 1),
        (&[(4, 0), (4, 1)], 1),
        (&[(8, 1), (4, 1)], 1),
        (&[(4, 1), (u64::MAX, 1)], 1),
        (&[(0, 1), (4, 1), (2, 1), (1, 1)], 2),
    ];
    for (pairs, index) in invalid {
        let list = deletions(pairs);
        let error = Err(at(index, Status::InvalidDeletions));
        assert_eq!(deletions_valid(&list), error, "{pairs:?}");
        assert_eq!(deltas_create(&list, &mut places), error, "{pairs:?}");
        let mut written = vec![Delta::default(); list.len()];
        let created = deltas_create_in_one_pass(&list, &mut written);
        assert_eq!(created, error, "{pairs:?}");
        let created = deltas_create_in_one_pass(&list, &mut places[..1]);
        assert_eq!(created, error, "{pairs:?}");
    }
    for create in [deltas_create, deltas_create_in_one_pass] {
        let longer = create(&deletions(&[(4, 4)]), &mut places);
        assert_eq!(longer, Err(failure(Status::DifferentLengths)));
        assert_eq!(create(&[], &mut []), Ok(()));
    }
    assert_eq!(places, [Delta::default(); 2]);
}

#[test]
fn merges_deletions() {
    let old = deltas(&[(8, 4)]);
    let more = deletions(&[(16, 4), (0, 2)]);
    assert_eq!(deletions_mergeable(&old, &more), Ok(()));
    let mut merged = [Delta::default(); 3];
    assert_eq!(deltas_merge(&old, &more, &mut merged), Ok(()));
    assert_eq!(merged.to_vec(), deltas(&[(0, 2), (8, 4), (16, 4)]));
    assert_eq!(sums(&merged), [2, 6, 10]);
    assert_eq!(deltas_input_to_output(&merged, 20), 10);
    assert_eq!(deltas_output_to_input(&merged, 0), Ok(2));

    let one = deltas(&[(4, 4)]);
    let mut places = [Delta::default(); 2];
    assert_eq!(deletions_mergeable(&one, &deletions(&[(8, 0)])), Ok(()));
    for pair in [(6, 1), (4, 0), (u64::MAX, 1)] {
        let more = deletions(&[pair]);
        assert_eq!(deletions_mergeable(&one, &more), Err(Status::NotMergeable));
        assert_eq!(
            deltas_merge(&one, &more, &mut places),
            Err(at(0, Status::NotMergeable))
        );
    }
    let more = deletions(&[(0, 2), (12, 4), (14, 1), (1, 9)]);
    let overlapping = deltas_merge(&one, &more, &mut [Delta::default(); 5]);
    assert_eq!(overlapping, Err(at(2, Status::NotMergeable)));
    let short = deltas_merge(&one, &more, &mut places);
    assert_eq!(short, Err(failure(Status::DifferentLengths)));
    // what no call wrote as deltas
    let falling = [
        one[0],
        Delta {
            input_offset: 0,
            ..one[0]
        },
    ];
    assert_eq!(
        deletions_mergeable(&falling, &[]),
        Err(Status::InvalidDeletions)
    );
    let error = at(1, Status::InvalidDeletions);
    assert_eq!(deltas_merge(&falling, &[], &mut places), Err(error));
    assert_eq!(
        error.to_string(),
        format!("{} It is entry 1.", Status::InvalidDeletions)
    );
    assert_eq!(places, [Delta::default(); 2]);
}

#[test]
fn any_array_of_deltas_is_safe() {
    let odd = [
        Delta {
            input_offset: 9,
            cumulative_deleted: u64::MAX,
            bytes_deleted: 1,
        },
        Delta {
            input_offset: 3,
            cumulative_deleted: 1,
            bytes_deleted: u32::MAX,
        },
    ];
    for offset in [0, 3, 4, 9, 10, u64::MAX] {
        let _ = deltas_input_to_output(&odd, offset);
        let _ = deltas_output_to_input(&odd, offset);
        let _ = deltas_translate_all(&odd, &[offset, offset], &mut [0; 2]);
        let _ = relax_call(&mut CALL.clone(), &odd, 0, offset);
    }
    let _ = deltas_total_deleted(&odd);
    assert!(!has_valid_deltas(&odd));
}

#[test]
fn packs_sections() {
    // `auipc ra, 0`, `jalr ra`, `nop`, `ret`, and the same as a tail call: `auipc t1, 0`, `jr t1`
    let call = bytes_of(&[0x0000_0097, 0x0000_80e7, 0x0000_0013, 0x0000_8067]);
    let tail = bytes_of(&[0x0000_0317, 0x0003_0067, 0x0000_0013, 0x0000_8067]);
    let one = deltas(&[(4, 4)]);
    assert_eq!(packed_len(&call, &one), 12);
    let to_ret = [Call {
        site: 0,
        target: 12,
    }];
    let jumps = [
        (&call, LinkRegister::OfAuipc, 0x0080_00ef),
        (&call, LinkRegister::OfJalr, 0x0080_00ef),
        (&tail, LinkRegister::OfAuipc, 0x0080_036f),
        (&tail, LinkRegister::OfJalr, 0x0080_006f),
    ];
    for (section, link, jal) in jumps {
        let mut packed = [0; 12];
        assert_eq!(pack(section, &one, &to_ret, link, &mut packed), Ok(()));
        assert_eq!(packed.to_vec(), bytes_of(&[jal, 0x0000_0013, 0x0000_8067]));
    }

    let calls = |pairs: &[(u64, u64)]| -> Vec<Call> {
        let calls = pairs.iter();
        calls.map(|&(site, target)| Call { site, target }).collect()
    };
    let rejected: [(&[(u64, u64)], ArrayError); 6] = [
        (&[(0, 12), (3, 12)], at(1, Status::CallsNotApart)),
        (&[(8, 12), (0, 12)], at(1, Status::CallsNotApart)),
        (&[(0, 12), (13, 12)], at(1, Status::OutOfSection)),
        (&[(0, 12), (4, 12)], at(1, Status::SiteDeleted)),
        (&[(0, 12), (8, 12)], at(1, Status::NotACall)),
        (&[(0, 13)], at(0, Status::OddDistance)),
    ];
    let mut packed = [0xaa; 12];
    for (pairs, error) in rejected {
        let calls = calls(pairs);
        let result = pack(&call, &one, &calls, LinkRegister::OfJalr, &mut packed);
        assert_eq!(result, Err(error), "{pairs:?}");
    }
    let short = pack(
        &call,
        &one,
        &to_ret,
        LinkRegister::OfJalr,
        &mut packed[..11],
    );
    assert_eq!(short, Err(failure(Status::DifferentLengths)));
    assert_eq!(packed, [0xaa; 12]);
}

#[test]
fn translates_offsets_by_heads() {
    let many: Vec<_> = (0..65).map(|k| (8 * k, 4)).collect();
    let many = deltas(&many);
    assert_eq!(deltas_block_count(&many), 2);
    let mut heads = [BlockHead::default(); 2];
    assert_eq!(deltas_heads(&many, &mut heads), Ok(()));
    assert_eq!((heads[1].input_offset, heads[1].output_offset), (512, 256));
    for (input, output) in [(0, 0), (2, 0), (512, 256), (515, 256), (520, 260)] {
        let found = deltas_input_to_output_by_heads(&many, &heads, input);
        assert_eq!(found, output, "{input}");
        // fewer heads than blocks
        let found = deltas_input_to_output_by_heads(&many, &heads[..1], input);
        assert_eq!(found, output, "{input}");
    }
    for (output, input) in [(0, 4), (255, 511), (256, 516)] {
        let found = deltas_output_to_input_by_heads(&many, &heads, output);
        assert_eq!(found, Ok(input), "{output}");
    }
    let past = deltas_output_to_input_by_heads(&many, &heads, u64::MAX);
    assert_eq!(past, Err(Status::TooLarge));

    let short = deltas_heads(&many, &mut heads[..1]);
    assert_eq!(short, Err(Status::DifferentLengths));
    // heads that no call wrote are safe
    let odd = [BlockHead {
        input_offset: u64::MAX,
        output_offset: u64::MAX,
    }; 2];
    for offset in [0, 300, u64::MAX] {
        let _ = deltas_input_to_output_by_heads(&many, &odd, offset);
        let _ = deltas_output_to_input_by_heads(&many, &odd, offset);
    }
}

#[test]
fn many_deletions_are_merged_and_translated() {
    // the last 4 bytes of every 8, so what stands at 8 * k is at 4 * k afterwards
    let pair = |k: u64| (8 * k + 4, 4);
    let even: Vec<_> = (0..1000).map(|k| pair(2 * k)).collect();
    let odd: Vec<_> = (0..1000).rev().map(|k| pair(2 * k + 1)).collect();
    let (even, odd) = (deltas(&even), deletions(&odd));
    let mut all = vec![Delta::default(); 2000];
    assert_eq!(deletions_mergeable(&even, &odd), Ok(()));
    assert_eq!(deltas_merge(&even, &odd, &mut all), Ok(()));
    assert_eq!(deltas_total_deleted(&all), 8000);
    let created = deltas(&(0..2000).map(pair).collect::<Vec<_>>());
    assert_eq!(all, created);

    let mut heads = vec![BlockHead::default(); deltas_block_count(&all)];
    assert_eq!((heads.len(), deltas_heads(&all, &mut heads)), (32, Ok(())));
    let inputs: Vec<u64> = (0..=2000).map(|k| 8 * k).collect();
    let outputs: Vec<u64> = (0..=2000).map(|k| 4 * k).collect();
    let mut translated = vec![0; 2001];
    assert_eq!(deltas_translate_all(&all, &inputs, &mut translated), Ok(()));
    assert_eq!(translated, outputs);
    for (&input, &output) in inputs.iter().zip(&outputs) {
        assert_eq!(deltas_input_to_output(&all, input), output);
        assert_eq!(deltas_output_to_input(&all, output), Ok(input));
        let found = deltas_input_to_output_by_heads(&all, &heads, input);
        assert_eq!(found, output);
        let found = deltas_output_to_input_by_heads(&all, &heads, output);
        assert_eq!(found, Ok(input));
    }

    // each calls the one before it, which is 4 bytes before it then: jal ra, -4
    let section = bytes_of(&[0x0000_0097, 0x0000_80e7]).repeat(2000);
    let sites = (1..2000).map(|k| (8 * k, 8 * (k - 1)));
    let calls: Vec<_> = sites.map(|(site, target)| Call { site, target }).collect();
    let mut packed = vec![0; packed_len(&section, &all)];
    let link = LinkRegister::OfJalr;
    assert_eq!(pack(&section, &all, &calls, link, &mut packed), Ok(()));
    let words = [vec![0x0000_0097], vec![0xffdf_f0ef; 1999]].concat();
    assert_eq!(packed, bytes_of(&words));
}

#[test]
fn shrinks_calls() {
    let calls = |pairs: &[(u64, u64)]| -> Vec<Call> {
        let calls = pairs.iter();
        calls.map(|&(site, target)| Call { site, target }).collect()
    };
    // `jal` reaches even distances from -1048576 to 1048574.
    let chosen: [(&[(u64, u32)], &[(u64, u64)], &[u8]); 6] = [
        (&[], &[(0, 1048578)], &[1]),
        (&[], &[(0, 1048580)], &[0]),
        (&[], &[(0, 9)], &[0]),
        (&[(16, 8)], &[(0, 1048586)], &[1]),
        (&[], &[(100, 1048680), (1048580, 0)], &[1, 1]),
        (&[], &[(100, 1048688), (1048580, 0)], &[0, 0]),
    ];
    for (deletions, pairs, expected) in chosen {
        let (deltas, calls) = (deltas(deletions), calls(pairs));
        let mut bytes = vec![0xaa; calls.len()];
        assert_eq!(calls_shrinkable(&deltas, &calls), Ok(()), "{pairs:?}");
        assert_eq!(
            shrink_calls(&deltas, &calls, &mut bytes),
            Ok(()),
            "{pairs:?}"
        );
        assert_eq!(bytes, expected, "{pairs:?}");
    }

    let top = u64::MAX;
    let rejected: [(&[(u64, u32)], &[(u64, u64)], usize); 6] = [
        (&[], &[(0, 6)], 0),
        (&[], &[(0, 16), (4, 16)], 1),
        (&[], &[(top - 7, 0)], 0),
        (&[(2, 1)], &[(0, 16)], 0),
        (&[], &[(0, 8), (8, 0), (16, 14)], 2),
        (&[], &[(0, 22), (8, 0), (16, 0)], 2),
    ];
    for (deletions, pairs, index) in rejected {
        let (deltas, calls) = (deltas(deletions), calls(pairs));
        let mut bytes = vec![0xaa; calls.len()];
        let error = Err(at(index, Status::CallsNotShrinkable));
        assert_eq!(calls_shrinkable(&deltas, &calls), error, "{pairs:?}");
        assert_eq!(
            shrink_calls(&deltas, &calls, &mut bytes),
            error,
            "{pairs:?}"
        );
        assert_eq!(bytes, vec![0xaa; calls.len()], "{pairs:?}");
    }
    let short = shrink_calls(&[], &calls(&[(0, 8)]), &mut []);
    assert_eq!(short, Err(failure(Status::DifferentLengths)));
}

#[test]
fn makes_items_of_relocations() {
    let relocation = |offset, r_type, addend, target: Option<u64>| Rela {
        offset,
        target: target.unwrap_or_default(),
        addend,
        r_type,
        has_symbol: 0,
        has_target: target.is_some().into(),
        may_compress: 1,
    };
    // auipc ra, 0; jalr ra; auipc t1, 0; jr t1; nop; c.nop
    let mut section = bytes_of(&[0x97, 0x80e7, 0x317, 0x30067, 0x13]);
    section.extend([0x01, 0x00]);
    let mut relocations = [
        relocation(0, 19, 0, Some(4096)),
        relocation(0, 51, 0, None),
        relocation(8, 19, 0, Some(8192)),
        relocation(8, 51, 0, None),
        relocation(16, 43, 6, None),
    ];
    let other = Item::site(1, 2, 3, Shapes::fixed(1));
    let (mut items, mut makers) = ([other; 5], [9; 5]);
    let riscv = 243;
    let made = section_items(riscv, &section, 64, &relocations, &mut items, &mut makers);
    assert_eq!(made, Ok(3));
    assert_eq!(
        items,
        [
            Item::site(64, 8, 4096, standard_shapes(ShapesName::RiscVCall)),
            Item::site(72, 8, 8192, standard_shapes(ShapesName::RiscVTailC)),
            Item {
                shapes: Shapes {
                    short: items[2].shapes.short,
                    ..Shapes::fixed(0)
                },
                ..Item::alignment(80, 6, 8, None)
            },
            other,
            other,
        ]
    );
    assert_eq!(makers, [0, 2, 4, 9, 9]);
    // without the C extension the tail call can only become a `jal`
    relocations[2].may_compress = 0;
    let made = section_items(riscv, &section, 64, &relocations, &mut items, &mut makers);
    assert_eq!(made, Ok(3));
    assert_eq!(items[1].shapes, standard_shapes(ShapesName::RiscVCall));
    // five bytes are no nops
    relocations[4].addend = 5;
    let made = section_items(riscv, &section, 64, &relocations, &mut items, &mut makers);
    assert_eq!(made, Err(at(4, Status::MalformedRelocation)));
    let made = section_items(riscv, &section, u64::MAX - 21, &relocations, &mut items, &mut makers);
    assert_eq!(made, Err(failure(Status::EndsTooHigh)));
    let made = section_items(riscv, &section, 0, &relocations, &mut items[..4], &mut makers);
    assert_eq!(made, Err(failure(Status::DifferentLengths)));
    let made = section_items(riscv, &section, 0, &relocations, &mut items, &mut makers[..4]);
    assert_eq!(made, Err(failure(Status::DifferentLengths)));
    // x86-64
    let made = section_items(62, &section, 0, &relocations, &mut items, &mut makers);
    assert_eq!(made, Err(failure(Status::UnknownArchitecture)));

    // pcaddu18i ra, 0; jirl ra, ra, 0; pcalau12i a0, 0; addi.d a0, a0, 0; nop
    let section = bytes_of(&[
        0x1e000001, 0x4c000021, 0x1a000004, 0x02c00084, 0x03400000, 0x03400000, 0x03400000,
    ]);
    let mut relocations = [
        relocation(0, 110, 0, Some(4096)),
        relocation(0, 100, 0, None),
        relocation(8, 71, 0, Some(8192)),
        relocation(8, 100, 0, None),
        relocation(12, 72, 0, Some(8192)),
        relocation(12, 100, 0, None),
        relocation(16, 102, 12 << 8 | 4, None),
    ];
    relocations[6].has_symbol = 1;
    let (mut items, mut makers) = ([other; 7], [9; 7]);
    let loongarch = 258;
    let made = section_items(loongarch, &section, 0, &relocations, &mut items, &mut makers);
    assert_eq!(made, Ok(3));
    assert_eq!(makers, [0, 2, 6, 9, 9, 9, 9]);
    let call = Item::site(0, 8, 4096, standard_shapes(ShapesName::LoongArchCall36));
    let address = Item::site(8, 8, 8192, standard_shapes(ShapesName::LoongArchPcala));
    assert_eq!(items[..2], [call, address]);
    let aligned = Item {
        shapes: items[2].shapes,
        ..Item::alignment(16, 12, 16, None)
    };
    assert_eq!(items[2..], [aligned, other, other, other, other]);
    relocations[6].addend = -1;
    let made = section_items(loongarch, &section, 0, &relocations, &mut items, &mut makers);
    assert_eq!(made, Err(at(6, Status::MalformedRelocation)));
}

#[test]
fn lists_what_is_deleted_among_items() {
    let relocation = |offset, r_type, addend, target: Option<u64>| Rela {
        offset,
        target: target.unwrap_or_default(),
        addend,
        r_type,
        has_symbol: 0,
        has_target: target.is_some().into(),
        may_compress: 1,
    };
    // lui a0, 0; add a0, a0, tp; lw a0, 0(tp); auipc ra, 0; jalr ra; nop; c.nop
    let mut section = bytes_of(&[0x537, 0x450533, 0x22503, 0x97, 0x80e7, 0x13]);
    section.extend([0x01, 0x00]);
    let relocations = [
        relocation(0, 0, 0, None),
        relocation(0, 51, 0, None),
        relocation(8, 48, 0, None),
        relocation(12, 19, 0, Some(64)),
        relocation(12, 51, 0, None),
        relocation(20, 43, 6, None),
    ];
    let four = |offset| Deletion { offset, bytes: 4 };
    let deleted = [four(0), four(4)];
    let other = Item::site(1, 2, 3, Shapes::fixed(1));
    let (mut items, mut makers) = ([other; 8], [9; 8]);
    let made =
        rewritten_items(243, &section, 64, &relocations, &deleted, &mut items, &mut makers);
    assert_eq!(made, Ok(4));
    assert_eq!(makers, [6, 7, 3, 5, 9, 9, 9, 9]);
    let gone = |offset| Item {
        shapes: Shapes {
            longest: 0,
            ..items[0].shapes
        },
        ..Item::site(offset, 4, offset, Shapes::fixed(0))
    };
    assert_eq!((items[0].shapes.count, items[0].shapes.longest), (0, 0));
    assert_eq!(items[..2], [gone(64), gone(68)]);
    let call = standard_shapes(ShapesName::RiscVCall);
    assert_eq!(items[2], Item::site(76, 8, 64, call));
    assert_eq!(items[4..], [other; 4]);
    for (deleted, expected) in [
        ([four(4), four(0)], at(1, Status::InvalidDeletions)),
        ([four(0), four(24)], at(1, Status::InvalidDeletions)),
        ([four(0), four(16)], at(3, Status::ItemsOverlap)),
    ] {
        let made =
            rewritten_items(243, &section, 64, &relocations, &deleted, &mut items, &mut makers);
        assert_eq!(made, Err(expected));
    }
    let made =
        rewritten_items(243, &section, 64, &relocations, &deleted, &mut items[..7], &mut makers);
    assert_eq!(made, Err(failure(Status::DifferentLengths)));
}

#[test]
fn relaxes_runs() {
    let call = standard_shapes(ShapesName::RiscVCall);
    // `jal` reaches even distances from -1048576 to 1048574. The address after the nops is a multiple
    // of 16, where the `jal` has 4 bytes and 12 bytes of nops stay.
    let jal = Shape {
        max_backward: 1048576,
        max_forward: 1048576,
        kept: 4,
        granularity: 2,
    };
    assert_eq!((call.short[0], call.longest, call.count), (jal, 8, 1));
    let items = [
        Item::site(0, 8, 1048580, call),
        Item::alignment(8, 14, 16, None),
    ];
    let (mut shapes, mut kept, mut places, mut freed) = ([9; 2], [9; 2], [9; 2], [9; 3]);
    assert_eq!(items_relaxable(&items, 0), Ok(()));
    let relaxed = Relaxed {
        shapes: &mut shapes,
        kept: &mut kept,
        places: &mut places,
        freed: &mut freed,
    };
    assert_eq!(relax(&items, 0, relaxed), Ok(()));
    assert_eq!((shapes[0], kept, freed), (0, [4, 12], [0, 4, 6]));
    let mut lost = [Delta::default(); 2];
    assert_eq!(run_deltas(&items, &kept, &mut lost), Ok(2));
    assert_eq!(lost, *deltas(&[(4, 4), (20, 2)]));
    assert_eq!(deltas_input_to_output(&lost, 1048580), 1048574);
    assert_eq!(run_deltas(&items, &[8, 12], &mut lost), Ok(1));
    assert_eq!(lost[0], deltas(&[(20, 2)])[0]);
    let short = run_deltas(&items, &kept, &mut lost[..1]);
    assert_eq!(short, Err(Status::DifferentLengths));

    // each kind of fault, of the second item
    let site = |offset, target, shapes| Item::site(offset, 8, target, shapes);
    let changed = |change: fn(&mut Shapes)| {
        let mut shapes = standard_shapes(ShapesName::RiscVTailC);
        change(&mut shapes);
        site(16, 0, shapes)
    };
    let faults = [
        (site(4, 0, call), Status::ItemsOverlap),
        (site(u64::MAX - 7, 0, call), Status::EndsTooHigh),
        (changed(|it| it.count = 3), Status::TooManyShapes),
        (changed(|it| it.longest = 9), Status::ShapeTooLong),
        (
            changed(|it| it.short[0].kept = 4),
            Status::ShapesNotAscending,
        ),
        (changed(|it| it.short[0].granularity = 3), Status::BadGranularity),
        (changed(|it| it.short[0].max_forward = 0), Status::BadReach),
        (Item::alignment(16, 4, 6, None), Status::BadAlignment),
        (changed(|it| it.short[0].kept = 3), Status::UnevenShape),
        (site(16, 26, standard_shapes(ShapesName::LoongArchCall36)), Status::Misaligned),
        (Item::alignment(16, 3, 1, None), Status::AlignmentBelowGranularity),
        (Item::alignment(16, 3, 4, None), Status::UnevenEnd),
        (Item::alignment(16, 4, 16, Some(9)), Status::TooFewNops),
        (Item::alignment(15, 5, 4, Some(3)), Status::UnevenNops),
        (site(16, 6, call), Status::TargetInside),
        (Item::alignment(16, 4, 16, None), Status::MayBeMisaligned),
    ];
    for (item, status) in faults {
        let items = [site(0, 0, call), item];
        let error = Err(at(1, status));
        assert_eq!(items_relaxable(&items, 0), error);
        let (mut shapes, mut kept, mut places, mut freed) = ([9; 2], [9; 2], [9; 2], [9; 3]);
        let relaxed = Relaxed {
            shapes: &mut shapes,
            kept: &mut kept,
            places: &mut places,
            freed: &mut freed,
        };
        assert_eq!(relax(&items, 0, relaxed), error);
        assert_eq!(
            (shapes, kept, places, freed),
            ([9; 2], [9; 2], [9; 2], [9; 3])
        );
    }
}

#[test]
fn packs_sections_of_runs() {
    // `call f`, `tail f`, the nops of `.p2align 3`, and `f: ret`, as GNU as assembles them, and as
    // GNU ld and ld.lld link them at 0x10000
    let section = [
        0x97, 0x00, 0x00, 0x00, 0xe7, 0x80, 0x00, 0x00, 0x17, 0x03, 0x00, 0x00, 0x67, 0x00, 0x03,
        0x00, 0x01, 0x00, 0x13, 0x00, 0x00, 0x00, 0x82, 0x80,
    ];
    let linked = [0xef, 0x00, 0x80, 0x00, 0x11, 0xa0, 0x01, 0x00, 0x82, 0x80];
    let (base, start, f) = (0x100, 0xff00, 0x116);
    let call = standard_shapes(ShapesName::RiscVCall);
    let tail = standard_shapes(ShapesName::RiscVTailC);
    let items = [
        Item::site(0x100, 8, f, call),
        Item::site(0x108, 8, f, tail),
        Item::alignment(0x110, 6, 8, None),
    ];
    let lost = deltas(&[(0x104, 4), (0x10a, 6), (0x112, 4)]);
    let pack = |base, items: &[Item], packed: &mut [u8]| {
        pack_run(
            Architecture::RiscV,
            &section,
            base,
            items,
            &lost,
            start,
            &mut [],
            packed,
        )
    };
    assert!(has_valid_deltas(&lost));
    assert_eq!(packed_run_len(base, section.len(), &lost), linked.len());
    let mut packed = [0; 10];
    assert_eq!(pack(base, &items, &mut packed), Ok(()));
    assert_eq!(packed, linked);

    // each reason why the second item isn't written
    let rejected = [
        (Item::site(0x107, 8, f, tail), Status::ItemsOverlap),
        (Item::alignment(0x113, 6, 8, None), Status::ItemOutOfSection),
        (Item::site(0x10c, 8, f, tail), Status::DeletedOutside),
        (Item::site(0x108, 12, f, tail), Status::NotItsFirstBytes),
        (Item::site(0x108, 4, f, tail), Status::NotItsInstructions),
        (Item::alignment(0x109, 7, 8, None), Status::NoShape),
        (Item::site(0x108, 8, f + 1, tail), Status::TargetOutOfReach),
    ];
    let mut packed = [0xaa; 10];
    for (item, status) in rejected {
        let result = pack(base, &[items[0], item], &mut packed);
        assert_eq!(result, Err(at(1, status)));
    }
    let different = Err(failure(Status::DifferentLengths));
    assert_eq!(pack(base, &items, &mut packed[..9]), different);
    let high = u64::MAX - 22;
    assert_eq!(
        pack(high, &items, &mut packed),
        Err(failure(Status::EndsTooHigh))
    );
    let other = pack_run(
        Architecture::AArch64,
        &section,
        base,
        &items,
        &lost,
        start,
        &mut [],
        &mut packed,
    );
    assert_eq!(other, Err(failure(Status::UnknownArchitecture)));
    assert_eq!(packed, [0xaa; 10]);
    assert_eq!(packed_run_len(high, section.len(), &[]), 0);
    assert_eq!(packed_run_len(high - 2, section.len(), &[]), section.len());

    let has = |item: &Item| has_its_instructions(Architecture::RiscV, &section, base, item);
    for item in &items {
        assert_eq!(has(item), Ok(()));
    }
    // a call that links `ra` can't be `c.j`; shapes without C; nops; outside of the section
    for item in [
        Item::site(0x100, 8, f, tail),
        Item::site(0x100, 8, f, standard_shapes(ShapesName::LoongArchCall36)),
        Item::site(0x10c, 8, f, call),
        Item::site(0x100, 4, f, call),
        Item::site(0xff, 8, f, call),
        Item::site(0x111, 8, f, call),
    ] {
        assert_eq!(has(&item), Err(Status::NotItsInstructions));
    }
    let other = has_its_instructions(Architecture::AArch64, &section, base, &items[0]);
    assert_eq!(other, Err(Status::UnknownArchitecture));
}

#[test]
fn packs_sections_of_loongarch() {
    // `call36 f`, `tail36 $t8, f`, the nops of `.p2align 4`, and `f: ret`
    let section = bytes_of(&[
        0x1e00_0001,
        0x4c00_0021,
        0x1e00_0014,
        0x4c00_0280,
        0x0340_0000,
        0x0340_0000,
        0x0340_0000,
        0x4c00_0020,
    ]);
    // `bl 16`, `b 12`, two nops, `ret`, as clang assembles them
    let packed_words = [
        0x5400_1000,
        0x5000_0c00,
        0x0340_0000,
        0x0340_0000,
        0x4c00_0020,
    ];
    let call = standard_shapes(ShapesName::LoongArchCall36);
    let items = [
        Item::site(0, 8, 28, call),
        Item::site(8, 8, 28, call),
        Item::alignment(16, 12, 16, None),
    ];
    let lost = deltas(&[(4, 4), (12, 4), (24, 4)]);
    let mut packed = [0; 20];
    let machine = Architecture::LoongArch64;
    // `R_LARCH_CALL36`, `R_LARCH_ALIGN`, and `R_LARCH_B26` of the same calls
    let list = |relocations: [(u64, u64); 3]| -> Vec<u8> {
        relocations
            .iter()
            .flat_map(|(offset, info)| [*offset, *info, 0])
            .flat_map(u64::to_le_bytes)
            .collect()
    };
    let mut relocations = list([(0, 1 << 32 | 110), (8, 2 << 32 | 110), (16, 102)]);
    let start = 0x10000;
    let packs = pack_run(machine, &section, 0, &items, &lost, start, &mut relocations, &mut packed);
    assert_eq!(packs, Ok(()));
    assert_eq!(packed.to_vec(), bytes_of(&packed_words));
    assert_eq!(relocations, list([(0, 1 << 32 | 66), (4, 2 << 32 | 66), (8, 0)]));
}
