// SPDX-License-Identifier: MIT OR Apache-2.0
//! AArch64: words that LLVM 19.1.7's and GNU binutils 2.40's assemblers and linkers wrote, and
//! worked values.

mod choices;
mod fields;
mod moves;
mod offsets;
mod pairs;

use linker_utils::aarch64::{
    AArch64Relocation, RewriteKind, TLS_TCB_SIZE, is_adrp_pair, relocation_type_from_raw,
    write_mov_sequence,
};
use linker_utils::bit_misc::BitExtraction;
use linker_utils::elf::{
    AArch64Instruction, AllowedRange, InstructionForm, PageMask, PageMaskPattern, RelocationKind,
    RelocationKindInfo, RelocationSize, Sign,
};
use linker_utils::relaxation::RelocationModifier;
use linker_utils::utils::u32_from_slice;

/// The word after a write, or `None` if the value does not fit.
fn written(form: AArch64Instruction, value: u64, negative: bool, before: u32) -> Option<u32> {
    let mut bytes = before.to_le_bytes();
    if form.window() != 4 || !form.fits(value, &bytes) {
        return None;
    }
    form.write_to_value(value, negative, &mut bytes);
    Some(u32_from_slice(&bytes))
}

fn read(form: AArch64Instruction, word: u32) -> Option<(u64, bool)> {
    if form.window() != 4 {
        return None;
    }
    Some(form.read_value(&word.to_le_bytes()))
}

/// The first row of a table that a form does not write as listed, or whose number it does not read
/// back in the bits of `mask`.
fn first_mismatch(
    form: AArch64Instruction,
    mask: u64,
    rows: &[(u32, u64, u32, i64)],
) -> Option<(u32, u64, u32, i64)> {
    for &row in rows {
        let (before, value, after, machine) = row;
        if written(form, value, false, before) != Some(after) {
            return Some(row);
        }
        let Some((number, negative)) = read(form, after) else {
            return Some(row);
        };
        if negative || number & mask != machine as u64 & mask {
            return Some(row);
        }
    }
    None
}

#[test]
fn words_match_assemblers() {
    assert_eq!(first_mismatch(AArch64Instruction::Adr, u64::MAX, &fields::ADR), None, "Adr");
    assert_eq!(first_mismatch(AArch64Instruction::Movkz, 0xffff, &fields::MOVKZ), None, "Movkz");
    assert_eq!(first_mismatch(AArch64Instruction::Ldr, u64::MAX, &fields::LDR), None, "Ldr");
    assert_eq!(
        first_mismatch(AArch64Instruction::LdrRegister, u64::MAX, &fields::LDR_REGISTER),
        None,
        "LdrRegister"
    );
    assert_eq!(first_mismatch(AArch64Instruction::Add, u64::MAX, &fields::ADD), None, "Add");
    assert_eq!(first_mismatch(AArch64Instruction::TstBr, u64::MAX, &fields::TST_BR), None, "TstBr");
    assert_eq!(first_mismatch(AArch64Instruction::Bcond, u64::MAX, &fields::BCOND), None, "Bcond");
    assert_eq!(
        first_mismatch(AArch64Instruction::JumpCall, u64::MAX, &fields::JUMP_CALL),
        None,
        "JumpCall"
    );
    assert_eq!(first_mismatch(AArch64Instruction::LdSt, 0xfff, &offsets::LD_ST), None, "LdSt");
    assert_eq!(
        first_mismatch(AArch64Instruction::MachOLow12, u64::MAX, &offsets::MACHO_LOW12),
        None,
        "MachOLow12"
    );
}

#[test]
fn movnz_words_match_assemblers() {
    for &(before, value, negative, after) in &moves::MOVNZ {
        assert_eq!(
            written(AArch64Instruction::Movnz, value, negative, before),
            Some(after),
            "{value:?}"
        );
        let Some((number, flag)) = read(AArch64Instruction::Movnz, after) else {
            panic!("no window");
        };
        assert_eq!(flag, negative, "{value:?}");
        assert_eq!(number & 0xffff, value & 0xffff, "{value:?}");
    }
}

#[test]
fn mov_sequences_match_assemblers() {
    for &(rd, value, words) in &moves::MOV_SEQUENCES {
        assert!(rd <= 30, "{rd:?}");
        let mut bytes = [0u8; 16];
        write_mov_sequence(&mut bytes, rd, value);
        let first = [u32_from_slice(&bytes), u32_from_slice(&bytes[4..])];
        let last = [u32_from_slice(&bytes[8..]), u32_from_slice(&bytes[12..])];
        assert_eq!(first, [words[0], words[1]], "{value:?}");
        assert_eq!(last, [words[2], words[3]], "{value:?}");
    }
}

/// The immediate of an `adrp` at `pc`: the distance to its target's page, in pages.
fn page_field(pc: u64, target: u64) -> u64 {
    (target & !0xfff).wrapping_sub(pc & !0xfff).extract_bit_range(12..33)
}

#[test]
fn page_and_offset_pairs_match_linkers() {
    for &(pc, target, before, after) in &pairs::ADRP_ADD {
        assert_eq!(
            written(AArch64Instruction::Adr, page_field(pc, target), false, before[0]),
            Some(after[0]),
            "{target:?}"
        );
        assert_eq!(
            written(AArch64Instruction::Add, target & 0xfff, false, before[1]),
            Some(after[1]),
            "{target:?}"
        );
    }
    for &(pc, target, before, after) in &pairs::ADRP_LDR {
        assert_eq!(
            written(AArch64Instruction::Adr, page_field(pc, target), false, before[0]),
            Some(after[0]),
            "{target:?}"
        );
        assert_eq!(
            written(AArch64Instruction::LdSt, (target & 0xfff) >> 3, false, before[1]),
            Some(after[1]),
            "{target:?}"
        );
    }
}

/// Rewrites at an offset, and then writes a value there. Returns `false` if either is impossible,
/// if the rewrite isn't meant for what is there, or if the offset or the addend changes.
fn rewritten(
    section: &mut [u8],
    at: u64,
    kind: RewriteKind,
    form: AArch64Instruction,
    value: u64,
) -> bool {
    if !kind.can_apply(section, at) || !kind.matches(section, at) {
        return false;
    }
    let mut offset = at;
    let mut addend = 7;
    kind.apply(section, &mut offset, &mut addend);
    if offset != at || addend != 7 || kind.next_modifier() != RelocationModifier::Normal {
        return false;
    }
    let len = section.len() as u64;
    if len < 4 || at > len - 4 {
        return false;
    }
    let dest = &mut section[at as usize..];
    if form.window() != 4 || !form.fits(value, dest) {
        return false;
    }
    form.write_to_value(value, false, dest);
    true
}

#[test]
fn rewrites_match_linkers() {
    for &(before, value, after) in &NOP_ADR {
        let mut section = before;
        assert!(is_adrp_pair(&section, 4), "{value}");
        assert!(
            rewritten(
                &mut section,
                4,
                RewriteKind::AdrpAddToNopAdr,
                AArch64Instruction::Adr,
                value
            ),
            "{value}"
        );
        assert_eq!(section, after, "{value:?}");
    }
    for &(before, page, low, after) in &ADRP_TO_ADD {
        let mut section = before;
        assert!(is_adrp_pair(&section, 4), "{page} and {low}");
        assert!(
            rewritten(&mut section, 0, RewriteKind::NoOp, AArch64Instruction::Adr, page),
            "{page} and {low}"
        );
        assert!(
            rewritten(&mut section, 4, RewriteKind::LdrToAdd, AArch64Instruction::Add, low),
            "{page} and {low}"
        );
        assert_eq!(section, after, "{page:?}, {low:?}");
    }
    for &(before, high, low, after) in &TO_MOVES {
        let mut section = before;
        assert!(is_adrp_pair(&section, 4), "{high} and {low}");
        assert!(
            rewritten(&mut section, 0, RewriteKind::MovzXnLsl16, AArch64Instruction::Movkz, high),
            "{high} and {low}"
        );
        assert!(
            rewritten(&mut section, 4, RewriteKind::MovkXn, AArch64Instruction::Movkz, low),
            "{high} and {low}"
        );
        assert_eq!(section, after, "{high:?}, {low:?}");
    }
    let mut section = [0, 0, 0, 0x90, 1, 0, 0x40, 0xf9, 0, 0, 0, 0x91, 0x20, 0, 0x3f, 0xd6];
    assert!(rewritten(&mut section, 0, RewriteKind::MovzX0Lsl16, AArch64Instruction::Movkz, 1));
    assert!(rewritten(&mut section, 4, RewriteKind::MovkX0, AArch64Instruction::Movkz, 0));
    let mut addend = 0;
    for at in [8u64, 12] {
        let mut offset = at;
        assert!(RewriteKind::ReplaceWithNop.can_apply(&section, offset), "at {at}");
        RewriteKind::ReplaceWithNop.apply(&mut section, &mut offset, &mut addend);
    }
    assert_eq!(
        section,
        [0x20, 0, 0xa0, 0xd2, 0, 0, 0x80, 0xf2, 0x1f, 0x20, 3, 0xd5, 0x1f, 0x20, 3, 0xd5]
    );
}

/// The word after a rewrite, or `None` if it may not be applied.
fn rewritten_word(kind: RewriteKind, word: u32) -> Option<u32> {
    let mut section = word.to_le_bytes();
    if !kind.can_apply(&section, 0) {
        return None;
    }
    let mut offset = 0;
    let mut addend = 0;
    kind.apply(&mut section, &mut offset, &mut addend);
    Some(u32_from_slice(&section))
}

#[test]
fn rewrites_of_one_instruction_match_worked_words() {
    let table: [(RewriteKind, u32, Option<u32>); 6] = [
        (RewriteKind::NoOp, 0xf940_0421, Some(0xf940_0421)),
        (RewriteKind::AddToAdr, 0x9100_0021, Some(0x1000_0021)),
        (RewriteKind::AdrpToAdr, 0xb000_0003, Some(0x3000_0003)),
        (RewriteKind::AdrpX0, 0xffff_ffff, Some(0x9000_0000)),
        (RewriteKind::LdrX0, 0xffff_ffff, Some(0xf940_0000)),
        (RewriteKind::AdrpAddToNopAdr, 0x9000_0003, None),
    ];
    for &(kind, before, after) in &table {
        assert_eq!(rewritten_word(kind, before), after, "{before:?}");
    }
}

#[test]
fn rewrites_match_their_instructions() {
    // `adrp x0`, `adrp x3`, `ldr x1, [x0]`, `ldr w3, [x3]`, `add x3, x3, #0`, `add x4, x3, #0`,
    // `add x3, x3, #0, lsl #12`
    let adrp_x0 = 0x9000_0000;
    let adrp_x3 = 0x9000_0003;
    let ldr_x1 = 0xf940_0001;
    let ldr_w3 = 0xb940_0063;
    let add_x3 = 0x9100_0063;
    let add_x4 = 0x9100_0064;
    let shifted = 0x9140_0063;
    let table: [(RewriteKind, u32, u32, bool); 14] = [
        (RewriteKind::AdrpAddToNopAdr, adrp_x3, add_x3, true),
        (RewriteKind::AdrpAddToNopAdr, adrp_x0, add_x3, false),
        (RewriteKind::AdrpAddToNopAdr, adrp_x3, add_x4, false),
        (RewriteKind::AdrpAddToNopAdr, adrp_x3, shifted, false),
        (RewriteKind::AddToAdr, 0, add_x4, true),
        (RewriteKind::AddToAdr, 0, shifted, false),
        (RewriteKind::AdrpX0, 0, adrp_x0, true),
        (RewriteKind::AdrpX0, 0, adrp_x3, false),
        (RewriteKind::LdrX0, 0, ldr_x1, true),
        (RewriteKind::LdrToAdd, 0, ldr_x1, true),
        (RewriteKind::LdrToAdd, 0, ldr_w3, false),
        (RewriteKind::MovkXn, 0, ldr_x1, false),
        (RewriteKind::MovkXn, 0, add_x3, false),
        // `ldr xzr, [sp]`: both registers have the number 31
        (RewriteKind::MovkXn, 0, 0xf940_03ff, false),
    ];
    for (kind, first, second, want) in table {
        let section = (u64::from(first) | u64::from(second) << 32).to_le_bytes();
        assert_eq!(kind.matches(&section, 4), want, "{kind:?}, {first:?}, {second:?}");
        assert!(!kind.matches(&section, 5), "{kind:?}");
        if kind == RewriteKind::AdrpAddToNopAdr {
            assert_eq!(is_adrp_pair(&section, 4), want, "{first:?}, {second:?}");
        }
    }
}

/// A relocation's meaning without a page mask.
fn row(
    kind: RelocationKind,
    size: RelocationSize,
    range: AllowedRange,
    alignment: u64,
) -> Option<RelocationKindInfo> {
    Some(RelocationKindInfo {
        kind,
        size,
        mask: None,
        range,
        alignment,
        bias: None,
        thunkable: false,
        implicit_addend: false,
    })
}

#[test]
fn relocations_have_their_meaning() {
    assert_eq!(TLS_TCB_SIZE, 16);
    assert_eq!(relocation_type_from_raw(AArch64Relocation::Other(7)), None);
    let all = AllowedRange::no_check();
    let signed21 = AllowedRange::from_bit_size(21, Sign::Signed);
    let literal = RelocationSize::bit_mask_aarch64(2, 21, AArch64Instruction::Ldr);
    let next16 = RelocationSize::bit_mask_aarch64(16, 32, AArch64Instruction::Movnz);
    let table: [(AArch64Relocation, Option<RelocationKindInfo>); 5] = [
        (
            AArch64Relocation::R_AARCH64_GOTREL64,
            row(RelocationKind::SymRelGotBase, RelocationSize::ByteSize(8), all, 1),
        ),
        (
            AArch64Relocation::R_AARCH64_GOTREL32,
            row(
                RelocationKind::SymRelGotBase,
                RelocationSize::ByteSize(4),
                AllowedRange::from_bit_size(32, Sign::Signed),
                1,
            ),
        ),
        (
            AArch64Relocation::R_AARCH64_GOT_LD_PREL19,
            row(RelocationKind::GotRelative, literal, signed21, 4),
        ),
        (
            AArch64Relocation::R_AARCH64_TLSLD_LD_PREL19,
            row(RelocationKind::TlsLd, literal, signed21, 4),
        ),
        (
            AArch64Relocation::R_AARCH64_TLSGD_MOVW_G1,
            row(RelocationKind::TlsGdGotBase, next16, all, 1),
        ),
    ];
    for &(name, want) in &table {
        assert_eq!(relocation_type_from_raw(name), want, "{name:?}");
    }
    let page = RelocationKindInfo {
        kind: RelocationKind::GotRelative,
        size: RelocationSize::bit_mask_aarch64(12, 33, AArch64Instruction::Adr),
        mask: Some(PageMask::GotEntryAndPosition(PageMaskPattern::Size4KB)),
        range: AllowedRange::from_bit_size(33, Sign::Signed),
        alignment: 1,
        bias: None,
        thunkable: false,
        implicit_addend: false,
    };
    assert_eq!(relocation_type_from_raw(AArch64Relocation::R_AARCH64_ADR_GOT_PAGE), Some(page));
}

/// `adrp` and `add` in reach of `adr`: the bytes before, the value, and the bytes after.
pub(crate) static NOP_ADR: [([u8; 8], u64, [u8; 8]); 8] = [
    (
        [0x1e, 0x00, 0x00, 0x90, 0xde, 0x03, 0x00, 0x91],
        0x3,
        [0x1f, 0x20, 0x03, 0xd5, 0x1e, 0x00, 0x00, 0x70],
    ),
    (
        [0x01, 0x00, 0x00, 0x90, 0x21, 0x00, 0x00, 0x91],
        0xfffff,
        [0x1f, 0x20, 0x03, 0xd5, 0xe1, 0xff, 0x7f, 0x70],
    ),
    (
        [0x1e, 0x00, 0x00, 0x90, 0xde, 0x03, 0x00, 0x91],
        0x1,
        [0x1f, 0x20, 0x03, 0xd5, 0x1e, 0x00, 0x00, 0x30],
    ),
    (
        [0x1e, 0x00, 0x00, 0x90, 0xde, 0x03, 0x00, 0x91],
        0x67551,
        [0x1f, 0x20, 0x03, 0xd5, 0x9e, 0xaa, 0x33, 0x30],
    ),
    (
        [0x11, 0x00, 0x00, 0x90, 0x31, 0x02, 0x00, 0x91],
        0xed91c,
        [0x1f, 0x20, 0x03, 0xd5, 0xf1, 0xc8, 0x76, 0x10],
    ),
    (
        [0x1e, 0x00, 0x00, 0x90, 0xde, 0x03, 0x00, 0x91],
        0x52e5a,
        [0x1f, 0x20, 0x03, 0xd5, 0xde, 0x72, 0x29, 0x50],
    ),
    (
        [0x03, 0x00, 0x00, 0x90, 0x63, 0x00, 0x00, 0x91],
        0x12b744,
        [0x1f, 0x20, 0x03, 0xd5, 0x23, 0xba, 0x95, 0x10],
    ),
    (
        [0x03, 0x00, 0x00, 0x90, 0x63, 0x00, 0x00, 0x91],
        0xbff1c,
        [0x1f, 0x20, 0x03, 0xd5, 0xe3, 0xf8, 0x5f, 0x10],
    ),
];

/// Loads of an address that the linker knows: the bytes before, the pages, the offset, and the
/// bytes after.
static ADRP_TO_ADD: [([u8; 8], u64, u64, [u8; 8]); 5] = [
    (
        [0x03, 0x00, 0x00, 0x90, 0x63, 0x00, 0x40, 0xf9],
        0x4fcd5,
        0xba8,
        [0xa3, 0xe6, 0x27, 0xb0, 0x63, 0xa0, 0x2e, 0x91],
    ),
    (
        [0x03, 0x00, 0x00, 0x90, 0x63, 0x00, 0x40, 0xf9],
        0x62013,
        0x220,
        [0x83, 0x00, 0x31, 0xf0, 0x63, 0x80, 0x08, 0x91],
    ),
    (
        [0x00, 0x00, 0x00, 0x90, 0x00, 0x00, 0x40, 0xf9],
        0x74350,
        0x898,
        [0x80, 0x1a, 0x3a, 0x90, 0x00, 0x60, 0x22, 0x91],
    ),
    (
        [0x03, 0x00, 0x00, 0x90, 0x63, 0x00, 0x40, 0xf9],
        0x8668d,
        0xf10,
        [0x63, 0x34, 0x43, 0xb0, 0x63, 0x40, 0x3c, 0x91],
    ),
    (
        [0x11, 0x00, 0x00, 0x90, 0x31, 0x02, 0x40, 0xf9],
        0x989cb,
        0x588,
        [0x51, 0x4e, 0x4c, 0xf0, 0x31, 0x22, 0x16, 0x91],
    ),
];

/// Offsets from the thread pointer, by moves: the bytes before, the two halves, and the bytes
/// after.
static TO_MOVES: [([u8; 8], u64, u64, [u8; 8]); 3] = [
    (
        [0x03, 0x00, 0x00, 0x90, 0x63, 0x00, 0x40, 0xf9],
        0x0,
        0x18,
        [0x03, 0x00, 0xa0, 0xd2, 0x03, 0x03, 0x80, 0xf2],
    ),
    (
        [0x11, 0x00, 0x00, 0x90, 0x31, 0x02, 0x40, 0xf9],
        0x1,
        0x10,
        [0x31, 0x00, 0xa0, 0xd2, 0x11, 0x02, 0x80, 0xf2],
    ),
    (
        [0x00, 0x00, 0x00, 0x90, 0x00, 0x00, 0x40, 0xf9],
        0x3,
        0x8,
        [0x60, 0x00, 0xa0, 0xd2, 0x00, 0x01, 0x80, 0xf2],
    ),
];

/// MOVK at relocations for MOVN and MOVZ, as ld.lld 19.1.7 links it. GNU ld 2.40 writes the same
/// where the value isn't negative; where it is, its word is no move.
#[test]
fn movk_stays_movk() {
    for (name, value, before, after) in [
        (AArch64Relocation::R_AARCH64_MOVW_PREL_G0, 0x1234, 0xf280_0000, 0xf282_4680),
        (AArch64Relocation::R_AARCH64_MOVW_PREL_G0, 0x122c, 0x7280_0003, 0x7282_4583),
        (AArch64Relocation::R_AARCH64_MOVW_PREL_G0, -0x1004, 0xf280_0000, 0xf29d_ff80),
        (AArch64Relocation::R_AARCH64_MOVW_PREL_G1, -0x1010, 0xf2a2_4681, 0xf2bf_ffe1),
        (AArch64Relocation::R_AARCH64_MOVW_PREL_G2, 0x1220, 0xf2c0_0002, 0xf2c0_0002),
        (AArch64Relocation::R_AARCH64_MOVW_SABS_G0, -5, 0xf280_0004, 0xf29f_ff64),
        (AArch64Relocation::R_AARCH64_MOVW_SABS_G1, 0x1234_5678, 0xf2a0_0005, 0xf2a2_4685),
    ] {
        let mut word = u32::to_le_bytes(before);
        let row = linker_utils::aarch64::row(name).expect("a row");
        assert_eq!(row.write(value, &mut word), Ok(()), "{name:?}");
        assert_eq!(u32::from_le_bytes(word), after, "{name:?}, {value}");
    }
}
