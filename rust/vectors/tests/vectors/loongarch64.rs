// SPDX-License-Identifier: MIT OR Apache-2.0
//! LoongArch: what assemblers and linkers write, and values worked by hand.

mod assembled;
mod choices;
mod linked;
pub(crate) mod relaxed;

use assembled::{BRANCH_21, BRANCH_26, SHIFT_5, SHIFT_10};
use linked::{ABSOLUTE, CALL_36, FIVE, PAGE_PAIR};
use linker_utils::bit_misc::BitExtraction;
use linker_utils::elf::{
    InstructionForm, LoongArch64Instruction, RelocateError, RelocationKind, RelocationSize, RowSize,
};
use linker_utils::loongarch64::{
    LoongArch64Relocation, relocation_type_from_raw, row, write_address_sequence,
};
use linker_utils::utils::u32_from_slice;

fn written(form: LoongArch64Instruction, before: u64, value: u64) -> u64 {
    let mut bytes = before.to_le_bytes();
    assert!(form.window() <= 8);
    assert!(form.fits(value, &bytes));
    form.write_to_value(value, false, &mut bytes);
    u64::from_le_bytes(bytes)
}

fn read(form: LoongArch64Instruction, word: u64) -> (u64, bool) {
    let bytes = word.to_le_bytes();
    assert!(form.window() <= 8);
    form.read_value(&bytes)
}

/// The word after a relocation's bits of the value are written to it.
fn relocated(name: LoongArch64Relocation, before: u32, value: u64) -> u32 {
    let info = relocation_type_from_raw(name).expect("a row");
    let mut bytes = before.to_le_bytes();
    match info.size {
        RelocationSize::BitMasking { range, insn } => {
            assert!(range.start < range.end && range.end <= 64);
            let bits = value.extract_bit_range(range.start as u32..range.end as u32);
            assert!(insn.window() <= 4);
            assert!(insn.fits(bits, &bytes));
            insn.write(bits, false, &mut bytes);
        }
        RelocationSize::ByteSize(_) => panic!("{name:?} is not of bits of an instruction"),
    }
    u32::from_le_bytes(bytes)
}

#[test]
fn immediates_match_assemblers() {
    for (before, value, after) in SHIFT_5 {
        assert_eq!(
            written(LoongArch64Instruction::Shift5, before, value),
            after,
            "{value:?}, {before:?}"
        );
        assert_eq!(
            read(LoongArch64Instruction::Shift5, after),
            (value, false),
            "{value:?}, {before:?}"
        );
    }
    for (before, value, after) in SHIFT_10 {
        assert_eq!(
            written(LoongArch64Instruction::Shift10, before, value),
            after,
            "{value:?}, {before:?}"
        );
        let (low, negative) = read(LoongArch64Instruction::Shift10, after);
        assert_eq!(low, value.low_bits(12), "{value:?}, {before:?}");
        assert!(!negative, "{value} in {before}");
    }
}

#[test]
fn branches_match_assemblers() {
    for (before, value, after, distance) in BRANCH_26 {
        assert_eq!(
            written(LoongArch64Instruction::Branch26, before, value),
            after,
            "{value:?}, {before:?}"
        );
        assert_eq!(
            read(LoongArch64Instruction::Branch26, after),
            (distance as u64, distance < 0),
            "{value:?}, {before:?}"
        );
    }
    for (before, value, after, distance) in BRANCH_21 {
        assert_eq!(
            written(LoongArch64Instruction::Branch21, before, value),
            after,
            "{value:?}, {before:?}"
        );
        assert_eq!(
            read(LoongArch64Instruction::Branch21, after),
            (distance as u64, distance < 0),
            "{value:?}, {before:?}"
        );
    }
}

#[test]
fn calls_match_linkers() {
    for (value, after, distance) in CALL_36 {
        assert_eq!((distance as u64).low_bits(36), value, "{value:?}");
        assert_eq!(
            written(LoongArch64Instruction::Call36, 0x4c00_0021_1e00_0001, value),
            after,
            "{value:?}"
        );
        assert_eq!(read(LoongArch64Instruction::Call36, after), (value, false), "{value:?}");
    }
}

#[test]
fn absolute_and_page_addresses_match_linkers() {
    for (address, high, low, middle, upper) in ABSOLUTE {
        assert_eq!(
            relocated(LoongArch64Relocation::R_LARCH_ABS_HI20, 0x1400_0004, address),
            high,
            "{address:?}"
        );
        assert_eq!(
            relocated(LoongArch64Relocation::R_LARCH_ABS_LO12, 0x0380_0084, address),
            low,
            "{address:?}"
        );
        assert_eq!(
            relocated(LoongArch64Relocation::R_LARCH_ABS64_LO20, 0x1600_0004, address),
            middle,
            "{address:?}"
        );
        assert_eq!(
            relocated(LoongArch64Relocation::R_LARCH_ABS64_HI12, 0x0300_0084, address),
            upper,
            "{address:?}"
        );
    }
    for (pc, target, high, low) in PAGE_PAIR {
        let distance = (target.wrapping_add(0x800) & !0xfff).wrapping_sub(pc & !0xfff);
        assert_eq!(
            relocated(LoongArch64Relocation::R_LARCH_PCALA_HI20, 0x1a00_0004, distance),
            high,
            "{target:?}"
        );
        assert_eq!(
            relocated(LoongArch64Relocation::R_LARCH_PCALA_LO12, 0x02c0_0084, target),
            low,
            "{target:?}"
        );
    }
}

/// The five instructions after an address is written to them.
fn addressed(before: [u8; 20], pc: u64, target: u64) -> [u32; 5] {
    let mut bytes = before;
    write_address_sequence(&mut bytes, pc, target);
    [
        u32_from_slice(&bytes),
        u32_from_slice(&bytes[4..]),
        u32_from_slice(&bytes[8..]),
        u32_from_slice(&bytes[12..]),
        u32_from_slice(&bytes[16..]),
    ]
}

#[test]
fn address_sequences_match_linkers() {
    let before = [
        0x04, 0x00, 0x00, 0x1a, 0x05, 0x00, 0xc0, 0x02, 0x05, 0x00, 0x00, 0x16, 0xa5, 0x00, 0x00,
        0x03, 0x84, 0x94, 0x10, 0x00,
    ];
    for (pc, target, first, second) in FIVE {
        let [a, b, c, d, e] = addressed(before, pc, target);
        assert_eq!(
            (a as u64 | (b as u64) << 32, c as u64 | (d as u64) << 32),
            (first, second),
            "{target:?}, {pc:?}"
        );
        assert_eq!(e, 0x0010_9484, "{target:?}, {pc:?}");
    }
}

/// `jirl ra, t0, %pc_lo12(f)` and `jirl zero, t0, %pc_lo12(f)` as ld.lld 19.1.7 links them, with `f`
/// at these addresses.
#[test]
fn jumps_take_the_low_part_in_words() {
    let low = row(LoongArch64Relocation::R_LARCH_PCALA_LO12).expect("a row");
    for (target, before, after) in [
        (0x300134, 0x4c00_0181, 0x4c01_3581),
        (0x300234, 0x4c00_0181, 0x4c02_3581),
        (0x3007fc, 0x4c00_0181, 0x4c07_fd81),
        (0x300800, 0x4c00_0180, 0x4ff8_0180),
        (0x300ffc, 0x4c00_0180, 0x4fff_fd80),
        // over another immediate
        (0x300134, 0x4fff_fd81, 0x4c01_3581),
    ] {
        let mut word = u32::to_le_bytes(before);
        assert_eq!(low.write(target, &mut word), Ok(()), "{target:x}");
        assert_eq!(u32::from_le_bytes(word), after, "{target:x}");
    }
    // ld.lld rejects what isn't a multiple of 4
    let mut word = 0x4c00_0181u32.to_le_bytes();
    assert_eq!(low.write(0x300136, &mut word), Err(RelocateError::Misaligned));
    assert_eq!(word, 0x4c00_0181u32.to_le_bytes());
    // other instructions, and other relocations of 12 bits, take bits 0 to 11
    let mut addi = 0x02c0_0084u32.to_le_bytes();
    assert_eq!(low.write(0x300136, &mut addi), Ok(()));
    assert_eq!(u32::from_le_bytes(addi), 0x02c4_d884);
    let got = row(LoongArch64Relocation::R_LARCH_GOT_PC_LO12).expect("a row");
    let mut jump = 0x4c00_0181u32.to_le_bytes();
    assert_eq!(got.write(0x300134, &mut jump), Ok(()));
    assert_eq!(u32::from_le_bytes(jump), 0x4c04_d181);
}

/// The psABI gives the code 20 to a mark, which has no field.
#[test]
fn marks_and_alignments_have_rows_without_bytes() {
    for (name, r_type, kind, original) in [
        (LoongArch64Relocation::R_LARCH_MARK_LA, 20, RelocationKind::None, None),
        (
            LoongArch64Relocation::R_LARCH_ALIGN,
            102,
            RelocationKind::Alignment,
            Some(RelocationKind::None),
        ),
    ] {
        assert_eq!((name.r_type(), LoongArch64Relocation::from_elf(r_type)), (r_type, name));
        let info = row(name).expect("a row").info();
        assert_eq!((info.kind, info.size), (kind, RowSize::ByteSize(0)), "{name:?}");
        let raw = relocation_type_from_raw(name);
        assert_eq!(raw.map(|info| info.kind), original, "{name:?}");
    }
}
