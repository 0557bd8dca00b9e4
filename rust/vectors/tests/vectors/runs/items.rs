// SPDX-License-Identifier: MIT OR Apache-2.0
//! Relocations and bytes as assemblers make them.

use super::{aligned, site};
use linker_utils::runs::Isa;
use linker_utils::runs::Machine::{self, LoongArch64};
use linker_utils::runs::{
    self, ItemNumbers, ItemsError, Relocation, SectionItems, are_items, shapes,
};
use linker_utils::section::Section;

/// RV64.
const RISCV64: Machine = Machine::RiscV(Isa::Rv64);

/// The items of a section at an input offset.
fn section_items(
    machine: Machine,
    section: &[u8],
    base: u64,
    relocations: &[Relocation],
) -> Result<SectionItems, ItemsError> {
    runs::section_items(machine, &Section { base, ..Section::new(section, []) }, relocations)
}

fn relocation(offset: u64, r_type: u32, addend: i64, target: Option<u64>) -> Relocation {
    Relocation { offset, r_type, has_symbol: false, addend, target, may_compress: true }
}

/// As `relocation`, with a symbol.
fn of_symbol(offset: u64, r_type: u32, addend: i64) -> Relocation {
    Relocation { has_symbol: true, ..relocation(offset, r_type, addend, None) }
}

/// Requires these items of a section at the offset 0x100 of the run, each of the relocation at its
/// place.
fn expect_items(
    machine: Machine,
    section: &[u8],
    relocations: &[Relocation],
    expected: &[ItemNumbers],
) {
    let made = section_items(machine, section, 0x100, relocations).unwrap();
    assert_eq!(made.items, expected);
    for (item, &maker) in made.items.iter().zip(&made.makers) {
        assert_eq!(item.offset, 0x100 + relocations[maker].offset);
    }
}

/// `call f`, `tail f`, `call t0, f` and the nops of `.p2align 4`, as GNU as and clang assemble
/// them.
const RISC_V: [u8; 38] = [
    0x97, 0x00, 0x00, 0x00, 0xe7, 0x80, 0x00, 0x00, 0x17, 0x03, 0x00, 0x00, 0x67, 0x00, 0x03, 0x00,
    0x97, 0x02, 0x00, 0x00, 0xe7, 0x82, 0x02, 0x00, 0x13, 0x00, 0x00, 0x00, 0x13, 0x00, 0x00, 0x00,
    0x13, 0x00, 0x00, 0x00, 0x01, 0x00,
];

#[test]
fn riscv_calls_and_alignments_are_items() {
    let relocations = [
        relocation(0, 19, 0, Some(0x900)),
        relocation(0, 51, 0, None),
        relocation(8, 19, 0, Some(0x900)),
        relocation(8, 51, 0, None),
        relocation(16, 18, 0, Some(0x900)),
        relocation(16, 51, 0, None),
        relocation(24, 43, 14, None),
    ];
    let expected = [
        site(0x100, 0x900, shapes::riscv64::CALL),
        site(0x108, 0x900, shapes::riscv64::TAIL_C),
        site(0x110, 0x900, shapes::riscv64::CALL),
        aligned(0x118, 14, 16, None),
    ];
    expect_items(RISCV64, &RISC_V, &relocations, &expected);
}

#[test]
fn riscv_code_of_four_byte_instructions_has_no_short_ones() {
    let call = Relocation { may_compress: false, ..relocation(8, 19, 0, Some(0x900)) };
    let relocations = [call, relocation(8, 51, 0, None), relocation(24, 43, 12, None)];
    let expected =
        [site(0x108, 0x900, shapes::riscv64::CALL_WITHOUT_C), aligned(0x118, 12, 16, None)];
    expect_items(RISCV64, &RISC_V, &relocations, &expected);
}

/// `tail f`, `.option norvc` and `.balign 16`: assemblers write 12 bytes of nops, for a multiple of 4.
/// With 8 bytes for 16 the address has to be a multiple of 8, and no call may become shorter. Where
/// the next alignment is another, its nops count.
#[test]
fn riscv_calls_leave_the_next_alignment_its_nops() {
    let tail = [relocation(8, 19, 0, Some(0x900)), relocation(8, 51, 0, None)];
    let run = |addends: [i64; 2]| {
        let [first, second] = addends.map(|addend| relocation(24, 43, addend, None));
        section_items(RISCV64, &RISC_V, 0x100, &[tail[0], tail[1], first, second]).unwrap().items
    };
    let (call, c_j) = (shapes::riscv64::CALL, shapes::riscv64::TAIL_C);
    assert_eq!(run([12, 14])[0], site(0x108, 0x900, call));
    assert_eq!(run([14, 12])[0], site(0x108, 0x900, c_j));
    assert_eq!(run([0, 12])[0], site(0x108, 0x900, call));
    assert_eq!(run([8, 14])[0], aligned(0x118, 8, 16, None));
    let items = run([12, 0]);
    assert_eq!(items, [site(0x108, 0x900, call), aligned(0x118, 12, 16, None)]);
    assert!(are_items(&items, 0));
    // two bytes of the object's own before it are in the way
    assert!(!are_items(&items, 2));
}

/// A call that isn't marked, one whose target isn't in the run, one marked at another place, and
/// bytes that aren't a call.
#[test]
fn riscv_calls_that_stay_are_left_out() {
    let relocations = [
        relocation(0, 19, 0, Some(0x900)),
        relocation(8, 19, 0, None),
        relocation(8, 51, 0, None),
        relocation(16, 19, 0, Some(0x900)),
        relocation(8, 51, 0, None),
        relocation(4, 19, 0, Some(0x900)),
        relocation(4, 51, 0, None),
        relocation(24, 43, 0, None),
    ];
    expect_items(RISCV64, &RISC_V, &relocations, &[]);
}

#[test]
fn malformed_riscv_relocations_are_named() {
    let rows = [
        relocation(39, 2, 0, None),
        relocation(31, 19, 0, None),
        relocation(24, 43, 16, None),
        relocation(24, 43, 13, None),
        relocation(24, 43, -2, None),
    ];
    for &malformed in &rows {
        let relocations = [relocation(38, 51, 0, None), malformed];
        let items = section_items(RISCV64, &RISC_V, 0, &relocations);
        assert_eq!(items.err(), Some(ItemsError::Malformed(1)), "{malformed:?}");
    }
}

/// `pcaddu18i ra` and `jirl ra, ra, 0`; `pcaddu18i t0` and `jirl zero, t0, 0`; `pcalau12i a0` and
/// `addi.d a0, a0, 0`; three nops.
const LOONGARCH: [u8; 36] = [
    0x01, 0x00, 0x00, 0x1e, 0x21, 0x00, 0x00, 0x4c, 0x0c, 0x00, 0x00, 0x1e, 0x80, 0x01, 0x00, 0x4c,
    0x04, 0x00, 0x00, 0x1a, 0x84, 0x00, 0xc0, 0x02, 0x00, 0x00, 0x40, 0x03, 0x00, 0x00, 0x40, 0x03,
    0x00, 0x00, 0x40, 0x03,
];

#[test]
fn loongarch_calls_addresses_and_alignments_are_items() {
    let relocations = [
        relocation(0, 110, 0, Some(0x900)),
        relocation(0, 100, 0, None),
        relocation(8, 110, 0, Some(0x900)),
        relocation(8, 100, 0, None),
        relocation(16, 71, 0, Some(0x900)),
        relocation(16, 100, 0, None),
        relocation(20, 72, 0, Some(0x900)),
        relocation(20, 100, 0, None),
        relocation(24, 102, 12, None),
    ];
    let expected = [
        site(0x100, 0x900, shapes::loongarch64::CALL36),
        site(0x108, 0x900, shapes::loongarch64::CALL36),
        site(0x110, 0x900, shapes::loongarch64::PCALA),
        aligned(0x118, 12, 16, None),
    ];
    expect_items(LoongArch64, &LOONGARCH, &relocations, &expected);
}

/// Without a site the units of a run are bytes, and code whose alignments need nops is still a run.
#[test]
fn alignments_alone_are_a_run() {
    let relocations = [relocation(24, 43, 14, None)];
    let riscv = section_items(RISCV64, &[0; 40], 0x100, &relocations).unwrap();
    assert!(are_items(&riscv.items, 0));
    let relocations = [relocation(24, 102, 12, None)];
    let loongarch = section_items(LoongArch64, &[0; 40], 0x100, &relocations).unwrap();
    assert!(are_items(&loongarch.items, 0));
}

/// `.p2align 4` and `.p2align 4, , 4` in a section with a symbol: the exponent, and the most bytes
/// above its 8 bits.
#[test]
fn loongarch_alignments_have_two_spellings() {
    let rows = [
        (relocation(24, 102, 12, None), aligned(0x118, 12, 16, None)),
        (relocation(24, 102, 8, None), aligned(0x118, 8, 16, None)),
        (relocation(24, 102, 4, None), aligned(0x118, 4, 8, None)),
        (of_symbol(24, 102, 4), aligned(0x118, 12, 16, None)),
        (of_symbol(24, 102, 0x404), aligned(0x118, 12, 16, Some(4))),
        (of_symbol(24, 102, 0xb04), aligned(0x118, 12, 16, Some(11))),
        (of_symbol(24, 102, 0xc04), aligned(0x118, 12, 16, None)),
        (of_symbol(24, 102, 0x1404), aligned(0x118, 12, 16, None)),
    ];
    for &(relocation, expected) in &rows {
        expect_items(LoongArch64, &LOONGARCH, &[relocation], &[expected]);
    }
}

/// An address in two registers, one whose low part has another target, and one whose low part isn't
/// marked.
#[test]
fn loongarch_addresses_that_stay_are_left_out() {
    let mut other_register = LOONGARCH;
    other_register[20] = 0x85;
    let mut relocations = [
        relocation(16, 71, 0, Some(0x900)),
        relocation(16, 100, 0, None),
        relocation(20, 72, 0, Some(0x900)),
        relocation(20, 100, 0, None),
    ];
    expect_items(LoongArch64, &other_register, &relocations, &[]);
    relocations[2].target = Some(0x904);
    expect_items(LoongArch64, &LOONGARCH, &relocations, &[]);
    relocations[2].target = Some(0x900);
    expect_items(LoongArch64, &LOONGARCH, &relocations[..3], &[]);
}

#[test]
fn malformed_loongarch_relocations_are_named() {
    let rows = [
        relocation(37, 2, 0, None),
        relocation(32, 110, 0, None),
        relocation(24, 102, 6, None),
        relocation(28, 102, 12, None),
        relocation(24, 102, -4, None),
        of_symbol(24, 102, 5),
        of_symbol(24, 102, 1),
        of_symbol(24, 102, 64),
    ];
    for &malformed in &rows {
        let relocations = [relocation(36, 100, 0, None), malformed];
        let items = section_items(LoongArch64, &LOONGARCH, 0, &relocations);
        assert_eq!(items.err(), Some(ItemsError::Malformed(1)), "{malformed:?}");
    }
}
