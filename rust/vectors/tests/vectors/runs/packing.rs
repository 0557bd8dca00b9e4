// SPDX-License-Identifier: MIT OR Apache-2.0
//! Sections as linkers pack them.

use super::{aligned, site};
use linker_utils::relaxation::RelaxDelta;
use linker_utils::runs::shapes::fixed;
use linker_utils::runs::shapes::loongarch64::{CALL36, PCALA};
use linker_utils::runs::shapes::riscv64::{CALL, TAIL_C};
use linker_utils::runs::{
    Isa, ItemError, ItemNumbers, Machine, RejectedItem, Run, are_items, pack_run,
};
use linker_utils::runs::{packed_run_len, relax};
use linker_utils::section::Section;

/// Requires that items of a section at the input offset 0x100 are packed so, or rejected.
fn expect(
    machine: Machine,
    section: &[u8],
    items: &[ItemNumbers],
    deltas: &[RelaxDelta],
    expected: Result<(), RejectedItem>,
    bytes: &[u8],
) {
    let mut out = [0xee; 68];
    let len = packed_run_len(0x100, section.len(), deltas);
    assert!(len <= out.len());
    let packed = &mut out[..len];
    let mut section = Section { base: 0x100, ..Section::new(section, []) };
    let result = pack_run(machine, &mut section, &Run { start: 0xff08, items, deltas }, packed);
    assert_eq!(result, expected);
    assert_eq!(&packed[..bytes.len().min(len)], bytes);
}

/// Requires that an item after all that end before it is rejected so.
fn expect_rejected(
    machine: Machine,
    section: &[u8],
    items: &[ItemNumbers],
    item: ItemNumbers,
    deltas: &[RelaxDelta],
    error: ItemError,
) {
    let is_before = |other: &&ItemNumbers| other.offset + u64::from(other.len) <= item.offset;
    let mut items: Vec<ItemNumbers> = items.iter().filter(is_before).copied().collect();
    let rejected = RejectedItem { index: items.len(), error };
    items.push(item);
    let len = packed_run_len(0x100, section.len(), deltas);
    expect(machine, section, &items, deltas, Err(rejected), &[0xee; 68][..len]);
}

/// The bytes of an item from its third one on are deleted.
fn all_but_two(offset: u64, len: u32) -> [RelaxDelta; 1] {
    [RelaxDelta {
        input_offset: offset + 2,
        cumulative_deleted: u64::from(len - 2),
        bytes_deleted: len - 2,
    }]
}

/// `call f`, `nop`, `tail f`, `call t0, far`, the nops of `.p2align 4`, and `f: ret`, as GNU as
/// assembles them.
const RISC_V: [u8; 44] = [
    0x97, 0x00, 0x00, 0x00, 0xe7, 0x80, 0x00, 0x00, 0x13, 0x00, 0x00, 0x00, 0x17, 0x03, 0x00, 0x00,
    0x67, 0x00, 0x03, 0x00, 0x17, 0x03, 0x00, 0x00, 0xe7, 0x02, 0x03, 0x00, 0x01, 0x00, 0x13, 0x00,
    0x00, 0x00, 0x13, 0x00, 0x00, 0x00, 0x13, 0x00, 0x00, 0x00, 0x82, 0x80,
];

/// The items of that section at the input offset 0x100 of a run that loses 8 bytes before it. `far`
/// goes to the address 0x40000000.
fn riscv_items() -> [ItemNumbers; 5] {
    [
        site(0x10, 0, fixed(0)),
        site(0x100, 0x12a, CALL),
        site(0x10c, 0x12a, TAIL_C),
        site(0x114, 0x3fff_010a, CALL),
        aligned(0x11c, 14, 16, None),
    ]
}

/// `jal ra, f`, `nop`, `j f`, `call t0, far`, three `nop` and `c.nop`, and `f: ret`: as GNU ld 2.40
/// and ld.lld 19 link them at 0x10000, where these leave all nops as they are, with `c.nop` first.
const RISC_V_PACKED: [u8; 34] = [
    0xef, 0x00, 0x00, 0x02, 0x13, 0x00, 0x00, 0x00, 0x21, 0xa8, 0x17, 0x03, 0xff, 0x3f, 0xe7, 0x02,
    0x63, 0xff, 0x13, 0x00, 0x00, 0x00, 0x13, 0x00, 0x00, 0x00, 0x13, 0x00, 0x00, 0x00, 0x01, 0x00,
    0x82, 0x80,
];

/// `call36 f`, three `nop`, `tail36 $t0, f`, `la.pcrel $a0, f`, `call36 far`, `la.pcrel $a1, data`,
/// the nops of `.p2align 4`, and `f: ret`, as clang 19 assembles them.
const LOONGARCH: [u8; 68] = [
    0x01, 0x00, 0x00, 0x1e, 0x21, 0x00, 0x00, 0x4c, 0x00, 0x00, 0x40, 0x03, 0x00, 0x00, 0x40, 0x03,
    0x00, 0x00, 0x40, 0x03, 0x0c, 0x00, 0x00, 0x1e, 0x80, 0x01, 0x00, 0x4c, 0x04, 0x00, 0x00, 0x1a,
    0x84, 0x00, 0xc0, 0x02, 0x01, 0x00, 0x00, 0x1e, 0x21, 0x00, 0x00, 0x4c, 0x05, 0x00, 0x00, 0x1a,
    0xa5, 0x00, 0xc0, 0x02, 0x00, 0x00, 0x40, 0x03, 0x00, 0x00, 0x40, 0x03, 0x00, 0x00, 0x40, 0x03,
    0x20, 0x00, 0x00, 0x4c,
];

/// The items of that section, as for RISC-V. `data` is at the address 0x40000808.
fn loongarch_items() -> [ItemNumbers; 7] {
    [
        site(0x10, 0, fixed(0)),
        site(0x100, 0x140, CALL36),
        site(0x114, 0x140, CALL36),
        site(0x11c, 0x140, PCALA),
        site(0x124, 0x3fff_0110, CALL36),
        site(0x12c, 0x3fff_0918, PCALA),
        aligned(0x134, 12, 16, None),
    ]
}

/// `bl f`, three `nop`, `b f`, `pcaddi $a0, f`, as clang 19 assembles them; `call36 far` and
/// `la.pcrel $a1, data` as ld.lld 19 links them at 0x10018; two `nop`, and `f: ret`.
const LOONGARCH_PACKED: [u8; 52] = [
    0x00, 0x30, 0x00, 0x54, 0x00, 0x00, 0x40, 0x03, 0x00, 0x00, 0x40, 0x03, 0x00, 0x00, 0x40, 0x03,
    0x00, 0x20, 0x00, 0x50, 0xe4, 0x00, 0x00, 0x18, 0x01, 0x00, 0x02, 0x1e, 0x21, 0xe8, 0xff, 0x4e,
    0x25, 0xfe, 0x7f, 0x1a, 0xa5, 0x20, 0xe0, 0x02, 0x00, 0x00, 0x40, 0x03, 0x00, 0x00, 0x40, 0x03,
    0x20, 0x00, 0x00, 0x4c,
];

#[test]
fn sections_of_riscv_are_packed_as_linkers_pack_them() {
    let items = riscv_items();
    assert!(are_items(&items, 0xff08));
    let plan = relax(&items, 0xff08).unwrap();
    assert_eq!(plan.kept, [0, 4, 2, 8, 14]);
    let deltas = plan.deletions.deltas();
    let machine = Machine::RiscV(Isa::Rv64);
    expect(machine, &RISC_V, &items[1..], deltas, Ok(()), &RISC_V_PACKED);
}

#[test]
fn sections_of_loongarch_are_packed() {
    let items = loongarch_items();
    assert!(are_items(&items, 0xff08));
    let plan = relax(&items, 0xff08).unwrap();
    assert_eq!(plan.kept, [0, 4, 4, 4, 8, 8, 8]);
    let deltas = plan.deletions.deltas();
    let machine = Machine::LoongArch64;
    expect(machine, &LOONGARCH, &items[1..], deltas, Ok(()), &LOONGARCH_PACKED);
}

#[test]
fn rejected_items_of_riscv_are_named() {
    let items = riscv_items();
    assert!(are_items(&items, 0xff08));
    let plan = relax(&items, 0xff08).unwrap();
    let deltas = plan.deletions.deltas();
    let rows = [
        (aligned(0x128, 6, 8, None), ItemError::OutOfSection),
        // the `tail f`, which is deleted but for its first two bytes, and the call after it
        (aligned(0x10c, 16, 16, None), ItemError::NotItsFirstBytes),
        // from its last bytes on: the others are of no item
        (site(0x110, 0x12a, CALL), ItemError::DeletedOutside),
        (site(0x10a, 0x12a, CALL), ItemError::NotItsInstructions),
        (site(0x118, 0x12a, CALL), ItemError::NotItsInstructions),
        // `j` over too many bytes, and over an odd number of them
        (site(0x10c, 0x1140, TAIL_C), ItemError::OutOfReach),
        (site(0x10c, 0x129, TAIL_C), ItemError::OutOfReach),
    ];
    let machine = Machine::RiscV(Isa::Rv64);
    for &(item, error) in &rows {
        expect_rejected(machine, &RISC_V, &items[1..], item, deltas, error);
    }
    let overlaps = Err(RejectedItem { index: 2, error: ItemError::Overlaps });
    let twice = [items[1], items[2], items[2]];
    expect(machine, &RISC_V, &twice, deltas, overlaps, &[0xee; 34]);
}

/// Where an item is left out, half of its instructions would stay.
#[test]
fn items_that_lose_bytes_are_not_left_out() {
    let items = riscv_items();
    let plan = relax(&items, 0xff08).unwrap();
    let deltas = plan.deletions.deltas();
    let machine = Machine::RiscV(Isa::Rv64);
    let missing = |index| Err(RejectedItem { index, error: ItemError::DeletedOutside });
    expect(machine, &RISC_V, &items[2..], deltas, missing(0), &[0xee; 34]);
    expect(machine, &RISC_V, &[items[1], items[3]], deltas, missing(1), &[0xee; 34]);
    expect(machine, &RISC_V, &items[1..2], deltas, missing(1), &[0xee; 34]);
    // the call that stays and the nops, which all stay, needn't be listed
    let without = [items[1], items[2]];
    let mut packed = RISC_V_PACKED;
    packed[10..18].copy_from_slice(&RISC_V[20..28]);
    packed[18..32].copy_from_slice(&RISC_V[28..42]);
    expect(machine, &RISC_V, &without, deltas, Ok(()), &packed);
}

#[test]
fn rejected_items_of_loongarch_are_named() {
    let items = loongarch_items();
    assert!(are_items(&items, 0xff08));
    let plan = relax(&items, 0xff08).unwrap();
    let deltas = plan.deletions.deltas();
    let rows = [
        (site(0x108, 0x140, CALL36), ItemError::NotItsInstructions),
        // `b` over 2^27 bytes and more, `pcaddi` and `call36` over an odd number of them
        (site(0x114, 0x0800_0200, CALL36), ItemError::OutOfReach),
        (site(0x11c, 0x141, PCALA), ItemError::OutOfReach),
        (site(0x124, 0x141, CALL36), ItemError::OutOfReach),
        // `la.pcrel` over 2^31 bytes and more
        (site(0x12c, 0x8001_0000, PCALA), ItemError::OutOfReach),
    ];
    let machine = Machine::LoongArch64;
    for &(item, error) in &rows {
        expect_rejected(machine, &LOONGARCH, &items[1..], item, deltas, error);
    }
}

#[test]
fn items_of_which_two_bytes_stay_are_rejected() {
    let no_shape = Err(RejectedItem { index: 0, error: ItemError::NoShape });
    // `c.j` links none
    let items = [site(0x100, 0x12a, CALL)];
    let deltas = all_but_two(0x100, 8);
    expect(Machine::RiscV(Isa::Rv64), &RISC_V, &items, &deltas, no_shape, &[0xee; 38]);
    let machine = Machine::LoongArch64;
    let items = [site(0x100, 0x140, CALL36)];
    expect(machine, &LOONGARCH, &items, &deltas, no_shape, &[0xee; 62]);
    let items = [aligned(0x134, 12, 16, None)];
    let deltas = all_but_two(0x134, 12);
    expect(machine, &LOONGARCH, &items, &deltas, no_shape, &[0xee; 58]);
}
