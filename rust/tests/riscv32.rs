// SPDX-License-Identifier: MIT OR Apache-2.0
//! Relocations of RV32, as linkers write them.

use linker_utils::elf::Architecture::RiscV;
use linker_utils::elf::RelocateError::OutOfReach;
use linker_utils::output::{StubKind, Target};
use linker_utils::runs::{Isa, Machine, Relocation, Run, packed_run_len, relax, section_items};
use linker_utils::section::{
    Addresses, Link, Object, RelocationError, Section, Symbol, memory_len, read_rela32,
    ValueError, relocate_section, relocation_at, relocations_len, value, wrap_addends,
};

/// The bytes of words.
fn bytes_of(words: &[u32]) -> Vec<u8> {
    words.iter().flat_map(|word| word.to_le_bytes()).collect()
}

/// Code and words of RV32 at 0x1000, as GNU as leaves them, and as GNU ld and ld.lld link them: with
/// symbols at 0x80001234, 0x7ffffabc and 0xfffffff0, from which distances are more than 2^31.
#[test]
fn relocations_of_rv32_match_linkers() {
    // each an `Elf32_Rela`
    const RELOCATIONS: [u32; 78] = [
        0x00000000, 0x00000e1a, 0x00000000, 0x00000004, 0x00000e1b, 0x00000000,
        0x00000008, 0x00000e1c, 0x00000004, 0x0000000c, 0x00000f1a, 0x00000000,
        0x00000010, 0x00000f1b, 0x00000000, 0x00000014, 0x0000101a, 0x00000000,
        0x00000018, 0x0000101b, 0x00000000, 0x0000001c, 0x00000e17, 0x00000000,
        0x00000020, 0x00000918, 0x00000000, 0x00000024, 0x00001017, 0x00000008,
        0x00000028, 0x00000a19, 0x00000000, 0x0000002c, 0x00000f17, 0x00000000,
        0x00000030, 0x00000b18, 0x00000000, 0x00000034, 0x00000e13, 0x00000000,
        0x0000003c, 0x00001013, 0x00000000, 0x00000044, 0x00000610, 0x00000000,
        0x00000048, 0x00000e01, 0x00000000, 0x0000004c, 0x00001001, 0x00000000,
        0x00000050, 0x00000f01, 0x00000010, 0x00000054, 0x00000e23, 0x00000000,
        0x00000054, 0x00000d27, 0x00000000, 0x00000058, 0x00000622, 0x00000000,
        0x00000058, 0x00000d26, 0x00000000, 0x0000005a, 0x00000621, 0x00000000,
        0x0000005a, 0x00000d25, 0x00000000, 0x0000005c, 0x00000d2d, 0x00000000,
    ];
    const BEFORE: [u32; 23] = [
        0x00000537, 0x00050513, 0x00b52223, 0x00000537, 0x00052503, 0x00000537, 0x00050513, 0x00000517,
        0x00050513, 0x00000517, 0x00b52023, 0x00000517, 0x00052503, 0x00000097, 0x000080e7, 0x00000317,
        0x00030067, 0x00b50c63, 0x00000000, 0x00000000, 0x00000000, 0x00000000, 0x00000000,
    ];
    const LINKED: [u32; 23] = [
        0x80001537, 0x23450513, 0x22b52c23, 0x80000537, 0xabc52503, 0x00000537, 0xff050513, 0x80000517,
        0x21850513, 0xfffff517, 0xfcb52a23, 0x7ffff517, 0xa9052503, 0x80000097, 0x200080e7, 0xfffff317,
        0xfb430067, 0x00b50c63, 0x80001234, 0xfffffff0, 0x7ffffacc, 0x80000234, 0x005c005c,
    ];
    const SYMBOLS: [u64; 17] = [
        0x0, 0x1000, 0x0, 0x0, 0x1000, 0x1044, 0x105c, 0x1048,
        0x105c, 0x101c, 0x1024, 0x102c, 0x0, 0x1000, 0x80001234, 0x7ffffabc,
        0xfffffff0,
    ];
    let mut bytes = bytes_of(&BEFORE);
    bytes.extend([0x01, 0xa0]);
    let entries = bytes_of(&RELOCATIONS);
    let mut relocations = vec![0; 2 * entries.len()];
    read_rela32(&entries, &mut relocations);
    let values = SYMBOLS.map(|address| Symbol { address, ..Symbol::default() });
    let addresses = Addresses { section: 0x1000, ..Addresses::default() };

    // as those of RV64 the first is out of reach
    let object = Object { values: &values, ..Object::default() };
    let mut memory = vec![0; memory_len(&relocations)];
    let mut section =
        Section { address: 0x1000, ..Section::new(bytes.clone(), relocations.clone()) };
    let link = Link::new(RiscV);
    let error = relocate_section(&link, &object, &mut section, &mut memory).unwrap_err();
    assert_eq!((error.index, error.error), (0, RelocationError::Write(OutOfReach)));

    wrap_addends(&addresses, &values, &mut section.relocations);
    let wrapped = section.relocations.clone();
    wrap_addends(&addresses, &values, &mut section.relocations);
    assert_eq!(section.relocations, wrapped);
    relocate_section(&link, &object, &mut section, &mut memory).unwrap();
    let mut linked = bytes_of(&LINKED);
    linked.extend([0x55, 0xb7]);
    assert_eq!(section.bytes, linked);

    // a machine of 32 bits computes the targets: `lui` and `auipc`, each with a low part
    let upper = |index: usize| LINKED[index] & 0xffff_f000;
    let low = |index: usize| (LINKED[index] as i32 >> 20) as u32;
    let store = |index: usize| {
        ((LINKED[index] as i32 >> 25) as u32) << 5 | LINKED[index] >> 7 & 31
    };
    assert_eq!(upper(0).wrapping_add(low(1)), 0x8000_1234);
    assert_eq!(upper(0).wrapping_add(store(2)), 0x8000_1238);
    assert_eq!(upper(3).wrapping_add(low(4)), 0x7fff_fabc);
    assert_eq!(upper(5).wrapping_add(low(6)), 0xffff_fff0);
    assert_eq!(0x101c_u32.wrapping_add(upper(7)).wrapping_add(low(8)), 0x8000_1234);
    assert_eq!(0x1024_u32.wrapping_add(upper(9)).wrapping_add(store(10)), 0xffff_fff8);
    assert_eq!(0x1034_u32.wrapping_add(upper(13)).wrapping_add(low(14)), 0x8000_1234);

    // a multiple of 2^32 was added to each addend, and all else is as before
    for index in 0..relocations_len(&wrapped) {
        let before = relocation_at(&relocations, index).unwrap();
        let after = relocation_at(&wrapped, index).unwrap();
        assert_eq!((after.addend - before.addend) % (1 << 32), 0, "{index}");
        assert_eq!((after.offset, after.r_type, after.symbol), (before.offset, before.r_type, before.symbol));
        let value = |relocations: &[u8], it| value(RiscV, &addresses, relocations, &values, it);
        let (was, is) = (value(&relocations, &before), value(&wrapped, &after));
        let (was, is) = (was.unwrap().unwrap(), is.unwrap().unwrap());
        assert_eq!((is - was) % (1 << 32), 0, "{index}");
        if let Some((least, end)) = RiscV.row(after.r_type).unwrap().reach().bounds {
            assert!((least..end).contains(&is), "{index}");
        }
    }
}

/// `jal` from 0x1044 to 0xfffffff0, 0x1054 bytes before it modulo 2^32, which the ISA allows and both
/// linkers reject.
#[test]
fn branches_wrap() {
    let mut relocations = [0; 24];
    read_rela32(&bytes_of(&[0x44, 0x111, 0]), &mut relocations);
    let values = [Symbol::default(), Symbol { address: 0xffff_fff0, ..Symbol::default() }];
    wrap_addends(&Addresses { section: 0x1000, ..Addresses::default() }, &values, &mut relocations);
    let jal = relocation_at(&relocations, 0).unwrap();
    let addresses = Addresses { section: 0x1000, ..Addresses::default() };
    let value = value(RiscV, &addresses, &relocations, &values, &jal);
    assert_eq!(value, Ok(Some(-0x1054)));
}

/// `.dword` of a symbol, of a distance and of a label, as GNU as leaves them and GNU ld links them:
/// numbers of 64 bits. ld.lld extends bit 31 of an address.
#[test]
fn numbers_of_64_bits_match_gnu_ld() {
    let entries = [0, 0x102, 0, 8, 0x224, 0, 8, 0x328, 0, 16, 0x302, 0];
    let mut relocations = vec![0; 2 * 4 * entries.len()];
    read_rela32(&bytes_of(&entries), &mut relocations);
    let values = [0, 0x8000_000c, 0x8000_000a, 0x8000_0002]
        .map(|address| Symbol { address, ..Symbol::default() });
    let addresses = Addresses { section: 0x9000_0000, ..Addresses::default() };
    wrap_addends(&addresses, &values, &mut relocations);
    let mut memory = vec![0; memory_len(&relocations)];
    let mut section = Section { address: addresses.section, ..Section::new(vec![0; 24], relocations) };
    let object = Object { values: &values, ..Object::default() };
    relocate_section(&Link::new(RiscV), &object, &mut section, &mut memory).unwrap();
    assert_eq!(section.bytes, bytes_of(&[0x8000_000c, 0, 8, 0, 0x8000_0002, 0]));
}

/// Types of dynamic relocations, of words of 4 and of 8 bytes: GNU ld and ld.lld accept none of
/// 6, 7, 10 and 11 in objects either.
#[test]
fn objects_have_no_dynamic_relocations() {
    for r_type in 6..12 {
        let mut relocations = [0; 24];
        read_rela32(&bytes_of(&[0, 0x100 + r_type, 0]), &mut relocations);
        let relocation = relocation_at(&relocations, 0).unwrap();
        let values = [Symbol::default(); 2];
        let value = value(RiscV, &Addresses::default(), &relocations, &values, &relocation);
        assert_eq!(value, Err(ValueError::UnknownType), "{r_type}");
    }
}

/// A stub as GNU as makes it of `auipc t3`, `lw t3, (t3)` and `jr t3`, and paths as gcc has them.
#[test]
fn outputs_have_words_of_4_bytes() {
    let target = Target::riscv32();
    let mut stub = [0; 12];
    target.write_stub(StubKind::Load, 0x1000, 0x2004, &mut stub).unwrap();
    assert_eq!(stub.to_vec(), bytes_of(&[0x0000_1e17, 0x004e_2e03, 0x000e_0067]));
    for (flags, abi) in [(1, "ilp32"), (3, "ilp32f"), (4, "ilp32d")] {
        let path = format!("/lib/ld-linux-riscv32-{abi}.so.1");
        assert_eq!(target.interpreter(flags), Some(path.as_str()));
    }
    assert_eq!((target.page, target.unit(1)), (0x1000, 2));
}

/// Calls of functions 0x24 and 0xbde bytes on, as GNU as leaves them, and as GNU ld links them for
/// RV32: c.jal, c.j, a jal without its value, jal, c.jal; and for RV64.
#[test]
fn calls_are_those_of_gnu_ld() {
    let mut bytes = bytes_of(&[
        0x0000_0097, 0x0000_80e7, 0x0000_0317, 0x0003_0067, 0x0140_00ef, 0x0000_0097, 0x0000_80e7,
        0x0000_0097, 0x0000_80e7, 0x8082,
    ]);
    bytes.resize(0xbe0, 0);
    let call = |offset, target| {
        let mark = Relocation { offset, r_type: 51, has_symbol: false, addend: 0, target: None, may_compress: true };
        [Relocation { r_type: 19, has_symbol: true, target: Some(target), ..mark }, mark]
    };
    let relocations = [call(0, 0x24), call(8, 0x24), call(0x14, 0xbde), call(0x1c, 0x24)].concat();
    let section = Section::new(bytes, vec![]);
    for (isa, text) in [
        (Isa::Rv32, [0x2039, 0xa031, 0x00ef, 0x0140, 0x00ef, 0x3c10, 0x2009, 0x8082]),
        (Isa::Rv64, [0x00ef, 0x0120, 0xa039, 0x00ef, 0x0140, 0x00ef, 0x3c30, 0x00ef]),
    ] {
        let machine = Machine::RiscV(isa);
        let items = section_items(machine, &section, &relocations).unwrap().items;
        let plan = relax(&items, 0x10000).unwrap();
        let run = Run { start: 0x10000, items: &items, deltas: plan.deletions.deltas() };
        let mut packed = vec![0; packed_run_len(0, section.bytes.len(), run.deltas)];
        run.pack(machine, Section::new(&section.bytes, vec![]), &mut packed).unwrap();
        let halves = packed.chunks(2).map(|half| u16::from_le_bytes([half[0], half[1]]));
        assert_eq!(halves.take(8).collect::<Vec<_>>(), text);
    }
}

/// The thread pointer's offsets, entries of the GOT, and what has no value or isn't tested.
#[test]
fn other_relocations_stay() {
    // R_RISCV_TPREL_HI20, _GOT_HI20, _RELAX, _SET32, and a type without a row
    let entries = [0, 0x11d, 4, 4, 0x114, 8, 8, 0x033, 0, 12, 0x138, 12, 16, 0x1ff, 16];
    let mut relocations = [0; 5 * 24];
    read_rela32(&bytes_of(&entries), &mut relocations);
    let before = relocations;
    let symbol = Symbol { address: 0x8000_0010, address_entry: 0x4000, ..Symbol::default() };
    let addresses = Addresses {
        section: 0x1000,
        thread_origin: 0x8000_0000,
        has_tls: true,
        ..Addresses::default()
    };
    wrap_addends(&addresses, &[Symbol::default(), symbol], &mut relocations);
    assert_eq!(relocations, before);
}
