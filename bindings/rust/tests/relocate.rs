// SPDX-License-Identifier: MIT OR Apache-2.0
//! Relocations from a linker's numbers to bytes. The words and their addresses are ld.lld's; the ranges are
//! those of the psABIs.

use sathunne::*;

const AARCH64: Architecture = Architecture::AArch64;
const RISCV: Architecture = Architecture::RiscV;
const LOONGARCH: Architecture = Architecture::LoongArch64;
const PPC64: Architecture = Architecture::Ppc64;
const X86_64: Architecture = Architecture::X86_64;

fn bytes_of(text: &str) -> Vec<u8> {
    let digits = |at| u8::from_str_radix(&text[at..at + 2], 16).expect("hexadecimal");
    (0..text.len()).step_by(2).map(digits).collect()
}

/// Relocates the instructions at `pc` that refer to `target`: each by its offset in them and its type.
fn linked(
    architecture: Architecture,
    types: &[(u64, u32)],
    before: &str,
    pc: u64,
    target: u64,
) -> Vec<u8> {
    let mut section = bytes_of(before);
    let mut applied = section.clone();
    let mut relocation = |&(offset, r_type): &(u64, u32)| {
        // a RISC-V low part has the place of its high part
        let at = if r_type == 24 { 0 } else { offset };
        let operands = Operands {
            symbol: target,
            plt_entry: target,
            place: pc + at,
            ..Operands::default()
        };
        let value = value(architecture, r_type, &operands).expect("it has a value");
        let row = find(architecture, r_type).expect("it has a row");
        assert_eq!(row.value(&operands), Ok(value));
        assert_eq!(row.apply(&operands, &mut applied[offset as usize..]), Ok(()));
        Relocation {
            offset,
            value,
            r_type,
        }
    };
    let relocations: Vec<_> = types.iter().map(&mut relocation).collect();
    assert_eq!(
        relocate_all(architecture, &mut section, &relocations),
        Ok(())
    );
    assert_eq!(applied, section);
    section
}

#[test]
fn pairs_are_those_of_linkers() {
    // R_RISCV_CALL_PLT; R_RISCV_PCREL_HI20 and R_RISCV_PCREL_LO12_I; R_AARCH64_ADR_PREL_PG_HI21 and
    // R_AARCH64_ADD_ABS_LO12_NC; R_LARCH_PCALA_HI20 and R_LARCH_PCALA_LO12; R_LARCH_CALL36;
    // R_PPC64_TOC16_HA and R_PPC64_TOC16_LO with the TOC at 0
    let call: &[(u64, u32)] = &[(0, 19)];
    let pcrel: &[(u64, u32)] = &[(0, 23), (4, 24)];
    let adrp: &[(u64, u32)] = &[(0, 275), (4, 277)];
    let pcala: &[(u64, u32)] = &[(0, 71), (4, 72)];
    let call36: &[(u64, u32)] = &[(0, 110)];
    let toc: &[(u64, u32)] = &[(0, 50), (4, 48)];
    #[rustfmt::skip]
    let rows = [
        (RISCV, call, "97000000e7800000", 0x585a20ffc, 0x605a207f9, "97f0ff7fe780d07f"),
        (RISCV, call, "97000000e7800000", 0xe42d62800, 0xe42d627f6, "97000000e78060ff"),
        (RISCV, pcrel, "1705000013050500", 0x585a20ffc, 0x605a207f9, "17f5ff7f1305d57f"),
        (RISCV, pcrel, "1705000013050500", 0x4a80774000, 0x4a80774800, "1715000013050580"),
        (AARCH64, adrp, "0300009063000091", 0x439bac004, 0x539baa003, "e3ff7fd0630c0091"),
        (AARCH64, adrp, "0300009063000091", 0x64a9aaa5f8, 0x64a9ab25f9, "4300009063e41791"),
        (LOONGARCH, pcala, "0400001a8400c002", 0x85ec60ffc, 0x85ec60ffc, "2400001a84f0ff02"),
        (LOONGARCH, pcala, "0400001a8400c002", 0x682b682000, 0x682b67a001, "04ffff1b8404c002"),
        (LOONGARCH, call36, "0100001e2100004c", 0x9a1e5ec7fc, 0xba1e5cc7f4, "e1ffff1e21f8ff4d"),
        (LOONGARCH, call36, "0100001e2100004c", 0xae4020cffc, 0xae4020cfe8, "0100001e21ecff4f"),
        (PPC64, toc, "0000603c00006338", 0, 0x7fff7ffe, "ff7f603cfe7f6338"),
        (PPC64, toc, "0000603c00006338", 0, 0x8001, "0100603c01806338"),
    ];
    for (architecture, types, before, pc, target, after) in rows {
        let section = linked(architecture, types, before, pc, target);
        assert_eq!(section, bytes_of(after), "{types:?} to {target:#x}");
        // what stood in the immediates before doesn't matter
        assert_eq!(
            linked(architecture, types, after, pc, target),
            bytes_of(after)
        );
    }
}

#[test]
fn values_end_where_their_reach_does() {
    let pair = -(1 << 31) - 0x800..(1 << 31) - 0x800;
    let call36 = -(1 << 37) - 0x20000..(1 << 37) - 0x20000;
    let signed = |bits: u32| -(1 << (bits - 1))..1i64 << (bits - 1);
    let mut rows = vec![
        (LOONGARCH, 110, 4, call36),
        (AARCH64, 275, 1, signed(33)),
        (AARCH64, 283, 4, signed(28)),
        (AARCH64, 258, 1, -(1 << 31)..1 << 32),
        (AARCH64, 287, 1, signed(17)),
        (AARCH64, 289, 1, signed(33)),
        (AARCH64, 291, 1, signed(49)),
        (AARCH64, 300, 1, signed(17)),
        (AARCH64, 302, 1, signed(33)),
        (AARCH64, 304, 1, signed(49)),
        (PPC64, 50, 1, signed(32)),
        (PPC64, 72, 1, signed(32)),
        (PPC64, 71, 1, signed(32)),
        (PPC64, 10, 4, signed(26)),
        (RISCV, 17, 2, -(1 << 20)..(1 << 20) - 1),
        (RISCV, 1, 1, -(1 << 31)..1 << 32),
        (LOONGARCH, 66, 4, signed(28)),
        (X86_64, 2, 1, signed(32)),
        (X86_64, 10, 1, 0..1 << 32),
    ];
    // HI20, LO12_I, LO12_S; PCREL_HI20, PCREL_LO12_I, PCREL_LO12_S; GOT_HI20, TLS_GOT_HI20, TLS_GD_HI20;
    // TPREL_HI20, TPREL_LO12_I, TPREL_LO12_S; CALL, CALL_PLT
    for r_type in [26, 27, 28, 23, 24, 25, 20, 21, 22, 29, 30, 31, 18, 19] {
        rows.push((RISCV, r_type, 1, pair.clone()));
    }
    for (architecture, r_type, step, range) in rows {
        let name = relocation_name(architecture, r_type).expect("it has a name");
        assert_eq!(
            reach(architecture, r_type),
            Ok(Some(range.clone())),
            "{name}"
        );
        let last = (range.end - 1).div_euclid(step) * step;
        for (value, expected) in [
            (range.start, Ok(())),
            (last, Ok(())),
            (range.start - step, Err(Status::OutOfReach)),
            (last + step, Err(Status::OutOfReach)),
        ] {
            let mut bytes = [0; 8];
            let result = relocate(architecture, r_type, value, &mut bytes);
            assert_eq!(result, expected, "{name} {value:#x}");
            if result.is_err() {
                assert_eq!(bytes, [0; 8], "{name} {value:#x}");
            }
        }
    }
    // parts of a value: R_AARCH64_MOVW_PREL_G3, R_PPC64_TOC16_LO, R_LARCH_PCALA_HI20
    for (architecture, r_type) in [(AARCH64, 306), (PPC64, 48), (LOONGARCH, 71)] {
        assert_eq!(reach(architecture, r_type), Ok(None));
        assert_eq!(
            relocate(architecture, r_type, i64::MIN, &mut [0; 4]),
            Ok(())
        );
    }
}

#[test]
fn bytes_are_set_added_to_and_subtracted_from() {
    // R_RISCV_ADD32, SUB32, ADD8, SUB16, SUB6, SET6, SET8; R_LARCH_ADD6; R_X86_64_PC32
    for (architecture, r_type, value, before, after) in [
        (RISCV, 35, 5, "feffffff77", "0300000077"),
        (RISCV, 39, 5, "0300000077", "feffffff77"),
        (RISCV, 33, 0x1ff, "0277", "0177"),
        (RISCV, 38, 1, "0000", "ffff"),
        (RISCV, 52, 3, "c2", "ff"),
        (RISCV, 53, 0x7f, "80", "bf"),
        (RISCV, 54, -2, "80", "fe"),
        (LOONGARCH, 105, 0x3f, "c2", "c1"),
        (X86_64, 2, -5, "0000000011", "fbffffff11"),
    ] {
        let mut bytes = bytes_of(before);
        assert_eq!(relocate(architecture, r_type, value, &mut bytes), Ok(()));
        assert_eq!(bytes, bytes_of(after), "{r_type} {value}");
    }
}

#[test]
fn rejected_relocations_change_nothing() {
    // R_RISCV_SET_ULEB128, SUB_ULEB128; R_LARCH_ADD_ULEB128; R_RISCV_JAL; an unknown type
    for (architecture, r_type, value, len, status) in [
        (RISCV, 60, 1, 8, Status::Unsupported),
        (RISCV, 61, 1, 8, Status::Unsupported),
        (LOONGARCH, 107, 1, 8, Status::Unsupported),
        (RISCV, 17, 3, 3, Status::TooShort),
        (RISCV, 17, 1 << 21 | 1, 4, Status::Misaligned),
        (RISCV, 17, 1 << 21, 4, Status::OutOfReach),
        (RISCV, 9999, 0, 8, Status::UnknownRelocation),
    ] {
        let mut bytes = [0x6f, 0, 0, 0, 0x13, 0, 0, 0];
        let result = relocate(architecture, r_type, value, &mut bytes[..len]);
        assert_eq!(result, Err(status), "{r_type}");
        assert_eq!(bytes, [0x6f, 0, 0, 0, 0x13, 0, 0, 0], "{r_type}");
    }
    let none = value(RISCV, 51, &Operands::default());
    assert_eq!(none, Err(Status::NoValue));
}

#[test]
fn a_section_is_relocated_up_to_what_is_rejected() {
    let entry = |offset, r_type, value| Relocation {
        offset,
        value,
        r_type,
    };
    let mut section = bytes_of("6f0000006f000000");
    let failed = |status, index| {
        Err(ArrayError {
            status,
            index: Some(index),
        })
    };
    let jumps = [entry(0, 17, 8), entry(4, 17, 3), entry(4, 17, 4)];
    assert_eq!(
        relocate_all(RISCV, &mut section, &jumps),
        failed(Status::Misaligned, 1)
    );
    assert_eq!(section, bytes_of("6f0080006f000000"));
    let past = [entry(9, 51, 0)];
    assert_eq!(
        relocate_all(RISCV, &mut section, &past),
        failed(Status::TooShort, 0)
    );
    assert_eq!(relocate_all(RISCV, &mut section, &[]), Ok(()));
}

#[test]
fn rows_are_those_of_types() {
    // the numbers of R_AARCH64_CALL26 in ELF for the Arm 64-bit Architecture
    let call26 = find(AARCH64, 283).expect("it has a row");
    let fields = call26.fields().expect("they are known");
    assert_eq!((fields.machine, fields.r_type), (183, 283));
    assert_eq!(fields.name, "R_AARCH64_CALL26");
    assert_eq!(fields.kind, RelocationKind::PltRelative);
    assert_eq!(fields.reach, Some(-0x8000000..0x8000000));
    assert_eq!((fields.alignment, fields.window), (4, 4));
    assert!(fields.needs.is_branch && fields.needs.may_use_stub && fields.may_use_plt);
    assert!(fields.is_relative && !fields.needs.is_word && fields.needs.entry.is_none());
    assert_eq!(call26.reach(), Ok(fields.reach));

    // the GOT has an entry of S + A on AArch64, and of S on x86-64
    for (architecture, r_type, addend) in [(AARCH64, 311, 1), (X86_64, 9, 0)] {
        let load = find(architecture, r_type).expect("it has a row");
        let class = EntryClass::Address;
        let entry = Some(Entry { class, addend });
        assert_eq!(load.fields().expect("they are known").needs.entry, entry);
        assert_eq!(load.needs(1, false).expect("it has needs").entry, entry);
    }

    for (architecture, r_type) in [(AARCH64, 5000), (X86_64, 5), (RISCV, 0x10002)] {
        assert_eq!(find(architecture, r_type), None);
    }
}

#[test]
fn a_number_that_is_no_handle_is_an_error() {
    let mut value = 7;
    // R_RISCV_COPY, after the last architecture, and above all types
    for handle in [0, 1, 0x10004, 0x60000, u32::MAX] {
        let status = unsafe { raw::linker_utils_row_value(handle, &Operands::default(), &mut value) };
        assert_eq!(Status::from_number(status), Some(Status::UnknownRelocation));
        let mut reach = raw::Reach::default();
        let status = unsafe { raw::linker_utils_row_reach(handle, &mut reach) };
        assert_eq!(Status::from_number(status), Some(Status::UnknownRelocation));
    }
    assert_eq!(value, 7);
}

#[test]
fn rows_choose_as_types_do() {
    // call *x@GOTPCREL(%rip), with R_X86_64_GOTPCRELX, becomes call x
    let call = [0xff, 0x15, 0, 0, 0, 0];
    let facts = LinkFacts {
        is_local: true,
        is_pcrel_link_time_constant: true,
        operands: Operands {
            addend: -4,
            ..Operands::default()
        },
        ..LinkFacts::default()
    };
    let row = find(X86_64, 41).expect("it has a row");
    let chosen = row.choose(&call, 2, &facts).expect("it has a choice");
    assert_eq!(chosen.relocation, 2);
    assert_eq!(Ok(chosen), choose(X86_64, 41, &call, 2, &facts));
    assert!(row.fits(&call, 2, &facts));
}
