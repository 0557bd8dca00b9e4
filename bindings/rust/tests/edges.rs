// SPDX-License-Identifier: MIT OR Apache-2.0
//! Relocations at the edges of what can be written, as GNU ld 2.40 and ld.lld 19.1.7 write or reject
//! them.

use sathunne::*;

/// The bytes after a write, or why there is none.
fn written(
    architecture: Architecture,
    r_type: u32,
    value: i64,
    before: &[u8],
) -> Result<Vec<u8>, Status> {
    let mut bytes = before.to_vec();
    let outcome = relocate(architecture, r_type, value, &mut bytes);
    assert!(
        outcome.is_ok() || bytes == before,
        "a rejected write has written"
    );
    outcome.map(|()| bytes)
}

fn word(architecture: Architecture, r_type: u32, value: i64, before: u32) -> Result<u32, Status> {
    written(architecture, r_type, value, &before.to_le_bytes())
        .map(|bytes| u32::from_le_bytes(bytes.try_into().expect("four bytes")))
}

#[test]
fn moves_keep_the_size_of_their_register() {
    // `R_AARCH64_MOVW_SABS_G0` and `_G1`, and `R_AARCH64_MOVW_PREL_G0`
    for (r_type, value, before, after) in [
        (270, -2, 0x5280_0000, 0x1280_0020),
        (270, 0x1234, 0x1280_0003, 0x5282_4683),
        (271, -0x1234_5678, 0x52a0_0005, 0x12a2_4685),
        (271, 0x7654_abcd, 0x12a0_0006, 0x52ae_ca86),
        (287, -22, 0x5280_0007, 0x1280_02a7),
        (270, -2, 0xd280_0000, 0x9280_0020),
    ] {
        let found = word(Architecture::AArch64, r_type, value, before);
        assert_eq!(found, Ok(after), "{before:x}");
    }
}

#[test]
fn movk_stays_movk() {
    // as ld.lld links them; GNU ld writes the same for values that aren't negative
    for (r_type, value, before, after) in [
        (287, 0x1234, 0xf280_0000, 0xf282_4680),
        (287, 0x122c, 0x7280_0003, 0x7282_4583),
        (287, -0x1004, 0xf280_0000, 0xf29d_ff80),
        (289, -0x1010, 0xf2a2_4681, 0xf2bf_ffe1),
        (291, 0x1220, 0xf2c0_0002, 0xf2c0_0002),
        (270, -5, 0xf280_0004, 0xf29f_ff64),
        (271, 0x1234_5678, 0xf2a0_0005, 0xf2a2_4685),
    ] {
        let found = word(Architecture::AArch64, r_type, value, before);
        assert_eq!(found, Ok(after), "{before:x}");
    }
}

#[test]
fn jumps_take_the_low_part_in_words() {
    // `R_LARCH_PCALA_LO12` at `jirl`
    for (value, before, after) in [
        (0x300134, 0x4c00_0181, 0x4c01_3581),
        (0x300234, 0x4c00_0181, 0x4c02_3581),
        (0x3007fc, 0x4c00_0181, 0x4c07_fd81),
        (0x300800, 0x4c00_0180, 0x4ff8_0180),
        (0x300ffc, 0x4c00_0180, 0x4fff_fd80),
    ] {
        let found = word(Architecture::LoongArch64, 72, value, before);
        assert_eq!(found, Ok(after), "{value:x}");
        let read = read_value(Architecture::LoongArch64, 72, &after.to_le_bytes());
        let low = read.expect("a value");
        let bits = (low.first_bit, low.end_bit, low.bits);
        assert_eq!(bits, (0, 12, value as u64 % 4096), "{value:x}");
    }
    assert_eq!(
        word(Architecture::LoongArch64, 72, 0x300136, 0x4c00_0181),
        Err(Status::Misaligned)
    );
    assert_eq!(
        word(Architecture::LoongArch64, 72, 0x300136, 0x02c0_0084),
        Ok(0x02c4_d884)
    );
}

#[test]
fn c_lui_has_no_immediate_0() {
    // `R_RISCV_RVC_LUI`, whose words are the assemblers'
    for (value, after) in [
        (0x800, Ok(vec![0x05, 0x65])),
        (-0x801, Ok(vec![0x7d, 0x75])),
        (0x1f7ff, Ok(vec![0x7d, 0x65])),
        (-0x20800, Ok(vec![0x01, 0x75])),
        (0x7ff, Err(Status::OutOfReach)),
        (0, Err(Status::OutOfReach)),
        (-0x800, Err(Status::OutOfReach)),
    ] {
        let found = written(Architecture::RiscV, 46, value, &[0x01, 0x65]);
        assert_eq!(found, after, "{value}");
    }
}

#[test]
fn displacements_of_dq_form_are_in_units_of_16() {
    // `R_PPC64_TOC16_LO_DS`: `lxv` and `stxv` of vs35, `lxv` of vs3, `lq`, `lxvp` and `stxvp`
    let dq = [
        (0xf463_0009, 0xf463_f899),
        (0xf463_000d, 0xf463_f89d),
        (0xf463_0001, 0xf463_f891),
        (0xe083_0000, 0xe083_f890),
        (0x1863_0000, 0x1863_f890),
        (0x1863_0001, 0x1863_f891),
    ];
    // `stxsd`, `stxssp`, `stq` and `ld`
    let ds = [
        (0xf463_0002, 0xf463_f892),
        (0xf463_0003, 0xf463_f893),
        (0xf883_0002, 0xf883_f892),
        (0xe883_0000, 0xe883_f890),
    ];
    let at = |value, before| word(Architecture::Ppc64, 64, value, before);
    for (before, after) in dq.iter().chain(&ds) {
        assert_eq!(at(-1904, *before), Ok(*after), "{before:x}");
    }
    // both linkers reject multiples of 8 and of 4 in DQ-form, and accept them in DS-form
    for value in [-1896, -1900] {
        for (before, _) in dq {
            assert_eq!(at(value, before), Err(Status::Misaligned), "{before:x}");
        }
        for (before, _) in ds {
            assert!(at(value, before).is_ok(), "{before:x}");
        }
    }
}

#[test]
fn got_entries_of_ppc64_take_no_second_addend() {
    // `pld 3, y@got@pcrel+8`, whose entry has y + 8
    let operands = Operands {
        got_entry: 0x1ff20,
        addend: 8,
        place: 0x2c0,
        has_got_entry: true,
        ..Operands::default()
    };
    assert_eq!(value(Architecture::Ppc64, 133, &operands), Ok(130144));
    let pair = written(
        Architecture::Ppc64,
        133,
        130144,
        &0xe460_0000_0410_0000u64.to_le_bytes(),
    );
    assert_eq!(pair, Ok(0xe460_fc60_0410_0001u64.to_le_bytes().to_vec()));
    // `ld 5, x@got@tprel+8(2)`
    let operands = Operands {
        got_entry: 0x1ff18,
        addend: 8,
        got_base: 0x27f00,
        has_got_entry: true,
        ..Operands::default()
    };
    assert_eq!(value(Architecture::Ppc64, 87, &operands), Ok(-32744));
    assert_eq!(
        word(Architecture::Ppc64, 87, -32744, 0xe8a2_0000),
        Ok(0xe8a2_8018)
    );
}

#[test]
fn operands_that_there_are_not_are_errors() {
    let call = Operands::new(0x401020, -4, 0x401131);
    // `R_X86_64_PLT32` of a function without an entry of the PLT, as ld.lld and GNU ld link it, and
    // of one with an entry at address 0
    assert_eq!(value(Architecture::X86_64, 4, &call), Ok(-0x115));
    let by_entry = Operands { has_plt_entry: true, ..call };
    assert_eq!(value(Architecture::X86_64, 4, &by_entry), Ok(-0x401135));
    // a load from the GOT and one of TLS, of each architecture: an entry, or an origin
    for (architecture, entry, offset) in [
        (Architecture::X86_64, 9, 23),
        (Architecture::AArch64, 311, 549),
        (Architecture::RiscV, 20, 29),
        (Architecture::LoongArch64, 75, 83),
        (Architecture::Ppc64, 15, 70),
    ] {
        assert_eq!(value(architecture, entry, &call), Err(Status::NoEntry));
        assert_eq!(value(architecture, offset, &call), Err(Status::NoTlsBase));
        let all = Operands { has_got_entry: true, has_tls_base: true, ..call };
        assert!(value(architecture, entry, &all).is_ok() && value(architecture, offset, &all).is_ok());
    }
    // R_RISCV_TLSDESC_LOAD_LO12 has the entry of its high part; R_PPC64_PLT16_HA a word of the PLT
    assert_eq!(value(Architecture::RiscV, 63, &call), Err(Status::NoEntry));
    assert_eq!(value(Architecture::Ppc64, 31, &call), Err(Status::NoEntry));
    assert!(value(Architecture::Ppc64, 31, &by_entry).is_ok());
}

#[test]
fn got_offsets_of_x86_64_are_signed() {
    // `R_X86_64_GOT32`
    for (offset, after) in [
        (-8, Ok(0xffff_fff8)),
        (-0x8000_0000, Ok(0x8000_0000)),
        (0x7fff_fff8, Ok(0x7fff_fff8)),
        (-0x8000_0008, Err(Status::OutOfReach)),
        (0x8000_0000, Err(Status::OutOfReach)),
    ] {
        assert_eq!(word(Architecture::X86_64, 3, offset, 0), after, "{offset}");
    }
}

#[test]
fn pairs_that_are_not_known_are_rejected() {
    // `R_LARCH_CALL30`
    for value in [0, 2, 0x100000, 1 << 40] {
        let found = written(Architecture::LoongArch64, 127, value, &[0; 8]);
        assert_eq!(found, Err(Status::Unsupported), "{value}");
    }
}

#[test]
fn the_first_of_a_uleb128_pair_is_not_relative() {
    let operands = Operands {
        symbol: 0x11000,
        addend: 8,
        place: 0x4000,
        ..Operands::default()
    };
    // `R_RISCV_SET_ULEB128` and `R_LARCH_ADD_ULEB128`
    assert_eq!(value(Architecture::RiscV, 60, &operands), Ok(0x11008));
    assert_eq!(
        value(Architecture::LoongArch64, 107, &operands),
        Ok(0x11008)
    );
}
