// SPDX-License-Identifier: MIT OR Apache-2.0
//! ULEB128 numbers that are written over others. The numbers and bytes are those of DWARF 5,
//! "Variable Length Data"; those of three bytes are what ld.lld 19 writes and rejects for
//! `R_RISCV_SET_ULEB128` and `R_RISCV_SUB_ULEB128`.

use sathunne::*;

#[test]
fn numbers_keep_the_length_of_those_before() {
    let ended = [0x80, 0x80];
    let eleven: Vec<u8> = [[0x80; 9].as_slice(), &[2, 0]].concat();
    let ten: Vec<u8> = [[0xff; 9].as_slice(), &[1, 0xaa]].concat();
    let least: Vec<u8> = [[0x80; 9].as_slice(), &[0, 0xaa]].concat();
    let rows: [(&[u8], u64, Result<&[u8], Status>); 16] = [
        (&[0], 2, Ok(&[2])),
        (&[0], 127, Ok(&[0x7f])),
        (&[0], 128, Err(Status::DoesNotFit)),
        (&[0x80, 1], 128, Ok(&[0x80, 1])),
        (&[0x80, 1, 0xaa], 129, Ok(&[0x81, 1, 0xaa])),
        (&[0xff, 0x7f], 12857, Ok(&[0xb9, 0x64])),
        (&[0xff, 0x7f], 1 << 14, Err(Status::DoesNotFit)),
        (&[0x80, 0x80, 0, 0xaa], 0x7f, Ok(&[0xff, 0x80, 0, 0xaa])),
        (&[0x80, 0x80, 0, 0xaa], 5, Ok(&[0x85, 0x80, 0, 0xaa])),
        (
            &[0x80, 0x80, 0, 0xaa],
            0xff000,
            Ok(&[0x80, 0xe0, 0x3f, 0xaa]),
        ),
        (&[0x80, 0x80, 0, 0xaa], 0x200000, Err(Status::DoesNotFit)),
        (&least, u64::MAX, Ok(&ten)),
        (&ten, 0, Ok(&least)),
        (&ended, 1, Err(Status::Uleb128Ended)),
        (&[], 0, Err(Status::Uleb128Ended)),
        (&eleven, 1, Err(Status::Uleb128TooLarge)),
    ];
    for (before, value, expected) in rows {
        let mut bytes = before.to_vec();
        let written = write_uleb128(&mut bytes, value);
        assert_eq!(written, expected.map(|_| ()), "{value} over {before:02x?}");
        assert_eq!(bytes, expected.unwrap_or(before), "{value}");
    }
}

#[test]
fn four_relocations_have_roles() {
    let roles = [
        (Architecture::RiscV, 60, Uleb128Role::Sets),
        (Architecture::RiscV, 61, Uleb128Role::Subtracts),
        (Architecture::LoongArch64, 107, Uleb128Role::Adds),
        (Architecture::LoongArch64, 108, Uleb128Role::Subtracts),
    ];
    for &architecture in Architecture::ALL {
        for r_type in 0..1200 {
            let listed = roles
                .iter()
                .find(|row| (row.0, row.1) == (architecture, r_type));
            assert_eq!(
                uleb128_role(architecture, r_type),
                listed.map(|row| row.2),
                "{architecture:?} {r_type}"
            );
        }
    }
}
