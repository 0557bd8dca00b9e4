// SPDX-License-Identifier: MIT OR Apache-2.0
//! Compact relocations as clang 19 (`-O1 -fPIC -Wa,--crel,--allow-experimental-crel`) and llvm-mc 19
//! (`-crel`) write them, those without addends by yaml2obj 19 of their bytes, and what llvm-readobj 19
//! (`-r --expand-relocs`) reads of them: offset, type, symbol and addend.

use linker_utils::section::{Crel, CrelError, RELA_LEN, Rela, read_crel, relocation_at};

type Vector = (&'static [u8], &'static [(u64, u32, u32, i64)]);

/// Far offsets and addends: `.quad` and `.long` with zeros between.
const FAR: Vector = (
    &[
        0x3c, 0x07, 0x03, 0x01, 0x7c, 0xc6, 0x04, 0x09, 0x04, 0xe7, 0x3e, 0x01, 0x77, 0xff,
        0xff, 0xff, 0xff, 0xff, 0xff, 0xff, 0xff, 0xff, 0x00, 0xc5, 0xea, 0x30, 0x7f, 0x01,
        0x45, 0x02, 0x80, 0x80, 0x80, 0x80, 0x80, 0x80, 0x80, 0x80, 0x80, 0x7f, 0x4d, 0x7c,
        0x91, 0x95, 0x06, 0x45, 0x03, 0xf0, 0xea, 0x79,
    ],
    &[
        (0, 1, 3, -4), (0x48, 10, 3, 0), (0x434, 1, 4, 0x7fffffffffffffff),
        (0x18adc, 1, 3, i64::MIN), (0x18ae4, 1, 5, 0), (0x18aed, 1, 1, 0x18a91),
        (0x18af5, 1, 4, 1),
    ],
);
/// Offsets that decrease: `.reloc` in any order.
const BACK: Vector = (
    &[
        0x27, 0xa7, 0x3f, 0x01, 0x02, 0x7c, 0xf7, 0xe0, 0xff, 0xff, 0xff, 0xff, 0xff, 0xff,
        0xff, 0x01, 0x01, 0x7f, 0x0c, 0x07, 0x7f, 0x7f, 0x78, 0xf6, 0x0f, 0x04, 0x7c,
    ],
    &[
        (0x1fa0, 2, 1, -4), (0x1010, 1, 2, 8), (0x1010, 0, 1, 0), (0x1800, 4, 1, -4),
    ],
);
/// `.text` of x86-64.
const X86_64: Vector = (
    &[
        0x64, 0x87, 0x01, 0x07, 0x13, 0x7c, 0x43, 0x01, 0x71, 0x63, 0x01, 0x26, 0x7b, 0x01,
        0x5a, 0x61, 0x01, 0x79, 0x7f, 0xe0, 0x02, 0x61, 0x01, 0xfb, 0x02, 0x79, 0x7e, 0x4b,
        0x09, 0x28, 0x6b, 0x78, 0x58, 0x63, 0x08, 0x28,
    ],
    &[
        (0x10, 19, 7, -4), (0x18, 4, 8, -4), (0x24, 42, 9, -4), (0x33, 4, 10, -4),
        (0x3f, 4, 11, -4), (0x4e, 4, 10, -4), (0x7a, 4, 10, -4), (0x86, 4, 11, -4),
        (0xb5, 2, 4, -4), (0xbe, 42, 13, -4), (0xcb, 2, 5, -4), (0xd7, 42, 13, -4),
    ],
);
/// Pointers, at multiples of 8.
const X86_64_DATA: Vector = (
    &[
        0x27, 0x03, 0x0a, 0x01, 0x09, 0x01, 0x09, 0x7b, 0x0d, 0x7c, 0xf0, 0x00,
    ],
    &[
        (0, 1, 10, 0), (8, 1, 11, 0), (0x10, 1, 6, 0), (0x18, 1, 2, 0x70),
    ],
);
/// `.text` of AArch64, at multiples of 4.
const AARCH64: Vector = (
    &[
        0x8e, 0x01, 0x23, 0x0c, 0x9d, 0x04, 0x0b, 0x01, 0xf6, 0x7d, 0x0a, 0x02, 0x0b, 0x7f,
        0x89, 0x02, 0x43, 0x02, 0xfd, 0x7d, 0x19, 0x01, 0x19, 0x7f, 0x58, 0x19, 0x01, 0x57,
        0x78, 0x78, 0x05, 0x0a, 0x02, 0x17, 0x0a, 0x7e, 0x7b, 0x0a, 0x02, 0x1b, 0x76, 0x7e,
        0x0a, 0x02, 0x13, 0x0a, 0x7e, 0x0a, 0x02,
    ],
    &[
        (0x10, 541, 12, 0), (0x14, 275, 13, 0), (0x18, 277, 13, 0), (0x1c, 542, 12, 0),
        (0x3c, 283, 14, 0), (0x48, 283, 15, 0), (0x54, 283, 14, 0), (0x80, 283, 14, 0),
        (0x8c, 283, 15, 0), (0xb4, 275, 7, 5), (0xb8, 277, 7, 5), (0xc0, 275, 17, 0),
        (0xc4, 277, 17, 0), (0xd0, 275, 7, 0), (0xd4, 277, 7, 0), (0xdc, 275, 17, 0),
        (0xe0, 277, 17, 0),
    ],
);
/// Without addends, at multiples of 4. A type is below 0.
const WITHOUT_ADDENDS: Vector = (
    &[0x1a, 0x07, 0x03, 0x01, 0x82, 0xbf, 0x01, 0x7d, 0x78],
    &[(4, 1, 3, 0), (0x5f84, 4294967294, 3, 0), (0x5ffc, 4294967294, 3, 0)],
);

#[test]
fn compact_relocations_are_those_of_llvm() {
    let all = [FAR, BACK, X86_64, X86_64_DATA, AARCH64, WITHOUT_ADDENDS];
    for (row, (section, expected)) in all.into_iter().enumerate() {
        let count = expected.len();
        assert_eq!(read_crel(section, &mut []), Err(CrelError::TooShort(count)), "row {row}");
        let mut bytes = [0xaa; 17 * RELA_LEN + 5];
        let has_addends = row < 5;
        assert_eq!(read_crel(section, &mut bytes), Ok(Crel { count, has_addends }), "row {row}");
        for (k, (offset, r_type, symbol, addend)) in expected.iter().copied().enumerate() {
            let relocation = Rela { offset, r_type, symbol, addend };
            assert_eq!(relocation_at(&bytes, k), Some(relocation), "row {row}, {k}");
        }
        assert!(bytes[count * RELA_LEN..].iter().all(|byte| *byte == 0xaa), "row {row}");
    }
}

#[test]
fn cut_sections_are_rejected_and_longer_ones_are_not() {
    let (section, expected) = FAR;
    let mut bytes = [0xaa; 7 * RELA_LEN];
    for len in 0..section.len() {
        let read = read_crel(&section[..len], &mut bytes);
        assert!(matches!(read, Err(CrelError::CutOff(at)) if at <= len), "{len}");
        assert_eq!(bytes, [0xaa; 7 * RELA_LEN], "{len}");
    }
    let longer = [section, &[0x80]].concat();
    let crel = Crel { count: expected.len(), has_addends: true };
    assert_eq!(read_crel(&longer, &mut bytes), Ok(crel));
}

/// The offsets are those that llvm-readobj 19 names.
#[test]
fn errors_have_the_offset_of_the_number() {
    let section = [0x1a, 0x9f, 0x80, 0x80, 0x80, 1, 3, 1, 0x7c, 3, 0x81];
    let mut bytes = [0; 4 * RELA_LEN];
    assert_eq!(read_crel(&section, &mut bytes), Err(CrelError::CutOff(10)));
    assert_eq!(read_crel(&[0x1a], &mut bytes), Err(CrelError::CutOff(1)));
    assert_eq!(read_crel(&[0x80], &mut bytes), Err(CrelError::CutOff(0)));
    assert_eq!(read_crel(&[0x0f, 0x17, 0x80], &mut bytes), Err(CrelError::CutOff(2)));
    let section = [0x0c, 0xff, 0x80, 0x80, 0x80, 0x80, 0x80, 0x80, 0x80, 0x80, 0x80, 3];
    assert_eq!(read_crel(&section, &mut bytes), Err(CrelError::TooLarge(2)));
    // a header with bit 63, and 2^61 - 1 relocations
    let header = [0xff, 0xff, 0xff, 0xff, 0xff, 0xff, 0xff, 0xff, 0xff, 1];
    assert_eq!(read_crel(&header, &mut bytes), Err(CrelError::CutOff(10)));
}
