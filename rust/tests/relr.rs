// SPDX-License-Identifier: MIT OR Apache-2.0
//! Words of packed relative relocations as LLD 14 and 19 write them (`--pack-dyn-relocs=relr`), and
//! the addresses that llvm-readelf 19 (`-r`) decodes of them.

use linker_utils::output::{RelrError, read_relr, write_relr};

/// The last bits of bitmaps, and the first.
const NEAR: (&[u64], &[u64]) = (
    &[
        0x2260, 0x2268, 0x2650, 0x2848, 0x2850,
    ],
    &[
        0x2260, 0x3, 0x8000_0000_0000_0001, 0x8000_0000_0000_0001, 0x3,
    ],
);
/// An address 127 words above the one before a bitmap.
const PAST: (&[u64], &[u64]) = (
    &[
        0x2250, 0x2258, 0x2648,
    ],
    &[
        0x2250, 0x3, 0x2648,
    ],
);
/// Addresses 64 words apart, and bitmaps.
const SPARSE: (&[u64], &[u64]) = (
    &[
        0x2270, 0x2470, 0x2670, 0x3210, 0x41b0, 0x41b8, 0x43a8, 0x43b0, 0x43b8,
    ],
    &[
        0x2270, 0x2470, 0x2670, 0x3210, 0x41b0, 0x8000_0000_0000_0003, 0x7,
    ],
);
/// Bitmaps after addresses that none reaches.
const FAR: (&[u64], &[u64]) = (
    &[
        0x2278, 0x2290, 0x41b8, 0x41d0, 0x60f8, 0x62f0, 0x62f8, 0x64f0, 0x64f8,
    ],
    &[
        0x2278, 0x9, 0x41b8, 0x9, 0x60f8, 0x8000_0000_0000_0001, 0x3, 0x7,
    ],
);
/// 90 of 700 words, chosen at random.
const RANDOM: (&[u64], &[u64]) = (
    &[
        0x22a8, 0x22e0, 0x2348, 0x2368, 0x2380, 0x2388, 0x2390, 0x23b0, 0x23f8, 0x2498, 0x2558,
        0x2598, 0x25c8, 0x25d8, 0x2608, 0x2658, 0x2670, 0x26e0, 0x27d0, 0x2820, 0x2888, 0x28a8,
        0x2948, 0x2980, 0x2998, 0x29b0, 0x29e8, 0x29f8, 0x2a08, 0x2a58, 0x2ac0, 0x2b18, 0x2ba8,
        0x2bd8, 0x2c10, 0x2c48, 0x2c70, 0x2cc0, 0x2d38, 0x2da0, 0x2e50, 0x2e70, 0x2e90, 0x2eb8,
        0x2ec8, 0x2f10, 0x2f28, 0x2f30, 0x2f80, 0x2fd8, 0x2fe8, 0x3018, 0x3070, 0x3098, 0x30a0,
        0x30d8, 0x30f8, 0x3148, 0x3198, 0x31b0, 0x31f0, 0x3230, 0x3240, 0x3270, 0x3290, 0x3298,
        0x32c0, 0x32d0, 0x32d8, 0x3340, 0x3378, 0x33e8, 0x3420, 0x3448, 0x3460, 0x34c8, 0x3518,
        0x3560, 0x3570, 0x3580, 0x3590, 0x3608, 0x3678, 0x36b8, 0x3760, 0x3770, 0x37a8, 0x3808,
        0x3830, 0x3848,
    ],
    &[
        0x22a8, 0x4000_0402_3910_0081, 0x480_20a0_8080_0001, 0x4002_0080_0000_0201,
        0x200_a812_4080_0009, 0x2102_0410_0004_0081, 0x4400_0010_0080_0101, 0x8010_5002_00c8_0509,
        0x501_0120_0802_2061, 0x9081_0004_0800_6863, 0x20_0055_0080_2001, 0x4840_040a_0000_1011,
    ],
);

/// 200 words in a row.
fn dense() -> (Vec<u64>, [u64; 5]) {
    let addresses = (0..200).map(|word| 0x2260 + 8 * word).collect();
    (addresses, [0x2260, u64::MAX, u64::MAX, u64::MAX, 0x7ff])
}

#[test]
fn words_are_those_of_lld() {
    let (row, words) = dense();
    for (addresses, words) in [NEAR, PAST, SPARSE, FAR, RANDOM, (&row, &words)] {
        let mut written = [0xaa; 80];
        assert_eq!(write_relr(addresses, &mut written), Ok(words.len()));
        assert_eq!(&written[..words.len()], words);
        assert!(written[words.len()..].iter().all(|word| *word == 0xaa));
        let mut read = [0xaa; 240];
        assert_eq!(read_relr(words, &mut read), Ok(addresses.len()));
        assert_eq!(&read[..addresses.len()], addresses);
        assert!(read[addresses.len()..].iter().all(|address| *address == 0xaa));
    }
}

/// LLD 19 pads a section that would shrink with bitmaps without a bit.
#[test]
fn bitmaps_may_have_no_bit() {
    let mut read = [0; 4];
    assert_eq!(read_relr(&[0x1000, 1, 1, 3, 1], &mut read), Ok(2));
    assert_eq!(read, [0x1000, 0x1000 + 8 * (1 + 2 * 63), 0, 0]);
    assert_eq!(read_relr(&[], &mut read), Ok(0));
    assert_eq!(write_relr(&[], &mut read), Ok(0));
}

#[test]
fn addresses_reach_the_end_of_the_address_space() {
    let end = 0_u64.wrapping_sub(8);
    let addresses = [end - 63 * 8, end];
    let mut words = [0; 2];
    assert_eq!(write_relr(&addresses, &mut words), Ok(2));
    assert_eq!(words, [end - 63 * 8, 1 << 63 | 1]);
    let mut read = [0; 2];
    assert_eq!(read_relr(&words, &mut read), Ok(2));
    assert_eq!(read, addresses);
    // none of the words after it is below 2^64
    assert_eq!(read_relr(&[end, 1], &mut read), Ok(1));
    assert_eq!(read_relr(&[end, 3], &mut read), Err(RelrError::Wraps));
    assert_eq!(read_relr(&[end - 8, 5], &mut read), Err(RelrError::Wraps));
}

#[test]
fn nothing_is_written_with_an_error() {
    let mut words = [0xaa; 2];
    let rejected = |addresses: &[u64], words: &mut [u64]| write_relr(addresses, words).unwrap_err();
    assert_eq!(rejected(&[8, 20], &mut words), RelrError::Unaligned);
    assert_eq!(rejected(&[16, 8, 4], &mut words), RelrError::NotAscending);
    assert_eq!(rejected(&[16, 16], &mut words), RelrError::NotAscending);
    assert_eq!(rejected(&[8, 16, 0x1000], &mut words), RelrError::TooShort(3));
    assert_eq!(rejected(NEAR.0, &mut []), RelrError::TooShort(NEAR.1.len()));
    let refused = |words: &[u64], read: &mut [u64]| read_relr(words, read).unwrap_err();
    assert_eq!(refused(&[3, 8], &mut words), RelrError::NoAddress);
    assert_eq!(refused(&[8, 12], &mut words), RelrError::Unaligned);
    assert_eq!(refused(&[8, 7], &mut words), RelrError::TooShort(3));
    assert_eq!(words, [0xaa; 2]);
}
