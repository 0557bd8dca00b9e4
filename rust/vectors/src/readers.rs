// SPDX-License-Identifier: MIT OR Apache-2.0
// Made by tools/generate of crates/vectors/src/readers.rt.
//! Bits, words, masks, ULEB128 numbers and texts, and their errors, worked by hand.

use crate::support::*;
use crate::rows::expect_eq;
use linker_utils::bit_misc::BitExtraction;
use linker_utils::utils::{
    and_from_slice, or_from_slice, read_u32, read_uleb128, u32_from_slice, u64_from_slice,
};

const ENDED: &str = "Failed to read ULEB128 value: ended";

const TOO_LARGE: &str = "Failed to read ULEB128 value: too large";

/// Bytes, and the number in them with what follows it, or the error's text.
static NUMBERS: [(&'static [u8], Result<(u64, &'static [u8]), &'static str>); 12] = [
    (b"\xe5\x8e\x26", Ok((624_485, b""))),
    (b"\xe5\x8e\x26\x07", Ok((624_485, b"\x07"))),
    (b"\x80\x00", Ok((0, b""))),
    (b"\x80\x80\x80\x80\x80\x80\x80\x80\x80\x00", Ok((0, b""))),
    (
        b"\x80\x80\x80\x80\x80\x80\x80\x80\x80\x01",
        Ok((1 << 63, b"")),
    ),
    (
        b"\xff\xff\xff\xff\xff\xff\xff\xff\xff\x01\x80",
        Ok((u64::MAX, b"\x80")),
    ),
    (b"", Err(ENDED)),
    (b"\x80", Err(ENDED)),
    (b"\x80\x80\x80\x80\x80\x80\x80\x80\x80", Err(ENDED)),
    (b"\x80\x80\x80\x80\x80\x80\x80\x80\x80\x80", Err(TOO_LARGE)),
    (b"\xff\xff\xff\xff\xff\xff\xff\xff\xff\x02", Err(TOO_LARGE)),
    (b"\xff\xff\xff\xff\xff\xff\xff\xff\xff\xff", Err(TOO_LARGE)),
];

#[test]
fn numbers_are_read_or_left() {
    for (bytes, number) in &NUMBERS {
        let mut content = *bytes;
        match read_uleb128(&mut content) {
            Ok(found) => expect_eq(*bytes, Ok((found, content)), *number),
            Err(error) => {
                let text = InlineText::<120>::of(error);
                expect_eq(
                    *bytes,
                    (Err(text.as_str()), content),
                    (*number, *bytes),
                );
            }
        }
    }
}

/// Bytes, and the word in them with what follows it, or the error's text.
static FIRST_WORDS: [(&'static [u8], Result<(u32, &'static [u8]), &'static str>); 2] = [
    (b"\x01\x02\x03\x04\x05", Ok((0x0403_0201, b"\x05"))),
    (b"\x01\x02\x03", Err("Not enough bytes to read u32")),
];

#[test]
fn words_are_read_or_left() {
    for (bytes, word) in &FIRST_WORDS {
        let mut content = *bytes;
        match read_u32(&mut content) {
            Ok(found) => expect_eq(*bytes, Ok((found, content)), *word),
            Err(error) => {
                let text = InlineText::<120>::of(error);
                expect_eq(*bytes, (Err(text.as_str()), content), (*word, *bytes));
            }
        }
    }
}

/// Bytes, and the text in them with what follows its NUL.
pub static TEXTS: [(&'static [u8], &'static str, &'static [u8]); 4] = [
    (b"a\0b", "a", b"b"),
    (b"a\xff\0b", "a\u{fffd}", b"b"),
    (b"a\xffb\0c", "a\u{fffd}b", b"c"),
    (b"\0", "", b""),
];

/// A number, and the bits from the first position up, below the second.
static BITS: [(u64, u32, u32, u64); 6] = [
    (0b1100_0000, 3, 8, 0b11000),
    (0b1010_1010_0000_1111, 4, 16, 0b1010_1010_0000),
    (u64::MAX, 0, 32, 0xffff_ffff),
    (u64::MAX, 0, 64, u64::MAX),
    (0b100, 2, 3, 1),
    (0b100, 3, 4, 0),
];

/// A number, the position of its sign, and the number with the sign above it.
static SIGNED: [(u64, u32, i64); 7] = [
    (0, 5, 0),
    (31, 5, 31),
    (32, 5, -32),
    (33, 5, -31),
    (63, 5, -1),
    (64, 5, 64),
    (1 << 63, 63, i64::MIN),
];

#[test]
fn bits_and_signs_are_extracted() {
    for (number, start, end, bits) in &BITS {
        if *start < *end && *end <= 64 {
            let found = number.extract_bit_range(*start..*end);
            expect_eq((number, start), found, *bits);
        }
    }
    for (number, sign, extended) in &SIGNED {
        if *sign <= 63 {
            let found = i64::from_le_bytes(number.sign_extend(*sign).to_le_bytes());
            expect_eq(number, found, *extended);
        }
    }
    let found = (
        0b100u64.extract_bit(2),
        0b1110u64.low_bits(3),
        0b1110u64.low_bits_signed(3),
    );
    expect_eq(3, found, (1, 0b110, 0u64.wrapping_sub(2)));
}

#[test]
fn words_are_read_and_masked() {
    let bytes = [1, 2, 3, 4, 5, 6, 7, 0x88, 9];
    let found = (u32_from_slice(&bytes), u64_from_slice(&bytes));
    expect_eq(bytes, found, (0x0403_0201, 0x8807_0605_0403_0201));
    let mut dest = [0x0f, 0x30, 0x55];
    or_from_slice(&mut dest, &[0x81, 0x02]);
    let ored = dest;
    and_from_slice(&mut dest, &[0x7f, 0xf0]);
    expect_eq(
        2,
        (ored, dest),
        ([0x8f, 0x32, 0x55], [0x0f, 0x30, 0x55]),
    );
}
