// SPDX-License-Identifier: MIT OR Apache-2.0
//! `support` makes the vectors and texts that `alloc`'s own calls make.

use crate::support::*;
use alloc::string::{String, ToString};
use alloc::vec;
use alloc::vec::Vec;

const LENGTHS: [usize; 10] = [0, 1, 2, 3, 63, 64, 65, 4095, 4096, 4097];

fn numbers(len: usize) -> Vec<u32> {
    (0..len as u32).map(|i| i.wrapping_mul(0x9e37_79b9)).collect()
}

#[test]
fn vectors_are_made_and_copied() {
    for len in LENGTHS {
        assert_eq!(try_vec![7u8; len], Ok(vec![7u8; len]));
        assert_eq!(try_vec![true; len], Ok(vec![true; len]));
        assert_eq!(numbers(len).fallible_to_vec(), Ok(numbers(len)));
        let made = Vec::<u32>::fallible_with_capacity(len).expect("memory");
        assert_eq!((made.len(), made.capacity()), (0, Vec::<u32>::with_capacity(len).capacity()));
    }
    assert_eq!(try_vec![1u8, 2, 3], Ok(vec![1u8, 2, 3]));
    assert_eq!(try_vec!["a".to_string()], Ok(vec!["a".to_string()]));
    assert!(try_vec![0u8; usize::MAX].is_err());
    assert!(Vec::<u8>::fallible_with_capacity(usize::MAX).is_err());
}

#[test]
fn vectors_grow() {
    for len in LENGTHS {
        for more in LENGTHS {
            let (mut made, mut wanted) = (numbers(len), numbers(len));
            assert_eq!(made.fallible_extend_from_slice(&numbers(more)), Ok(()));
            wanted.extend_from_slice(&numbers(more));
            assert_eq!(made, wanted, "{len} and {more}");
        }
        for at in LENGTHS.into_iter().filter(|at| *at <= len) {
            let (mut made, mut wanted) = (numbers(len), numbers(len));
            made.fallible_insert(at, 5).expect("memory");
            wanted.insert(at, 5);
            assert_eq!(made, wanted, "{len} at {at}");
        }
        let (mut pushed, mut filled) = (vec![], Vec::with_capacity(len));
        for number in numbers(len) {
            pushed.fallible_push(number).expect("memory");
            filled.push_reserved(number);
        }
        assert_eq!((pushed, filled), (numbers(len), numbers(len)));
    }
}

#[test]
#[should_panic = "no room"]
fn vectors_are_not_filled_past_their_room() {
    Vec::new().push_reserved(1);
}

fn lossy(bytes: &[u8]) -> String {
    bytes.fallible_to_str_lossy().and_then(LossyText::fallible_into_owned).expect("memory")
}

#[test]
fn invalid_bytes_become_replacement_characters() {
    // the first and last byte of each row of the table of well-formed sequences, and those beside
    let bytes = [
        0x00, 0x20, 0x7f, 0x80, 0x8f, 0x90, 0x9f, 0xa0, 0xbf, 0xc0, 0xc1, 0xc2, 0xdf, 0xe0, 0xe1,
        0xec, 0xed, 0xee, 0xef, 0xf0, 0xf1, 0xf3, 0xf4, 0xf5, 0xff,
    ];
    let mut sequences = vec![vec![]];
    for len in 0..4 {
        // a fourth byte only after the lead of four bytes
        let lead = if len < 3 { 0 } else { 0xf0 };
        for at in 0..sequences.len() {
            let sequence: Vec<u8> = sequences[at].clone();
            if sequence.len() == len && sequence.first().is_none_or(|first| *first >= lead) {
                sequences.extend(bytes.map(|byte| [sequence.as_slice(), &[byte]].concat()));
            }
        }
    }
    assert_eq!(sequences.len(), 1 + 25 + 25 * 25 + 25 * 25 * 25 + 6 * 25 * 25 * 25);
    for sequence in sequences {
        assert_eq!(lossy(&sequence), String::from_utf8_lossy(&sequence), "{sequence:02x?}");
    }
    // the Unicode Standard, "U+FFFD Substitution of Maximal Subparts": its three tables
    for (bytes, text) in [
        (&b"\xc0\xaf\xe0\x80\xbf\xf0\x81\x82\x41"[..], "\u{fffd}".repeat(8) + "A"),
        (b"\xed\xa0\x80\xed\xbf\xbf\xed\xaf\x41", "\u{fffd}".repeat(8) + "A"),
        (b"\xe1\x80\xe2\xf0\x91\x92\xf1\xbf\x41", "\u{fffd}".repeat(4) + "A"),
    ] {
        assert_eq!(lossy(bytes), text);
    }
}

#[test]
fn texts_are_whole() {
    for len in LENGTHS {
        for (edge, replaced) in [
            (&b" \n\t"[..], " \n\t"),
            (b"\0", "\0"),
            ("\u{a0}\u{2003}é".as_bytes(), "\u{a0}\u{2003}é"),
            (b" \xf0\x9f\x92", " \u{fffd}"),
            (b"\xff\xff ", "\u{fffd}\u{fffd} "),
        ] {
            let bytes = [edge, &b"x".repeat(len), edge].concat();
            let text = [replaced, &"x".repeat(len), replaced].concat();
            assert_eq!(lossy(&bytes), text);
            assert_eq!(InlineText::<8>::of(&text).as_str(), text);
        }
        assert_eq!(lossy(&b"\xff".repeat(len)), "\u{fffd}".repeat(len));
    }
}
