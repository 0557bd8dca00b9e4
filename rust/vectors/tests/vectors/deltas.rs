// SPDX-License-Identifier: MIT OR Apache-2.0
//! Deletions and offsets, worked by hand: an offset's place is the count of kept bytes below it.

use linker_utils::relaxation::{
    BlockHead, DeltaSlice, Looks, RelaxDelta, SectionRelaxDeltas, first_invalid,
    input_to_output_counted, output_to_input_counted,
};

fn deltas_of(raw: &[(u64, u32)]) -> SectionRelaxDeltas {
    assert!(SectionRelaxDeltas::is_valid(raw), "{raw:?}");
    SectionRelaxDeltas::new(raw).unwrap()
}

fn input(deltas: &SectionRelaxDeltas, output_offset: u64) -> u64 {
    assert!(deltas.output_fits(output_offset), "{output_offset:?}");
    deltas.output_to_input_offset(output_offset)
}

#[test]
fn first_faulty_deletions_are_named() {
    assert_eq!(first_invalid(&[(0, 4), (4, 1)]), None);
    assert_eq!(first_invalid(&[(0, 4), (3, 1), (2, 1)]), Some(1));
    assert_eq!(first_invalid(&[(0, 4), (u64::MAX, 1)]), Some(1));

    let deltas = deltas_of(&[(4, 4), (12, 2)]);
    assert_eq!(first_invalid(deltas.deltas()), None);
    let listed = DeltaSlice::new(deltas.deltas());
    assert_eq!(listed.first_overlapping_sorted(&[(8, 4), (0, 4)]), None);
    assert_eq!(listed.first_overlapping_sorted(&[(8, 4), (13, 1), (0, 5)]), Some(1));
    assert_eq!(listed.first_overlapping_sorted(&[(20, 1), (16, 4), (20, 1)]), Some(2));
    assert!(listed.has_valid_deltas());
    for (second, cumulative_deleted) in [(3, 5), (4, 6), (4, 0)] {
        let faulty = [
            RelaxDelta { input_offset: 0, cumulative_deleted: 4, bytes_deleted: 4 },
            RelaxDelta { input_offset: second, cumulative_deleted, bytes_deleted: 1 },
        ];
        assert!(!DeltaSlice::new(&faulty).has_valid_deltas(), "{faulty:?}");
    }
}

#[test]
fn kept_bytes_have_an_output_offset() {
    let deltas = deltas_of(&[(2, 0), (4, 4), (12, 2)]);
    for (start, len, output) in [
        (0, 4, Some(0)),
        (1, 4, None),
        (5, 1, None),
        (8, 4, Some(4)),
        (8, 5, None),
        (14, 4, Some(8)),
        (5, 0, Some(4)),
    ] {
        assert_eq!(deltas.kept_output_offset(start, len), output, "{len:?}, {start:?}");
    }
}

// The output offset of an input offset, and the looks that it took.
fn output_by_looks(deltas: &SectionRelaxDeltas, input_offset: u64) -> (u64, u64) {
    let mut looks = deltas.counted();
    let output = input_to_output_counted(&mut looks, input_offset);
    (output, looks.count())
}

// The input offset of an output offset, and the looks that it took.
fn input_by_looks(deltas: &SectionRelaxDeltas, output_offset: u64) -> (u64, u64) {
    assert!(deltas.output_fits(output_offset));
    let mut looks = deltas.counted();
    let input = output_to_input_counted(&mut looks, output_offset);
    (input, looks.count())
}

// So many deletions of four bytes, one each eight bytes.
fn half_deleted(count: u32) -> Vec<(u64, u32)> {
    let mut raw = Vec::new();
    for k in 0..count {
        raw.push((8 * u64::from(k), 4));
    }
    raw
}

/// Requires that a kept byte's offsets are translated to each other, by at most so many looks, also
/// with the heads of the blocks, which stand after one that is none, and with more or fewer.
fn expect_translated(
    deltas: &SectionRelaxDeltas,
    behind_none: &[BlockHead],
    most: u64,
    offsets: (u64, u64),
) {
    let (from, to) = offsets;
    assert_eq!(deltas.input_to_output_offset(from), to, "{from:?}");
    assert_eq!(input(deltas, to), from, "{to:?}");
    let (output, looks) = output_by_looks(deltas, from);
    assert_eq!((output, looks <= most), (to, true), "{from:?}");
    let (input, looks) = input_by_looks(deltas, to);
    assert_eq!((input, looks <= most), (from, true), "{to:?}");
    let listed = deltas.as_delta_slice();
    assert!(behind_none.len() >= 2);
    for heads in [&behind_none[1..], behind_none, &behind_none[2..], &[]] {
        assert_eq!(listed.input_to_output_by_heads(heads, from), to, "{from:?}");
        let input = listed.output_to_input_by_heads(heads, to);
        assert_eq!(input, Some(from), "{to:?}");
    }
}

#[test]
fn long_lists_are_searched_by_blocks() {
    // of so many deletions, as many looks as their blocks of 64 have binary digits, and eight
    let lists = [(64, 9), (65, 10), (1024, 13), (1025, 13), (1088, 13), (5000, 15)];
    for (count, most) in lists {
        let raw = half_deleted(count);
        let deltas = deltas_of(&raw);
        let listed = deltas.as_delta_slice();
        let none = BlockHead { input_offset: 0, output_offset: 0 };
        let mut heads = vec![none; listed.block_count()];
        listed.write_heads(&mut heads);
        let mut behind_none = vec![none; 1];
        behind_none.extend_from_slice(&heads);
        assert!(listed.with_heads(&heads).is_some());
        assert!(listed.with_heads(&behind_none).is_none());
        for block in 0..u64::from(count) {
            for kept in [0, 3] {
                let offsets = (8 * block + 4 + kept, 4 * block + kept);
                expect_translated(&deltas, &behind_none, most, offsets);
            }
            assert_eq!(deltas.input_to_output_offset(8 * block + 2), 4 * block, "{block:?}");
        }
        for past in [0, 9] {
            let offsets = (8 * u64::from(count) + past, 4 * u64::from(count) + past);
            expect_translated(&deltas, &behind_none, most, offsets);
        }
    }
}

#[test]
fn queries_that_ascend_are_translated_in_one_pass() {
    let deltas = deltas_of(&[(4, 4), (12, 2)]);
    let queries = [5, 7, 13, 13, 20];
    let mut translated = [0; 5];
    assert!(DeltaSlice::can_translate_all(&queries));
    DeltaSlice::new(deltas.deltas()).translate_all(&queries, &mut translated);
    assert_eq!(translated, [4, 4, 8, 8, 14]);
    assert!(!DeltaSlice::can_translate_all(&[5, 4]));
}
