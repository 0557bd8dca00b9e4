// SPDX-License-Identifier: MIT OR Apache-2.0
// Made by tools/generate of crates/vectors/src/deltas.rt.
//! Deletions and offsets, worked by hand: an offset's place is the count of kept bytes below it.

use crate::refused_growth::batches_of;
use crate::rows::{deltas_of, expect, expect_eq};
use linker_utils::relaxation::{
    Looks, SectionRelaxDeltas, input_to_output_counted, opt_input_to_output,
    output_to_input_counted,
};
use core::fmt::Debug;

type Pairs = &'static [(u64, u32)];

/// Offsets, and what they become.
type Offsets = &'static [(u64, u64)];

/// Deletions, input offsets with their output offsets, and output offsets with their input offsets.
static TRANSLATED: [(Pairs, Offsets, Offsets); 7] = [
    (
        &[(4, 4)],
        &[(0, 0), (4, 4), (5, 4), (7, 4), (8, 4)],
        &[(3, 3), (4, 8)],
    ),
    (&[(4, 4), (8, 4)], &[(8, 4), (12, 4)], &[(4, 12)]),
    (&[(4, 0), (6, 2)], &[(6, 6), (8, 6)], &[(4, 4), (6, 8)]),
    (&[(0, 4)], &[(2, 0)], &[(0, 4)]),
    (&[(4, 4), (12, 2)], &[(13, 8)], &[(8, 14)]),
    (
        &[(u64::MAX - 3, 3)],
        &[(u64::MAX - 1, u64::MAX - 3), (u64::MAX, u64::MAX - 3)],
        &[(u64::MAX - 3, u64::MAX)],
    ),
    (
        &[],
        &[(0, 0), (u64::MAX, u64::MAX)],
        &[(0, 0), (u64::MAX, u64::MAX)],
    ),
];

/// Requires that the deltas list the deletions, each with the sum of the bytes up to it.
pub fn expect_listed(deltas: &SectionRelaxDeltas, deletions: &[(u64, u32)]) {
    let listed = deltas.deltas();
    let mut sum = 0u64;
    for (delta, &(offset, bytes)) in listed.iter().zip(deletions) {
        sum = sum.wrapping_add(u64::from(bytes));
        let asked = (deltas.has_delta_at(offset), deltas.delta_bytes_at(offset));
        let found = (delta.bytes_deleted, delta.cumulative_deleted, asked);
        expect_eq((deletions, offset), delta.input_offset, offset);
        expect_eq((deletions, offset), found, (bytes, sum, (true, bytes)));
    }
    let found = (listed.len(), deltas.total_deleted());
    expect_eq(deletions, found, (deletions.len(), sum));
}

/// Requires that input offsets become these output offsets, by at most n looks each.
fn expect_outputs<R: Copy + Debug>(
    row: R,
    deltas: &SectionRelaxDeltas,
    most: u64,
    outputs: &[(u64, u64)],
) {
    for &(from, to) in outputs {
        let mut looks = deltas.counted();
        let found = (
            input_to_output_counted(&mut looks, from),
            looks.count() <= most,
            deltas.input_to_output_offset(from),
            opt_input_to_output(Some(deltas), from),
            opt_input_to_output(None, from),
        );
        expect_eq((row, from), found, (to, true, to, to, from));
    }
}

/// The same of output offsets.
fn expect_inputs<R: Copy + Debug>(
    row: R,
    deltas: &SectionRelaxDeltas,
    most: u64,
    inputs: &[(u64, u64)],
) {
    for &(from, to) in inputs {
        expect((row, from), deltas.output_fits(from));
        let mut looks = deltas.counted();
        let found = (
            output_to_input_counted(&mut looks, from),
            looks.count() <= most,
            deltas.output_to_input_offset(from),
        );
        expect_eq((row, from), found, (to, true, to));
    }
}

#[test]
fn offsets_are_translated_both_ways() {
    for (raw, outputs, inputs) in &TRANSLATED {
        let deltas = deltas_of(raw);
        expect_listed(&deltas, raw);
        // all are in one block, as in the first row of `LONG`
        expect_outputs(raw, &deltas, 9, outputs);
        expect_inputs(raw, &deltas, 9, inputs);
    }
}

/// Deletions, and whether they ascend and lie apart.
static VALID: [(Pairs, bool); 8] = [
    (&[], true),
    (&[(0, 4), (4, 1)], true),
    (&[(u64::MAX, 0)], true),
    (&[(u64::MAX - 1, 1)], true),
    (&[(0, 5), (4, 1)], false),
    (&[(4, 0), (4, 1)], false),
    (&[(5, 1), (4, 1)], false),
    (&[(u64::MAX, 1)], false),
];

/// Deletions, and whether they lie apart from 4 bytes at 4 and from each other.
static MERGEABLE: [(Pairs, bool); 8] = [
    (&[], true),
    (&[(8, 0)], true),
    (&[(8, 4), (0, 4)], true),
    (&[(6, 1)], false),
    (&[(4, 0)], false),
    (&[(0, 5)], false),
    (&[(9, 2), (8, 2)], false),
    (&[(20, 1), (20, 1)], false),
];

/// Deletions, an offset, whether it is inside one of them, and whether there is an input offset
/// that becomes it.
static ASKED: [(Pairs, u64, bool, bool); 5] = [
    (&[(0, 4)], 0, false, true),
    (&[(0, 4)], 1, true, true),
    (&[(0, 4)], 3, true, true),
    (&[(0, 4)], 4, false, true),
    (&[(u64::MAX - 3, 3)], u64::MAX - 2, true, false),
];

#[test]
fn deletions_that_overlap_are_rejected() {
    for (raw, is_valid) in &VALID {
        expect_eq(raw, SectionRelaxDeltas::is_valid(raw), *is_valid);
    }
    let deltas = deltas_of(&[(4, 4)]);
    for (pairs, is_mergeable) in &MERGEABLE {
        expect_eq(pairs, deltas.is_mergeable(pairs), *is_mergeable);
    }
}

#[test]
fn batches_that_overlap_are_rejected() {
    let batches = batches_of(&[(0, 4), (2, 1)]);
    let none = deltas_of(&[]);
    expect(1, !none.are_mergeable(&batches));
}

#[test]
fn offsets_are_inside_or_have_inputs() {
    for (raw, offset, is_inside, fits) in &ASKED {
        let deltas = deltas_of(raw);
        let found = (deltas.is_inside(*offset), deltas.output_fits(*offset));
        expect_eq((raw, offset), found, (*is_inside, *fits));
    }
}

/// Queries of a cursor over 4 bytes at 4 and 2 at 12, and what they become.
static WALKED: [([u64; 5], [u64; 5]); 2] = [
    ([4, 8, 8, 14, 20], [4, 4, 4, 8, 14]),
    ([5, 7, 13, 13, 20], [4, 4, 8, 8, 14]),
];

/// Requires that a cursor passes each deletion once, by one query after the other.
fn expect_walk(
    deltas: &SectionRelaxDeltas,
    queries: &[u64; 5],
    outputs: &[u64; 5],
) {
    let mut cursor = deltas.cursor();
    for at in 0..5 {
        expect(queries, cursor.can_translate(queries[at]));
        let found = cursor.translate(queries[at]);
        expect_eq((queries, at), found, outputs[at]);
    }
    // back again: what is passed stays passed
    let turns = cursor.turns();
    expect(queries, cursor.can_translate(12));
    let found = (
        turns,
        cursor.translate(12),
        cursor.can_translate(5),
        cursor.can_translate(6),
    );
    expect_eq(queries, found, (2, 6, false, true));
}

#[test]
fn cursors_pass_each_deletion_once() {
    let deltas = deltas_of(&[(4, 4), (12, 2)]);
    for (queries, outputs) in &WALKED {
        expect_walk(&deltas, queries, outputs);
        let (mut cursor, mut found) = (deltas.cursor(), [0; 5]);
        expect(queries, cursor.can_translate_all(queries));
        cursor.translate_all(queries, &mut found);
        expect_eq(queries, (found, cursor.turns()), (*outputs, 2));
    }
}

/// How many deletions of 4 bytes, one each 8 bytes; how many looks a translation takes at most,
/// which is one for each binary digit of the number of blocks of 64, and 8; input offsets with
/// their output offsets, and output offsets with their input offsets.
static LONG: [(usize, u64, Offsets, Offsets); 2] = [
    (64, 9, &[(512, 256), (508, 252)], &[(255, 511), (256, 512)]),
    (65, 10, &[(512, 256), (520, 260)], &[(255, 511), (256, 516)]),
];

#[test]
fn long_lists_are_searched_by_blocks() {
    let mut raw = [(0, 4); 65];
    for at in 0..65 {
        raw[at] = (8 * at as u64, 4);
    }
    for &(count, most, outputs, inputs) in &LONG {
        expect(count, count <= 65);
        let deltas = deltas_of(&raw[..count]);
        expect_eq(count, deltas.total_deleted(), 4 * count as u64);
        expect_outputs(count, &deltas, most, outputs);
        expect_inputs(count, &deltas, most, inputs);
    }
}
