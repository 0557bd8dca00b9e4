// SPDX-License-Identifier: MIT OR Apache-2.0
// Made by tools/generate of crates/vectors/src/taken_memory.rt.
//! How often calls allocate. Each test allocates as often as its name says:
//! `tools/test_refused_growth` counts.

use crate::refused_growth::batches_of;
use crate::rows::{copy_of, deltas_of, expect, expect_eq};
use linker_utils::relaxation::{
    RelaxDeltaMap, calls_apart, calls_shrinkable, pack_section, shrink_calls,
};

const FEW: [(u64, u32); 2] = [(8, 4), (16, 4)];

// none of no deletions, and else the deltas: so few have no heads of blocks
#[test]
fn lists_and_their_copies_take_2() {
    for raw in [[].as_slice(), &FEW] {
        let copy = copy_of(&deltas_of(raw));
        expect_eq(raw, copy.deltas().len(), raw.len());
    }
}

// the deltas, and a copy of pairs that don't ascend
#[test]
fn merges_take_3() {
    for more in [[].as_slice(), &FEW, &[(16, 4), (8, 4)]] {
        let mut deltas = deltas_of(&[]);
        expect(more, deltas.is_mergeable(more));
        let is_merged = deltas.merge_additional(more).is_ok();
        expect_eq(
            more,
            (is_merged, deltas.deltas().len()),
            (true, more.len()),
        );
    }
}

// the batches themselves, which are three; then none of empty ones, and the deltas and a copy
#[test]
fn batches_take_5() {
    let batches = batches_of(&FEW);
    expect(3, batches.len() == 3);
    for (first, count) in [(&batches[..1], 0), (&batches[..], 2)] {
        let mut deltas = deltas_of(&[]);
        expect(count, deltas.are_mergeable(first));
        let is_merged = deltas.merge_all(first).is_ok();
        expect_eq(
            count,
            (is_merged, deltas.deltas().len()),
            (true, count),
        );
    }
}

// the deltas of a section and the map's entries, and the same of a copy
#[test]
fn maps_and_their_copies_take_4() {
    let mut map = RelaxDeltaMap::new();
    let empty = map.try_clone().expect("no memory");
    expect(0, empty.is_empty());
    expect(0, map.last_index().is_none());
    let is_inserted = map.insert(3, deltas_of(&FEW)).is_ok();
    let copy = map.try_clone().expect("no memory");
    expect_eq(3, (is_inserted, copy.last_index()), (true, Some(3)));
}

// both vectors of what each returns
#[test]
fn packing_and_choosing_take_2() {
    let (none, calls) = (deltas_of(&[]), [(0, 8)]);
    expect(calls, calls_apart(&calls));
    expect(calls, calls_shrinkable(&none, &calls));
    let packed = pack_section(
        &[0x97, 0, 0, 0, 0xe7, 0x80, 0, 0],
        &none,
        &calls,
    );
    let chosen = shrink_calls(&none, &calls).expect("no memory");
    expect_eq(calls, (packed.is_ok(), chosen.len()), (true, 1));
}
