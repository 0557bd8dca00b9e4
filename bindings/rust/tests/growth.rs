// SPDX-License-Identifier: MIT OR Apache-2.0
//! How the work of the exports over deletions grows, as `rust/vectors/tests/vectors/growth.rs` says of the
//! crate's calls.

#[path = "../../../rust/vectors/tests/vectors/ratio.rs"]
mod ratio;

use ratio::{expect_growth, LONG, ORDERS, SHORT};
use sathunne::*;

fn deletions(pairs: Vec<(u64, u32)>) -> Vec<Deletion> {
    pairs
        .into_iter()
        .map(|(offset, bytes)| Deletion { offset, bytes })
        .collect()
}

fn places(count: usize) -> Vec<Delta> {
    vec![Delta::default(); count]
}

fn deltas(count: usize) -> Vec<Delta> {
    let mut made = places(count);
    deltas_create(&deletions(ORDERS[0].1(count)), &mut made).expect("deletions");
    made
}

fn expect_merges(count: usize) {
    for (order, pairs) in ORDERS {
        let name = |call: &str| format!("{call}, {order}");
        let given = |count| deletions(pairs(count));
        let to_merge = |count| (given(count), places(count));
        expect_growth(&name("merge"), count, to_merge, |(given, mut merged)| {
            deltas_merge(&[], &given, &mut merged).expect("deletions");
        });
        expect_growth(&name("test"), count, given, |given| {
            assert_eq!(deletions_mergeable(&[], &given), Ok(()));
        });
        // the last overlaps the one before it
        let overlapping = |count| {
            let mut given = given(count);
            given[count - 1].offset = given[count - 2].offset + 2;
            (given, places(count))
        };
        expect_growth(
            &name("rejected merge"),
            count,
            overlapping,
            |(given, mut merged)| {
                let rejected = deltas_merge(&[], &given, &mut merged);
                let (status, index) = (Status::NotMergeable, Some(given.len() - 1));
                assert_eq!(rejected, Err(ArrayError { status, index }));
                assert_eq!(deletions_mergeable(&[], &given), Err(status));
            },
        );
    }
}

fn expect_deltas(count: usize) {
    let given = |count| (deletions(ORDERS[0].1(count)), places(count));
    expect_growth("deltas", count, given, |(given, mut made)| {
        deletions_valid(&given).expect("deletions");
        deltas_create(&given, &mut made).expect("deletions");
        deltas_create_in_one_pass(&given, &mut made).expect("deletions");
        assert!(has_valid_deltas(&made));
    });
    let queries = |count| {
        let queries: Vec<u64> = (0..8 * count as u64).step_by(4).collect();
        (deltas(count), queries)
    };
    expect_growth("translations", count, queries, |(listed, queries)| {
        let mut outputs = vec![0; queries.len()];
        deltas_translate_all(&listed, &queries, &mut outputs).expect("queries");
        let mut heads = vec![BlockHead::default(); deltas_block_count(&listed)];
        deltas_heads(&listed, &mut heads).expect("heads");
        for (query, output) in queries.iter().zip(&outputs) {
            assert_eq!(deltas_input_to_output(&listed, *query), *output);
            let by_heads = deltas_input_to_output_by_heads(&listed, &heads, *query);
            assert_eq!(by_heads, *output);
            deltas_output_to_input(&listed, *output).expect("an offset");
        }
    });
}

/// Calls that are out of reach, each without the next one or without the one before, and calls to one
/// target.
fn expect_calls(count: usize) {
    const REACH: u64 = 1 << 20;
    let chains: [(&str, fn(u64) -> u64); 3] = [
        ("each without the next", |site| site + REACH + 6),
        ("each without the one before", |site| site - REACH - 4),
        ("all to one target", |_| 2 * REACH),
    ];
    for (name, target) in chains {
        let calls = |count| -> Vec<Call> {
            let sites = (0..count as u64).map(|index| 2 * REACH + 8 * index);
            let calls = sites.map(|site| Call {
                site,
                target: target(site),
            });
            calls.collect()
        };
        expect_growth(&format!("calls, {name}"), count, calls, |calls| {
            let mut chosen = vec![2; calls.len()];
            calls_shrinkable(&[], &calls).expect("calls");
            shrink_calls(&[], &calls, &mut chosen).expect("calls");
            assert!(
                name == "all to one target" || !chosen.contains(&1),
                "{name}"
            );
        });
    }
}

/// Runs as in `rust/vectors/tests/vectors/growth.rs`: cascades in both directions, also with alignments
/// between the calls, calls to one target, and alignments inside of one another's nops.
fn expect_runs(count: usize) {
    let call = standard_shapes(ShapesName::RiscVCall);
    let near = Shape {
        max_backward: 102,
        max_forward: 102,
        kept: 4,
        granularity: 1,
    };
    let cascading = Shapes {
        short: [near, Shape::default()],
        count: 1,
        ..call
    };
    let cascade = |count: usize, target: fn(u64) -> u64, is_aligned: bool| -> Vec<Item> {
        let item = |offset: u64| {
            let site = Item::site(offset, 8, target(offset), cascading);
            let aligned = is_aligned.then(|| Item::alignment(offset + 14, 3, 4, None));
            [Some(site), aligned]
        };
        let offsets = (0..count as u64).map(|index| 1000 + 20 * index);
        offsets.flat_map(item).flatten().collect()
    };
    let nested = |count: usize| -> Vec<Item> {
        let (mut items, mut offset) = (Vec::new(), 0);
        for index in 0..count / 2 {
            let alignment = 4 << (index as u32).trailing_zeros().min(10);
            let nops = alignment as u32 - 2;
            items.push(Item::site(offset, 8, 0, call));
            items.push(Item::alignment(offset + 8, nops, alignment, None));
            offset += 8 + u64::from(nops);
        }
        items
    };
    let to_one = |count: usize| -> Vec<Item> {
        (0..count as u64)
            .map(|index| Item::site(8 * index, 8, 0, call))
            .collect()
    };
    type Made<'a> = (&'a str, &'a dyn Fn(usize) -> Vec<Item>);
    let all: [Made; 6] = [
        ("ahead", &|count| cascade(count, |at| at + 109, false)),
        ("back", &|count| cascade(count, |at| at - 107, false)),
        ("ahead between alignments", &|count| {
            cascade(count / 2, |at| at + 109, true)
        }),
        ("back between alignments", &|count| {
            cascade(count / 2, |at| at - 107, true)
        }),
        ("all to one target", &to_one),
        ("nested alignments", &nested),
    ];
    for (name, made) in all {
        expect_growth(&format!("relax, {name}"), count, made, |items| {
            items_relaxable(&items, 0).expect(name);
            let len = items.len();
            let (mut shapes, mut kept) = (vec![0; len], vec![0; len]);
            let (mut room, mut freed) = (vec![0; len], vec![0; len + 1]);
            let relaxed = Relaxed {
                shapes: &mut shapes,
                kept: &mut kept,
                places: &mut room,
                freed: &mut freed,
            };
            relax(&items, 0, relaxed).expect(name);
            let is_cascade = ["ahead", "back"].contains(&name);
            assert!(
                !is_cascade || shapes.iter().all(|shape| *shape == 1),
                "{name}"
            );
            run_deltas(&items, &kept, &mut places(len)).expect(name);
        });
    }
}

/// The bytes of relocations of x86-64, `R_X86_64_PC32` of symbol 1, at offsets.
fn relocations(offsets: &[(u64, u32)]) -> Vec<u8> {
    let words = |offset: u64| [offset, 2 | 1 << 32, 0];
    let all = offsets.iter().flat_map(|(offset, _)| words(*offset));
    all.flat_map(u64::to_le_bytes).collect()
}

fn expect_relocating(count: usize) {
    for (order, pairs) in ORDERS {
        // the last overlaps the one before it, or none does
        for overlaps in [false, true] {
            let given = |count| {
                let mut pairs = pairs(count);
                if overlaps {
                    pairs[count - 1].0 = pairs[count - 2].0 + 2;
                }
                let relocations = relocations(&pairs);
                let memory = vec![0; relocate_memory(&relocations)];
                (relocations, vec![0; 8 * count + 8], memory)
            };
            let name = format!("relocating, {order}, overlap {overlaps}");
            expect_growth(&name, count, given, |(relocations, mut section, mut memory)| {
                let symbols = [Symbol::default(); 2];
                let written = relocate_section(
                    Architecture::X86_64,
                    &Addresses::default(),
                    &relocations,
                    &symbols,
                    &mut section,
                    &mut memory,
                );
                let (status, index) = (Status::Overlaps, Some(memory.len() - 1));
                let rejected = Err(ArrayError { status, index });
                assert_eq!(written, if overlaps { rejected } else { Ok(()) });
            });
        }
    }
}

fn expect_all(count: usize) {
    expect_merges(count);
    expect_deltas(count);
    // more reach into one another's bytes
    expect_calls(count.min(100_000));
    expect_runs(count);
    expect_relocating(count);
}

#[test]
fn short_lists_take_n_log_n() {
    expect_all(SHORT);
}

#[test]
#[ignore = "it takes minutes: .ci/nightly"]
fn long_lists_take_n_log_n() {
    expect_all(LONG);
}
