// SPDX-License-Identifier: MIT OR Apache-2.0
//! Where an allocation fails, the call returns an error and has changed nothing. Each allocation of a
//! call fails in turn, until none does.

extern crate alloc;

#[macro_use]
#[path = "../src/support.rs"]
mod support;

use linker_utils::relaxation::{
    OutOfMemory, PackError, RelaxDelta, RelaxDeltaMap, SectionRelaxDeltas, pack_section,
    shrink_calls, shrink_calls_into,
};
use linker_utils::runs::shapes::riscv64::CALL;
use linker_utils::runs::{
    Alignment, Isa, Item, ItemNumbers, ItemsError, Machine, Relocation, Site,
};
use linker_utils::runs::{relax, section_items};
use linker_utils::section::Section;
use linker_utils::utils::read_string;
use std::alloc::{GlobalAlloc, Layout, System};
use std::cell::Cell;
use std::ptr::null_mut;

/// The system's allocator, except for one allocation that fails.
struct FailingOnce;

thread_local! {
    /// How many allocations of this thread succeed before one fails.
    static BEFORE: Cell<Option<usize>> = const { Cell::new(None) };
    /// Whether it has failed.
    static HAS_FAILED: Cell<bool> = const { Cell::new(false) };
}

fn fails() -> bool {
    let before = BEFORE.get();
    BEFORE.set(before.and_then(|count| count.checked_sub(1)));
    HAS_FAILED.set(HAS_FAILED.get() || before == Some(0));
    before == Some(0)
}

// SAFETY: it is the system's allocator, and null says that an allocation failed.
unsafe impl GlobalAlloc for FailingOnce {
    unsafe fn alloc(&self, layout: Layout) -> *mut u8 {
        if fails() { null_mut() } else { unsafe { System.alloc(layout) } }
    }

    unsafe fn dealloc(&self, at: *mut u8, layout: Layout) {
        unsafe { System.dealloc(at, layout) }
    }

    unsafe fn realloc(&self, at: *mut u8, layout: Layout, size: usize) -> *mut u8 {
        if fails() { null_mut() } else { unsafe { System.realloc(at, layout, size) } }
    }
}

#[global_allocator]
static ALLOCATOR: FailingOnce = FailingOnce;

/// What a call returns of which one allocation fails, and whether there was such an allocation.
fn failing<T>(before: usize, call: impl FnOnce() -> T) -> (T, bool) {
    HAS_FAILED.set(false);
    BEFORE.set(Some(before));
    let returned = call();
    BEFORE.set(None);
    (returned, HAS_FAILED.get())
}

/// Calls until no allocation of a call fails, and returns how often one did, and what the last call
/// returned. A call has to return an error exactly where an allocation failed.
fn each_fails<T, E>(mut call: impl FnMut() -> Result<T, E>, after: impl Fn(E)) -> (usize, T) {
    for before in 0..100 {
        let (returned, has_failed) = failing(before, &mut call);
        assert_eq!(returned.is_err(), has_failed, "allocation {before}");
        match returned {
            Ok(returned) => return (before, returned),
            Err(error) => after(error),
        }
    }
    panic!("a call takes memory without end");
}

/// The same of calls that change a state, each of a state made anew.
fn each_fails_of<S, T, E>(
    state: impl Fn() -> S,
    call: impl Fn(&mut S) -> Result<T, E>,
    unchanged: impl Fn(&S),
) -> (usize, S) {
    for before in 0..100 {
        let mut state = state();
        let (returned, has_failed) = failing(before, || call(&mut state));
        assert_eq!(returned.is_err(), has_failed, "allocation {before}");
        match returned {
            Ok(_) => return (before, state),
            Err(_) => unchanged(&state),
        }
    }
    panic!("a call takes memory without end");
}

fn deltas(pairs: &[(u64, u32)]) -> SectionRelaxDeltas {
    SectionRelaxDeltas::new(pairs).expect("memory")
}

/// The pairs that are listed.
fn listed(deltas: &SectionRelaxDeltas) -> Vec<(u64, u32)> {
    let pair = |delta: &RelaxDelta| (delta.input_offset, delta.bytes_deleted);
    deltas.deltas().iter().map(pair).collect()
}

/// Deletions of many blocks.
fn many() -> Vec<(u64, u32)> {
    (0..1_100).map(|i| (8 * i + 4, 4)).collect()
}

/// So many pairs that ascend, that descend, or in no order; none overlaps another.
fn pairs_in_orders(count: u64) -> [Vec<(u64, u32)>; 3] {
    let pair = |at: u64| (8 * at, 4);
    // 4,001 is a prime
    let mixed = (1..4_001).map(|at| at * 1_009 % 4_001).filter(|&at| at <= count).map(pair);
    [(0..count).map(pair).collect(), (0..count).rev().map(pair).collect(), mixed.collect()]
}

/// Whether a merge is possible doesn't depend on memory, which is taken once, for many pairs in no
/// order.
#[test]
fn merges_are_tested_without_memory() {
    let none = SectionRelaxDeltas::new(&[]).expect("memory");
    for (count, copied) in [(1_024, [false; 3]), (3_000, [false, false, true])] {
        for (mut pairs, copied) in pairs_in_orders(count).into_iter().zip(copied) {
            // then the last overlaps the first, so that no order is kept
            for (mergeable, takes_memory) in [(true, copied), (false, count > 1_024)] {
                for before in 0..2 {
                    let call = || none.as_delta_slice().can_merge_sorted(&pairs);
                    assert_eq!(failing(before, call), (mergeable, takes_memory && before == 0));
                    let call = || none.is_mergeable(&pairs);
                    assert_eq!(failing(before, call), (mergeable, false));
                    let call = || none.as_delta_slice().can_merge(&pairs);
                    assert_eq!(failing(before, call), (mergeable, false));
                }
                *pairs.last_mut().expect("a pair") = (pairs[0].0 + 2, 4);
            }
        }
    }
}

/// Batches are tested without memory too.
#[test]
fn merges_of_batches_are_tested_without_memory() {
    let none = SectionRelaxDeltas::new(&[]).expect("memory");
    for (count, len) in [(1_020, 255), (600, 1), (3_000, 750)] {
        for pairs in pairs_in_orders(count) {
            let mut batches: Vec<_> = pairs.chunks(len).map(<[_]>::to_vec).collect();
            assert_eq!(failing(0, || none.are_mergeable(&batches)), (true, false));
            // the last overlaps the first, so that batches that ascended don't
            *batches.last_mut().and_then(|last| last.last_mut()).expect("a pair") = (pairs[0].0 + 2, 4);
            assert_eq!(failing(0, || none.are_mergeable(&batches)), (false, false));
        }
    }
}

#[test]
fn deletions_are_not_listed() {
    // the deltas, and the heads of their blocks where these are many
    for (takes, pairs) in [(1, vec![(4, 4), (8, 4)]), (2, many())] {
        let (count, made) = each_fails(|| SectionRelaxDeltas::new(&pairs), |_| {});
        assert_eq!((count, listed(&made)), (takes, pairs));
    }
    let (count, none) = each_fails(|| SectionRelaxDeltas::new(&[]), |_| {});
    assert_eq!((count, listed(&none)), (0, vec![]));
}

#[test]
fn merges_change_nothing() {
    let (old, more) = ([(4, 4)], [(8, 4)]);
    let (count, merged) = each_fails_of(
        || deltas(&old),
        |it| it.merge_additional(&more),
        |it| {
            assert_eq!(listed(it), old);
            assert_eq!(it.input_to_output_offset(12), 8);
        },
    );
    assert!(count > 0);
    assert_eq!(listed(&merged), [(4, 4), (8, 4)]);

    let (count, merged) = each_fails_of(
        || deltas(&old),
        |it| it.merge_additional(&[]),
        |_| unreachable!("nothing is added"),
    );
    assert_eq!((count, listed(&merged)), (0, old.to_vec()));

    // the heads' growth fails too
    let many = many();
    let (count, merged) = each_fails_of(
        || deltas(&old),
        |it| it.merge_additional(&many[1..]),
        |it| {
            assert_eq!(listed(it), old);
            assert_eq!(it.input_to_output_offset(1000), 996);
        },
    );
    assert!(count > 1);
    assert_eq!(listed(&merged), many);
    assert_eq!(merged.input_to_output_offset(1000), 500);
}

#[test]
fn no_batch_is_merged() {
    let old = [(4, 4)];
    let few = vec![vec![(8, 4)], vec![(16, 4)]];
    let many: Vec<Vec<(u64, u32)>> = many()[1..].chunks(300).map(<[_]>::to_vec).collect();
    assert_eq!(many.len(), 4);
    for batches in [few, many] {
        let (count, merged) = each_fails_of(
            || deltas(&old),
            |it| it.merge_all(&batches),
            |it| assert_eq!(listed(it), old),
        );
        assert!(count > 0);
        assert_eq!(listed(&merged), [old.to_vec(), batches.concat()].concat());
    }
}

#[test]
fn copies_leave_the_source() {
    let pairs = [(4, 4), (12, 2)];
    for (takes, pairs) in [(1, pairs.to_vec()), (2, many())] {
        let source = deltas(&pairs);
        let (count, copy) = each_fails(|| source.try_clone(), |_| assert_eq!(listed(&source), pairs));
        assert_eq!((count, listed(&copy)), (takes, pairs));
    }

    let mut sections = RelaxDeltaMap::new();
    sections.insert(1, deltas(&pairs)).expect("memory");
    sections.insert(3, deltas(&[(8, 4)])).expect("memory");
    let is_whole = |map: &RelaxDeltaMap| {
        assert_eq!(map.get(1).map(listed), Some(pairs.to_vec()));
        assert_eq!(map.get(3).map(listed), Some(vec![(8, 4)]));
        assert_eq!(map.last_index(), Some(3));
    };
    let (count, copy) = each_fails(|| sections.try_clone(), |_| is_whole(&sections));
    assert_eq!(count, 3);
    is_whole(&copy);
}

#[test]
fn insertions_hand_the_deltas_back() {
    let mut sections = RelaxDeltaMap::new();
    let mut given = Some(deltas(&[(8, 4)]));
    let (back, has_failed) = failing(0, || sections.insert(3, given.take().expect("deltas")));
    assert!(has_failed && sections.is_empty());
    let back = back.expect_err("no memory");
    assert_eq!(listed(&back), [(8, 4)]);
    sections.insert(3, back).expect("memory");

    // one of some insertions grows the map
    let mut failures = 0;
    for index in [1, 0, 2, 9, 8, 7, 6, 5, 4] {
        let before = sections.try_clone().expect("memory");
        let given = deltas(&[(4, 4), (index as u64 + 10, 0)]);
        let (mut result, has_failed) = failing(0, || sections.insert_sorted(index, given));
        assert_eq!(result.is_err(), has_failed);
        if let Err(back) = result {
            failures += 1;
            assert_eq!(listed(&back), [(4, 4), (index as u64 + 10, 0)]);
            for other in 0..10 {
                assert_eq!(sections.get(other).map(listed), before.get(other).map(listed));
            }
            result = sections.insert_sorted(index, back);
        }
        assert!(result.is_ok());
    }
    assert!(failures > 0);
    assert_eq!(sections.get(3).map(listed), Some(vec![(8, 4)]));
}

#[test]
fn sections_are_not_packed() {
    // `auipc ra, 0` and `jalr ra, 0(ra)`, and `nop`
    let section = [0x97, 0, 0, 0, 0xe7, 0x80, 0, 0, 0x13, 0, 0, 0];
    let deltas = deltas(&[(4, 4)]);
    let (count, packed) = each_fails(
        || pack_section(&section, &deltas, &[(0, 8)]),
        |error| assert_eq!(error, PackError::OutOfMemory),
    );
    assert_eq!((count, packed), (1, vec![0xef, 0, 0x40, 0, 0x13, 0, 0, 0]));
    // out of memory comes first
    let (faulty, has_failed) = failing(0, || pack_section(&section, &deltas, &[(4, 0)]));
    assert!(has_failed);
    assert_eq!(faulty, Err(PackError::OutOfMemory));
}

#[test]
fn calls_are_not_chosen() {
    let (deltas, calls) = (deltas(&[]), [(16, 24)]);
    let (count, chosen) = each_fails(
        || shrink_calls(&deltas, &calls),
        |error| assert_eq!(error, OutOfMemory),
    );
    assert_eq!((count, chosen), (1, vec![true]));
}

/// Each reaches its target only with the bytes of the next one deleted, and the last one has no next.
/// All are dropped, and nothing is allocated for that.
#[test]
fn calls_are_dropped_without_memory() {
    let calls: Vec<(u64, u64)> = (0..100).map(|k| (8 * k, 8 * k + (1 << 20) + 6)).collect();
    let mut chosen = [true; 100];
    let ((), has_failed) = failing(0, || {
        shrink_calls_into(&[] as &[RelaxDelta], &calls, &mut chosen);
    });
    assert_eq!(chosen, [false; 100]);
    assert!(!has_failed);
}

#[test]
fn vectors_and_texts_are_not_made() {
    use support::*;
    let (one, items) = ([9u8], [1u8, 2, 3]);
    assert_eq!(each_fails(|| try_vec![1u8, 2, 3], |_| {}), (1, items.to_vec()));
    assert_eq!(each_fails(|| try_vec![7u8; 3], |_| {}), (1, vec![7; 3]));
    assert_eq!(each_fails(|| items.fallible_to_vec(), |_| {}), (1, items.to_vec()));
    let extend = |it: &mut Vec<u8>| it.fallible_extend_from_slice(&items);
    let (count, extended) = each_fails_of(|| one.to_vec(), extend, |it| assert_eq!(it, &one));
    assert_eq!((count, extended), (1, vec![9, 1, 2, 3]));
    for at in [0, 1] {
        let insert = |it: &mut Vec<u8>| match at {
            0 => it.fallible_insert(0, 5).map_err(|failed| assert_eq!(failed.value, 5)),
            _ => it.fallible_push(5).map_err(|failed| assert_eq!(failed.value, 5)),
        };
        let (count, longer) = each_fails_of(|| one.to_vec(), insert, |it| assert_eq!(it, &one));
        assert_eq!((count, longer), (1, if at == 0 { vec![5, 9] } else { vec![9, 5] }));
    }
    let text = |bytes: &[u8]| bytes.fallible_to_str_lossy()?.fallible_into_owned();
    assert_eq!(each_fails(|| text(b"a"), |_| {}), (1, "a".to_string()));
    // of bytes that are not UTF-8 there is a copy before
    assert_eq!(each_fails(|| text(b"a\xe2\x82b"), |_| {}), (2, "a\u{fffd}b".to_string()));
}

#[test]
fn strings_are_not_read() {
    for (bytes, text) in [(b"a\0b".as_slice(), "a"), (b"a\xff\0b", "a\u{fffd}")] {
        let (count, rest) = each_fails(
            || {
                let mut content = bytes;
                match read_string(&mut content) {
                    Ok(read) => Ok((read, content)),
                    Err(error) => Err((error, content)),
                }
            },
            |(error, content)| {
                assert_eq!(error.to_string(), "Out of memory");
                assert_eq!(content, bytes);
            },
        );
        assert!(count > 0);
        assert_eq!(rest, (text.to_string(), b"b".as_slice()));
    }
}

#[test]
fn runs_are_not_relaxed() {
    let call = Item::Site(Site { offset: 0, len: 8, target: 22, shapes: CALL });
    let aligned = Item::Aligned(Alignment { offset: 8, nops: 14, alignment: 16, max_skip: None });
    let items = [call, aligned].map(ItemNumbers::from_item);
    let (count, plan) = each_fails(|| relax(&items, 0), |_| {});
    // the four arrays, the pairs of the deletions and the deltas
    assert_eq!((count, plan.kept), (6, vec![4, 12]));

    let relocation = |offset, r_type, addend, target: Option<u64>| Relocation {
        offset,
        r_type,
        has_symbol: target.is_some(),
        addend,
        target,
        may_compress: true,
    };
    let relocations = [
        relocation(0, 19, 0, Some(22)),
        relocation(0, 51, 0, None),
        relocation(8, 43, 14, None),
    ];
    let mut section = [0; 22];
    section[..8].copy_from_slice(&0x000080e7_00000097u64.to_le_bytes());
    let (count, made) = each_fails(
        || section_items(Machine::RiscV(Isa::Rv64), &Section::new(&section, []), &relocations),
        |error| assert_eq!(error, ItemsError::OutOfMemory),
    );
    assert!(count > 1);
    assert_eq!((made.items, made.makers), (items.to_vec(), vec![0, 2]));

    // R_LARCH_ALIGN at three nops
    let nops = [relocation(0, 102, 12, None)];
    let (count, made) = each_fails(
        || section_items(Machine::LoongArch64, &Section::new([0; 12], []), &nops),
        |error| assert_eq!(error, ItemsError::OutOfMemory),
    );
    assert_eq!((count > 1, made.items.len()), (true, 1));
}
