// SPDX-License-Identifier: MIT OR Apache-2.0
//! Lists, maps and sections that are not small, for which there is memory. Of every 8 bytes of a section
//! the last 4 are deleted, so what stands at 8 * k is at 4 * k afterwards.

use linker_utils::relaxation::{
    DeltaSlice, RelaxDelta, RelaxDeltaMap, SectionRelaxDeltas, calls_apart, pack_section,
};
use linker_utils::utils::read_string;
use std::fs;
use std::time::{Duration, Instant};

const COUNT: u64 = 2_000;

fn pair(index: u64) -> (u64, u32) {
    (8 * index + 4, 4)
}

fn pairs() -> Vec<(u64, u32)> {
    (0..COUNT).map(pair).collect()
}

/// The pairs whose index has one of the remainders modulo 5, from the last to the first.
fn descending(remainders: &[u64]) -> Vec<(u64, u32)> {
    let indices = (0..COUNT).filter(|i| remainders.contains(&(i % 5)));
    indices.rev().map(pair).collect()
}

/// The deltas of those whose index has this remainder.
fn deltas_of(remainder: u64) -> SectionRelaxDeltas {
    let mut pairs = descending(&[remainder]);
    pairs.reverse();
    SectionRelaxDeltas::new(&pairs).expect("memory")
}

fn lists_all(deltas: &SectionRelaxDeltas) {
    let listed = (0..COUNT).map(|i| RelaxDelta {
        input_offset: 8 * i + 4,
        cumulative_deleted: 4 * (i + 1),
        bytes_deleted: 4,
    });
    assert!(deltas.deltas().iter().copied().eq(listed));
    let mut cursor = deltas.cursor();
    for i in 0..COUNT {
        for (input, output) in [(8 * i, 4 * i), (8 * i + 3, 4 * i + 3), (8 * i + 6, 4 * i + 4)] {
            assert_eq!(deltas.input_to_output_offset(input), output);
            assert_eq!(cursor.translate(input), output);
        }
        assert_eq!(deltas.output_to_input_offset(4 * i), 8 * i);
    }
    assert_eq!(cursor.turns(), COUNT as usize);
    assert_eq!(deltas.input_to_output_offset(8 * COUNT), 4 * COUNT);
}

#[test]
fn deletions_are_listed_and_copied() {
    let deltas = SectionRelaxDeltas::new(&pairs()).expect("memory");
    lists_all(&deltas);
    lists_all(&deltas.clone());
    lists_all(&deltas.try_clone().expect("memory"));
}

#[test]
fn deletions_are_merged() {
    let mut deltas = deltas_of(3);
    let more = descending(&[0, 1, 2, 4]);
    assert!(deltas.is_mergeable(&more));
    deltas.merge_additional(&more).expect("memory");
    lists_all(&deltas);

    let mut deltas = SectionRelaxDeltas::new(&[]).expect("memory");
    deltas.merge_additional(&descending(&[0, 1, 2, 3, 4])).expect("memory");
    lists_all(&deltas);
}

#[test]
fn deletions_are_merged_in_batches() {
    let mut deltas = deltas_of(2);
    let batches = [descending(&[4]), descending(&[0]), descending(&[3]), descending(&[1])];
    assert!(deltas.are_mergeable(&batches));
    deltas.merge_all(&batches).expect("memory");
    lists_all(&deltas);
}

/// The pairs from the first to the last, from the last to the first, every fourth of them in turn, and
/// without order.
fn orders(count: usize) -> [Vec<(u64, u32)>; 4] {
    let all: Vec<_> = (0..count as u64).map(pair).collect();
    let fourths = (0..4).flat_map(|first| all.iter().copied().skip(first).step_by(4)).collect();
    // 100,003 is a prime
    let mixed = (1..100_003).map(|i| i * 48_271 % 100_003).filter(|&at| at < count);
    let mixed = mixed.map(|at| all[at]).chain([all[0]]).collect();
    [all.clone(), all.iter().rev().copied().collect(), fourths, mixed]
}

/// The processor time of this thread, which other work on the machine doesn't lengthen. Only Linux
/// has it in a file.
fn processor_time() -> Option<Duration> {
    let text = fs::read_to_string("/proc/thread-self/schedstat").ok()?;
    Some(Duration::from_nanos(text.split(' ').next()?.parse().ok()?))
}

/// Runs it in a time in which a test of each pair against each other one isn't done.
fn in_time<T>(run: impl FnOnce() -> T) -> T {
    let (started, before) = (Instant::now(), processor_time());
    let result = run();
    let taken = match (before, processor_time()) {
        (Some(before), Some(after)) => after - before,
        _ => started.elapsed(),
    };
    assert!(taken < Duration::from_secs(10), "{taken:?}");
    result
}

#[test]
fn merges_in_any_order_are_in_time() {
    for pairs in orders(100_000) {
        let batches: Vec<_> = pairs.chunks(25_000).map(<[_]>::to_vec).collect();
        let mut deltas = SectionRelaxDeltas::new(&[]).expect("memory");
        in_time(|| deltas.merge_additional(&pairs)).expect("memory");
        let mut merged = SectionRelaxDeltas::new(&[]).expect("memory");
        in_time(|| merged.merge_all(&batches)).expect("memory");
        assert_eq!(deltas.deltas().len(), 100_000);
        assert_eq!(deltas.deltas(), merged.deltas());
    }
}

#[test]
fn tests_of_merges_are_in_time() {
    let none = SectionRelaxDeltas::new(&[]).expect("memory");
    for mut pairs in orders(50_000) {
        for is_mergeable in [true, false] {
            let batches: Vec<_> = pairs.chunks(12_500).map(<[_]>::to_vec).collect();
            assert_eq!(in_time(|| none.is_mergeable(&pairs)), is_mergeable);
            assert_eq!(in_time(|| none.are_mergeable(&batches)), is_mergeable);
            // the last reaches into the one before it, or past the end
            let last = pairs.len() - 1;
            pairs[last] = (pairs[last - 1].0 + 2, 4);
        }
    }
}

#[test]
fn the_first_overlapping_deletion_is_found() {
    for mut pairs in orders(10_000) {
        for at in [1, 600, 5_000, 9_999] {
            let (kept, slice) = (pairs[at], DeltaSlice::new(&[]));
            pairs[at] = (pairs[at - 1].0 + 2, 4);
            assert_eq!(in_time(|| slice.first_overlapping_sorted(&pairs)), Some(at));
            pairs[at] = kept;
        }
        assert_eq!(in_time(|| DeltaSlice::new(&[]).first_overlapping_sorted(&pairs)), None);
    }
}

#[test]
fn maps_hold_many_sections() {
    let deltas = |bytes: u32| SectionRelaxDeltas::new(&[(4, bytes)]).expect("memory");
    let mut sections = RelaxDeltaMap::new();
    for index in (0..40).step_by(2) {
        sections.insert(index, deltas(index as u32)).expect("memory");
    }
    for index in (1..40).step_by(2).rev() {
        sections.insert_sorted(index, deltas(index as u32)).expect("memory");
    }
    assert_eq!(sections.last_index(), Some(39));
    for copy in [&sections, &sections.clone(), &sections.try_clone().expect("memory")] {
        assert_eq!(copy, &sections);
        for index in 0..40 {
            let section = copy.get(index).expect("a section of this index");
            assert_eq!(section.total_deleted(), index as u64);
        }
        assert!(copy.get(40).is_none());
        let listed: Vec<(usize, u64)> =
            copy.iter().map(|(index, section)| (index, section.total_deleted())).collect();
        assert_eq!(listed, (0..40).map(|index| (index, index as u64)).collect::<Vec<_>>());
    }
    assert_eq!(RelaxDeltaMap::default(), RelaxDeltaMap::new());
    assert_ne!(RelaxDeltaMap::default(), sections);
    assert_ne!(deltas(4), deltas(2));
}

/// `auipc ra, 0` and `jalr ra, 0(ra)`, of which the second goes.
const CALL: [u8; 8] = [0x97, 0, 0, 0, 0xe7, 0x80, 0, 0];

#[test]
fn sections_of_many_calls_are_packed() {
    let section = CALL.repeat(COUNT as usize);
    let deltas = SectionRelaxDeltas::new(&pairs()).expect("memory");
    // each calls the one before it, which is 4 bytes before it then
    let calls: Vec<(u64, u64)> = (1..COUNT).map(|i| (8 * i, 8 * (i - 1))).collect();
    assert!(calls_apart(&calls));
    let packed = pack_section(&section, &deltas, &calls).expect("calls, and memory");
    let mut words = packed.chunks_exact(4).map(|word| u32::from_le_bytes(word.try_into().unwrap()));
    assert_eq!(words.len(), COUNT as usize);
    assert_eq!(words.next(), Some(0x0000_0097));
    // jal ra, -4
    assert!(words.all(|word| word == 0xffdf_f0ef));
}

#[test]
fn texts_are_read() {
    let valid = [b"x".repeat(5_000), vec![0], b"y".to_vec()].concat();
    let invalid = [b"\xff".repeat(5_000), vec![0], b"y".to_vec()].concat();
    for (bytes, letter) in [(valid, "x"), (invalid, "\u{fffd}")] {
        let mut content = bytes.as_slice();
        let text = read_string(&mut content).expect("a text, and memory");
        assert_eq!(text, letter.repeat(5_000));
        assert_eq!(content, b"y");
    }
}
