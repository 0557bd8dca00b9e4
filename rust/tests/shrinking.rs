// SPDX-License-Identifier: MIT OR Apache-2.0
//! Which calls can become jumps at once, beside the choices of linkers.
//!
//! Each line of `relax/riscv64_calls.txt` is a section that ld.lld 19.1.7 and GNU ld 2.40 relaxed:
//! its length, its calls as sites and targets, the eight bytes of each, which of them each linker
//! made a `jal` (`shrunk` and `gnu`), and from ld.lld the length and the words of the relaxed
//! section.

use linker_utils::relaxation::{
    AsChoice, Call, RelaxDelta, SectionRelaxDeltas, calls_shrinkable, pack_into, packed_len,
    shrink_calls, shrink_calls_into,
};
use linker_utils::riscv64::LinkRegister;
use std::cell::Cell;

struct Section<'a> {
    name: &'a str,
    len: usize,
    calls: Vec<(u64, u64)>,
    bytes: Vec<Vec<u8>>,
    lld: Vec<bool>,
    lld_len: usize,
    words: Vec<Vec<u8>>,
    gnu: Vec<bool>,
}

fn field<'a>(line: &'a str, name: &str) -> &'a str {
    line.split(' ').find_map(|word| word.strip_prefix(name)?.strip_prefix('=')).expect(name)
}

fn number(text: &str) -> u64 {
    text.parse().expect("a number")
}

fn call(text: &str) -> (u64, u64) {
    let (site, target) = text.split_once(':').expect("a site and a target");
    (number(site), number(target))
}

fn hex(text: &str) -> Vec<u8> {
    (0..text.len())
        .step_by(2)
        .map(|at| u8::from_str_radix(&text[at..at + 2], 16).expect("hexadecimal digits"))
        .collect()
}

fn list<T>(line: &str, name: &str, each: impl Fn(&str) -> T) -> Vec<T> {
    field(line, name).split(',').map(each).collect()
}

fn sections() -> impl Iterator<Item = Section<'static>> {
    include_str!("relax/riscv64_calls.txt").lines().map(|line| Section {
        name: line.split(' ').next().expect("a name"),
        len: number(field(line, "len")) as usize,
        calls: list(line, "calls", call),
        bytes: list(line, "in", hex),
        lld: list(line, "shrunk", |text| text == "1"),
        lld_len: number(field(line, "outlen")) as usize,
        words: list(line, "words", hex),
        gnu: list(line, "gnu", |text| text == "1"),
    })
}

/// The deltas once the chosen calls have given up the four bytes after their first instruction.
fn shrunk(calls: &[(u64, u64)], chosen: &[bool]) -> SectionRelaxDeltas {
    let freed: Vec<(u64, u32)> = calls
        .iter()
        .zip(chosen)
        .filter(|(_, chosen)| **chosen)
        .map(|(call, _)| (call.0 + 4, 4))
        .collect();
    let mut deltas = SectionRelaxDeltas::new(&[]).expect("memory");
    deltas.merge_additional(&freed).expect("memory");
    deltas
}

/// Whether all calls of a part are in the whole.
fn is_part(part: &[bool], whole: &[bool]) -> bool {
    part.iter().zip(whole).all(|(part, whole)| *whole || !*part)
}

#[test]
fn linkers_choose_a_part() {
    let none = SectionRelaxDeltas::new(&[]).expect("memory");
    let (mut count, mut lld_equal, mut gnu_equal) = (0, 0, 0);
    for section in sections() {
        assert!(calls_shrinkable(&none, &section.calls), "{}", section.name);
        let chosen = shrink_calls(&none, &section.calls).expect("memory");
        assert!(is_part(&section.lld, &chosen), "{}", section.name);
        assert!(is_part(&section.gnu, &chosen), "{}", section.name);
        let mut bytes = vec![2u8; chosen.len()];
        shrink_calls_into(&[] as &[RelaxDelta], &section.calls, &mut bytes);
        assert!(bytes.iter().map(|byte| *byte == 1).eq(chosen.iter().copied()));
        assert!(bytes.iter().all(|byte| *byte <= 1));
        count += 1;
        lld_equal += usize::from(section.lld == chosen);
        gnu_equal += usize::from(section.gnu == chosen);
    }
    assert!(count > 0 && lld_equal > 0 && gnu_equal > 0);
}

#[test]
fn packed_jumps_are_those_of_lld() {
    let none = SectionRelaxDeltas::new(&[]).expect("memory");
    let mut count = 0;
    for section in sections() {
        let chosen = shrink_calls(&none, &section.calls).expect("memory");
        if chosen != section.lld {
            continue;
        }
        let mut bytes = vec![0; section.len];
        for (call, window) in section.calls.iter().zip(&section.bytes) {
            bytes[call.0 as usize..][..8].copy_from_slice(window);
        }
        let deltas = shrunk(&section.calls, &chosen);
        let jumps: Vec<(u64, u64)> = section
            .calls
            .iter()
            .zip(&chosen)
            .filter(|(_, chosen)| **chosen)
            .map(|(call, _)| *call)
            .collect();
        let mut packed = vec![0; packed_len(&bytes, deltas.deltas())];
        assert_eq!(packed.len(), section.lld_len, "{}", section.name);
        let result = pack_into(&bytes, deltas.deltas(), &jumps, LinkRegister::OfJalr, &mut packed);
        assert_eq!(result, Ok(()), "{}", section.name);
        for ((call, is_jump), word) in section.calls.iter().zip(&chosen).zip(&section.words) {
            if *is_jump {
                let at = deltas.input_to_output_offset(call.0) as usize;
                assert_eq!(packed[at..at + 4], word[..], "{} {call:?}", section.name);
            }
        }
        count += 1;
    }
    assert!(count > 0);
}

thread_local! {
    static READS: Cell<usize> = const { Cell::new(0) };
}

/// Whether a call is chosen. It counts how often that is read: each test of a call reads it.
#[derive(Clone, Copy)]
struct Counted(bool);

impl AsChoice for Counted {
    fn as_choice(self) -> bool {
        READS.set(READS.get() + 1);
        self.0
    }

    fn from_choice(chosen: bool) -> Counted {
        Counted(chosen)
    }
}

/// How often choices are read until none of the calls is left.
fn reads(calls: &[Call]) -> usize {
    let mut chosen = vec![Counted(false); calls.len()];
    READS.set(0);
    shrink_calls_into(&[] as &[RelaxDelta], calls, &mut chosen);
    assert!(chosen.iter().all(|chosen| !chosen.0));
    READS.get()
}

const REACH: u64 = 1 << 20;

/// A call whose target lies above all calls. It is in reach where so many calls from it on are
/// chosen.
fn ahead(index: u64, needed: u64) -> Call {
    let site = 2 * REACH + 8 * index;
    Call { site, target: site + REACH - 2 + 4 * needed }
}

/// A call whose target lies below all calls. It is in reach where so many calls before it are chosen.
fn back(index: u64, needed: u64) -> Call {
    let site = 2 * REACH + 8 * index;
    Call { site, target: site - REACH - 4 * needed }
}

/// Sweeps go up and down in turn: where each call is in reach only with those after it, or each only
/// with those before it, a sweep in the other direction drops all.
#[test]
fn chains_in_one_direction_take_a_few_sweeps() {
    const COUNT: u64 = 2000;
    let of_next: Vec<Call> = (0..COUNT).map(|k| ahead(k, 2)).collect();
    let of_last: Vec<Call> = (0..COUNT).map(|k| back(k, 1)).collect();
    for calls in [of_next, of_last] {
        let reads = reads(&calls);
        assert!(reads < 24 * calls.len(), "{reads}");
    }
}

/// The calls go out of reach from the middle on, one below and one above it in turn, so that each
/// sweep drops one.
#[test]
fn chains_that_turn_around_take_a_sweep_for_each_turn() {
    const COUNT: u64 = 200;
    const MIDDLE: u64 = COUNT / 2;
    let turn = |k| if k < MIDDLE { 2 * (MIDDLE - k) - 1 } else { 2 * (k - MIDDLE) };
    let later = |k, others: std::ops::Range<u64>| others.filter(|j| turn(*j) >= turn(k)).count();
    let calls: Vec<Call> = (0..COUNT)
        .map(|k| match k < MIDDLE {
            true => ahead(k, later(k, k..COUNT) as u64 + 1),
            false => back(k, later(k, 0..k) as u64 + 1),
        })
        .collect();
    let reads = reads(&calls);
    assert!(reads > calls.len() * calls.len(), "{reads}");
}
