// SPDX-License-Identifier: MIT OR Apache-2.0
// Made by tools/generate of crates/linker_riscv64/src/shrinking.rt.
//! The calls of a section that can become jumps at once.

use alloc::vec::Vec;
use super::calls::{AsCall, test_distance};
use crate::linker_base::relaxation::{DeltaSlice, OutOfMemory, RelaxDelta, SectionRelaxDeltas};

/// An element of a list of choices, which says whether a call is chosen: a `bool`, or a byte that
/// is 0 or 1.
pub trait AsChoice: Copy {
    /// Whether the call is chosen.
    #[must_use]
    fn as_choice(self) -> bool;

    /// The value that says it.
    #[must_use]
    fn from_choice(chosen: bool) -> Self;
}

impl AsChoice for bool {
    #[inline(always)]
    fn as_choice(self) -> bool {
        self
    }

    #[inline(always)]
    fn from_choice(chosen: bool) -> bool {
        chosen
    }
}

impl AsChoice for u8 {
    #[inline(always)]
    fn as_choice(self) -> bool {
        self != 0
    }

    #[inline(always)]
    fn from_choice(chosen: bool) -> u8 {
        u8::from(chosen)
    }
}

/// How many of the calls have their second instruction below an offset.
fn calls_below<C: AsCall>(calls: &[C], offset: u64) -> usize {
    let bound = offset.saturating_sub(4);
    calls.partition_point(|call| call.as_call().0 < bound)
}

/// How many calls are chosen from an index up to another.
fn count_between<A: AsChoice>(answer: &[A], from: usize, to: usize) -> usize {
    let mut count = 0;
    for choice in &answer[from..to] {
        count += usize::from(choice.as_choice());
    }
    count
}

/// How many runs of calls are counted.
const RUNS: usize = 1024;

/// How many calls are chosen in each run of `len` calls, from the first call on. The run in which
/// the calls end is shorter, and those after it are empty.
struct Runs {
    len: usize,
    counts: [usize; RUNS],
}

impl Runs {
    /// The counts of a choice.
    fn of<A: AsChoice>(answer: &[A]) -> Runs {
        let len = answer.len() / RUNS + 1;
        let mut counts = [0; RUNS];
        let mut start = 0;
        for run in 0..RUNS {
            let end = start + len.min(answer.len() - start);
            counts[run] = count_between(answer, start, end);
            start = end;
        }
        Runs { len, counts }
    }

    /// How many calls are chosen from an index up to another: whole runs are not counted anew.
    fn count_between<A: AsChoice>(&self, answer: &[A], from: usize, to: usize) -> usize {
        let first = from / self.len + 1;
        let last = to / self.len;
        if last <= first {
            return count_between(answer, from, to);
        }
        let mut count = count_between(answer, from, first * self.len);
        for run in first..last {
            count += self.counts[run];
        }
        count + count_between(answer, last * self.len, to)
    }

    /// Drops the call at an index, which is chosen, from the choice.
    fn drop_call<A: AsChoice>(&mut self, answer: &mut [A], index: usize) {
        answer[index] = A::from_choice(false);
        self.counts[index / self.len] -= 1;
    }
}

/// Whether a `jal` at an output offset reaches another.
fn reaches(from: u64, to: u64) -> bool {
    let distance = to.wrapping_sub(from) as i64;
    (from <= to) == (distance >= 0) && test_distance(distance).is_ok()
}

/// Whether a `jal` from the output offset of a call's site to that of its target reaches, once so
/// many calls between the two have lost four bytes each. The site is that of the call at an
/// index, and the calls before `split` lie below the target.
fn reaches_over(from: u64, to: u64, index: usize, split: usize, count: usize) -> bool {
    let freed = (count as u64).saturating_mul(4);
    if index <= split {
        reaches(from, to.saturating_sub(freed))
    } else {
        reaches(from.saturating_sub(freed), to)
    }
}

/// Whether the call at an index is in reach once the chosen calls have lost their bytes. They are
/// counted only where the call is out of reach with none of them and in reach with all.
fn is_in_reach<C: AsCall, A: AsChoice>(
    deltas: &[RelaxDelta],
    calls: &[C],
    answer: &[A],
    runs: &Runs,
    index: usize,
) -> bool {
    let (site, target) = calls[index].as_call();
    let deltas = DeltaSlice::new(deltas);
    let from = deltas.input_to_output_offset(site);
    let to = deltas.input_to_output_offset(target);
    if reaches(from, to) {
        return true;
    }
    let split = calls_below(calls, target);
    if !reaches_over(from, to, index, split, index.abs_diff(split)) {
        return false;
    }
    let (first, end) = (index.min(split), index.max(split));
    let count = runs.count_between(answer, first, end);
    reaches_over(from, to, index, split, count)
}

/// Drops from the choice each call that is out of reach, one after the other, up from the first
/// call or down from the last. Whether one was dropped.
fn sweep<C: AsCall, A: AsChoice>(
    deltas: &[RelaxDelta],
    calls: &[C],
    answer: &mut [A],
    runs: &mut Runs,
    down: bool,
) -> bool {
    let mut dropped = false;
    for turn in 0..calls.len() {
        let index = if down { calls.len() - 1 - turn } else { turn };
        if answer[index].as_choice() && !is_in_reach(deltas, calls, answer, runs, index) {
            runs.drop_call(answer, index);
            dropped = true;
        }
    }
    dropped
}

/// Chooses all calls.
fn choose_all<A: AsChoice>(answer: &mut [A]) {
    for choice in answer.iter_mut() {
        *choice = A::from_choice(true);
    }
}

/// Whether a call's eight bytes are kept, and the four that it loses may be deleted.
fn is_shrinkable_site(deltas: &[RelaxDelta], site: u64) -> bool {
    let deltas = DeltaSlice::new(deltas);
    site <= u64::MAX - 8
        && deltas.kept_output_offset(site, 8).is_some()
        && deltas.can_merge(&[(site + 4, 4)])
}

/// Whether the site of the call at an index is at least 8 above the one before it, if there is one.
fn is_apart<C: AsCall>(calls: &[C], index: usize) -> bool {
    let Some(before) = index.checked_sub(1) else {
        return true;
    };
    let (site, _) = calls[index].as_call();
    let (site_before, _) = calls[before].as_call();
    site.saturating_sub(site_before) >= 8
}

/// How many of the first calls may be shrunk as far as their sites go.
fn shrinkable_sites_len<C: AsCall>(deltas: &[RelaxDelta], calls: &[C]) -> usize {
    for index in 0..calls.len() {
        let (site, _) = calls[index].as_call();
        if !is_apart(calls, index) || !is_shrinkable_site(deltas, site) {
            return index;
        }
    }
    calls.len()
}

/// The index of the call with an offset strictly inside the four bytes that it loses, if there
/// is one.
fn call_around<C: AsCall>(calls: &[C], offset: u64) -> Option<usize> {
    let Some(last) = calls_below(calls, offset).checked_sub(1) else {
        return None;
    };
    let (site, _) = calls[last].as_call();
    if offset.wrapping_sub(site) < 8 {
        Some(last)
    } else {
        None
    }
}

/// How many of the first calls have no target strictly inside what one of them deletes.
fn shrinkable_targets_len<C: AsCall>(calls: &[C]) -> usize {
    let mut first = calls.len();
    for index in 0..calls.len() {
        let (_, target) = calls[index].as_call();
        if let Some(other) = call_around(calls, target) {
            first = first.min(index.max(other));
        }
    }
    first
}

/// The index of the first call that can't be shrunk with those before it: its site is less than 8
/// above the site before it, one of its eight bytes is deleted, the deletion of the last four can't
/// be merged, or one of these calls has a target strictly inside what another, or itself, deletes.
/// None where [`shrink_calls`](crate::relaxation::shrink_calls()) accepts the calls.
///
/// It doesn't allocate. For k calls and n deltas the work is O(k log n + k log k).
#[must_use]
pub fn first_not_shrinkable<C: AsCall>(deltas: &[RelaxDelta], calls: &[C]) -> Option<usize> {
    let sites = shrinkable_sites_len(deltas, calls);
    let first = shrinkable_targets_len(&calls[..sites]);
    if first < calls.len() {
        Some(first)
    } else {
        None
    }
}

/// Whether [`shrink_calls`](crate::relaxation::shrink_calls()) accepts the calls: their sites ascend by at least 8, the eight bytes at
/// each site are kept, the four bytes after each call's first instruction may be deleted all
/// together, and no target is strictly inside four such bytes.
#[must_use]
pub fn calls_shrinkable(deltas: &SectionRelaxDeltas, calls: &[(u64, u64)]) -> bool {
    first_not_shrinkable(deltas.deltas(), calls).is_none()
}

/// [`shrink_calls`](crate::relaxation::shrink_calls()) into memory of the caller's: an element for each call, `true` or 1 where it is
/// chosen, and else `false` or 0.
///
/// Requires calls that [`first_not_shrinkable`](crate::relaxation::first_not_shrinkable()) accepts, and as many elements as calls. The deltas
/// are as [`SectionRelaxDeltas::deltas`](crate::relaxation::SectionRelaxDeltas::deltas) lists them ([`DeltaSlice::has_valid_deltas`](crate::relaxation::DeltaSlice::has_valid_deltas)). With others the
/// call is safe, but what it writes isn't specified. It takes 9 KiB of the stack.
///
/// All calls are chosen at first. Sweeps over them, up and down in turn, drop those out of reach
/// until one sweep drops none. Their order doesn't matter, since more deletions never take a call
/// out of reach. Where each drop takes the next call above out of reach, or each the next one
/// below, three sweeps do. A chain that turns around n times may take n sweeps. For k calls and n
/// deltas a test of a call takes O(log n + log k + k / 1024): the chosen calls between a site and
/// its target are counted by runs of k / 1024 calls, and only where the call is in reach with all
/// of them and out of reach with none.
///
/// # Requires
///
/// - one_each: `answer.len() == calls.len()`
/// - shrinkable: `!DeltaSlice::new(deltas).has_valid_deltas() || first_not_shrinkable(deltas, calls).is_none()`
#[cfg_attr(debug_assertions, track_caller)]
pub fn shrink_calls_into<C: AsCall, A: AsChoice>(
    deltas: &[RelaxDelta],
    calls: &[C],
    answer: &mut [A],
) {
    debug_assert!(answer.len() == calls.len());
    debug_assert!(!DeltaSlice::new(deltas).has_valid_deltas() || first_not_shrinkable(deltas, calls).is_none());
    choose_all(answer);
    let mut runs = Runs::of(answer);
    let mut down = false;
    while sweep(deltas, calls, answer, &mut runs, down) {
        down = !down;
    }
}

/// Which calls can become jumps at once: for each call whether it is chosen, so that the four bytes
/// after its first instruction go (RISC-V ELF psABI, "Function Call Relaxation").
///
/// A choice of calls is in reach where, once each of them has lost its four bytes and the
/// deltas' bytes are gone too, the distance from each one's site to its target is even and in the
/// range of `jal`. The choice that is returned is the greatest: each choice in reach is part of it.
/// So it deletes the most bytes, and once its deletions (site + 4, 4) are merged, [`pack_section`](crate::relaxation::pack_section())
/// rejects none of its calls for its distance (`shrunk_calls_are_accepted`).
///
/// Requires calls that [`calls_shrinkable`](crate::relaxation::calls_shrinkable()) accepts. It allocates once, for what it returns, before
/// anything else. [`shrink_calls_into`](crate::relaxation::shrink_calls_into()) says how long it takes. [`relax`](crate::runs::relax()) of a run, which knows of
/// alignments and of other sites, is the call for a linker.
///
/// # Requires
///
/// - `calls_shrinkable(deltas, calls)`
#[cfg_attr(debug_assertions, track_caller)]
pub fn shrink_calls(
    deltas: &SectionRelaxDeltas,
    calls: &[(u64, u64)],
) -> Result<Vec<bool>, OutOfMemory> {
    debug_assert!(calls_shrinkable(deltas, calls));
    let mut chosen = try_vec![false; calls.len()]?;
    shrink_calls_into(deltas.deltas(), calls, &mut chosen);
    Ok(chosen)
}

/// Once the four bytes of each chosen call of a choice in reach are deleted too, [`pack_section`](crate::relaxation::pack_section()) and
/// [`pack_into`](crate::relaxation::pack_into()) reject no chosen call with `OddDistance` or `TooFar`.
#[doc(hidden)]
pub fn shrunk_calls_are_accepted() {}
