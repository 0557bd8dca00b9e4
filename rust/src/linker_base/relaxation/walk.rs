// SPDX-License-Identifier: MIT OR Apache-2.0
// Made by tools/generate of crates/linker_base/src/relaxation/walk.rt.
//! A walk through deltas, for offsets that don't decrease.

use super::RelaxDelta;
use core::slice::Iter;

// How far a walk has come.
#[derive(Debug, Clone)]
pub(super) struct Reached<'a> {
    // The deltas that it hasn't passed.
    pub rest: Iter<'a, RelaxDelta>,
    // Where the first of them begins, or `u64::MAX` where there is none.
    pub next: u64,
    // The bytes of those that it has passed.
    pub deleted: u64,
    // Where the last of these ends.
    pub end: u64,
}

// Where the first of some deltas begins, or `u64::MAX` where there is none.
#[inline(always)]
fn first_offset(deltas: &[RelaxDelta]) -> u64 {
    match deltas.first() {
        Some(delta) => delta.input_offset,
        None => u64::MAX,
    }
}

impl<'a> Reached<'a> {
    // Before the first of the deltas.
    #[inline]
    pub(super) fn new(deltas: &'a [RelaxDelta]) -> Reached<'a> {
        Reached {
            rest: deltas.iter(),
            next: first_offset(deltas),
            deleted: 0,
            end: 0,
        }
    }

    // Passes the deltas that begin strictly below the offset.
    #[inline]
    pub(super) fn pass(&mut self, offset: u64) {
        while self.next < offset {
            let Some(delta) = self.rest.next() else {
                break;
            };
            self.deleted = delta.cumulative_deleted;
            self.end = self.next.wrapping_add(u64::from(delta.bytes_deleted));
            self.next = first_offset(self.rest.as_slice());
        }
    }

    // Passes deltas for each query, and writes its output offset.
    #[inline]
    pub(super) fn walk(&mut self, queries: &[u64], out: &mut [u64]) {
        for (at, &query) in queries.iter().enumerate() {
            self.pass(query);
            out[at] = query.max(self.end).wrapping_sub(self.deleted);
        }
    }
}
