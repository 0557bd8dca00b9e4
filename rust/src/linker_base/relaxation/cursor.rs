// SPDX-License-Identifier: MIT OR Apache-2.0
// Made by tools/generate of crates/linker_base/src/relaxation/cursor.rt.
//! The cursor that translates offsets in one walk through the deletions.

use super::RelaxDelta;
use super::delta_slice::DeltaSlice;
use super::walk::Reached;

/// A walk through the deletions of a section, for offsets that are translated in order.
///
/// A query passes the deltas at offsets strictly below it, and none is passed again: over a whole
/// walk the cost is O(n + q) for n deltas and q queries.
#[derive(Debug, Clone)]
pub struct RelaxCursor<'a> {
    deltas: &'a [RelaxDelta],
    reached: Reached<'a>,
}

impl<'a> RelaxCursor<'a> {
    // A cursor before the first of the deltas.
    pub(super) fn new(deltas: &'a [RelaxDelta]) -> RelaxCursor<'a> {
        RelaxCursor {
            deltas,
            reached: Reached::new(deltas),
        }
    }

    /// The output offset of `input_offset`, as [`SectionRelaxDeltas::input_to_output_offset`](crate::relaxation::SectionRelaxDeltas::input_to_output_offset) returns
    /// it, where all deltas that were passed before begin strictly below it. Of a lower offset, a
    /// step back, it is `input_offset` less the bytes of all passed deltas.
    ///
    /// Requires that a step back is at least these bytes, as `can_translate` tests.
    ///
    /// # Requires
    ///
    /// - `self.can_translate(input_offset)`
    #[cfg_attr(debug_assertions, track_caller)]
    #[inline]
    pub fn translate(&mut self, input_offset: u64) -> u64 {
        debug_assert!(self.can_translate(input_offset));
        if self.reached.next < input_offset {
            // no step back: what was passed before begins below what is passed now
            self.reached.pass(input_offset);
            return input_offset.max(self.reached.end) - self.reached.deleted;
        }
        if input_offset < self.reached.end && self.is_ahead(input_offset) {
            return self.reached.end - self.reached.deleted;
        }
        input_offset - self.reached.deleted
    }

    /// Whether `input_offset` may be given to `translate`.
    #[must_use]
    #[inline]
    pub fn can_translate(&self, input_offset: u64) -> bool {
        self.is_ahead(input_offset) || self.reached.deleted <= input_offset
    }

    /// Writes the output offset of each of the queries, in order, at its index in `out`.
    ///
    /// Requires `out` as long as `queries`, queries that don't decrease, and that each delta
    /// already passed begins strictly below the first query, as `can_translate_all` tests except
    /// for the lengths. One pass takes O(n + q).
    ///
    /// # Requires
    ///
    /// - same_length: `queries.len() == out.len()`
    /// - ahead: `self.can_translate_all(queries)`
    #[cfg_attr(debug_assertions, track_caller)]
    pub fn translate_all(&mut self, queries: &[u64], out: &mut [u64]) {
        debug_assert!(queries.len() == out.len());
        debug_assert!(self.can_translate_all(queries));
        self.reached.walk(queries, out);
    }

    /// Whether the queries may be given to `translate_all`, with as long an `out`.
    #[must_use]
    pub fn can_translate_all(&self, queries: &[u64]) -> bool {
        DeltaSlice::can_translate_all(queries) && (queries.is_empty() || self.is_ahead(queries[0]))
    }

    /// How many deltas were passed since the cursor was made: the turns of the loop that passes
    /// them.
    #[must_use]
    pub fn turns(&self) -> usize {
        self.deltas.len() - self.reached.rest.as_slice().len()
    }

    // Whether all deltas that are passed begin strictly below the offset: the last one decides, and
    // its end where the offset lies past that.
    #[inline]
    fn is_ahead(&self, input_offset: u64) -> bool {
        if self.reached.end < input_offset {
            return true;
        }
        match self.turns().checked_sub(1) {
            Some(last) => self.deltas[last].input_offset < input_offset,
            None => true,
        }
    }
}
