// SPDX-License-Identifier: MIT OR Apache-2.0
// Made by tools/generate of crates/linker_base/src/relaxation/laws.rt.
//! Laws of deletions: each function does nothing, and its contract is a law.

/// Back to the output: the input offset of an output offset `y` isn't strictly inside a deletion,
/// and its output offset is `y`.
pub fn in_after_out_returns() {}

/// Back to the input: the input offset of the output offset of `i` is the first kept position at
/// or after `i`, where `i` lies inside a deletion too. So it is `i` where `i` is kept, and then it
/// is always there.
pub fn out_after_in_returns() {}

/// Of two input offsets the later one has no lower output offset.
pub fn output_offsets_never_decrease() {}

/// Two batches of deletions may be merged in either order, and also at once: where one order is
/// allowed so are the other and both at once, and the lists that are left are equal.
pub fn merge_order_is_free() {}

/// A cursor translates queries that don't decrease as each by itself is translated.
pub fn cursor_gives_ranks() {}

/// More deletions never increase a distance: a branch within range of its target remains so under
/// every merge.
pub fn merges_shorten_distances() {}

/// What [`RelaxDeltaMap::get_mut`](crate::relaxation::RelaxDeltaMap::get_mut) lends is of one section: those of the others are as before when it
/// is handed back.
pub fn other_sections_stay() {}
