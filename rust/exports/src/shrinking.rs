// SPDX-License-Identifier: MIT OR Apache-2.0
// Made by tools/generate of crates/linker_utils_c/src/shrinking.rt.
//! Which calls of a section can become jumps at once.

use crate::status::Status;
use linker_utils::relaxation::RelaxDelta;
use linker_utils::riscv64::{Call, first_not_shrinkable, shrink_calls_into};

/// Whether `linker_utils_shrink_calls` accepts the calls: their sites ascend by at least 8, the
/// eight bytes at each site are kept, the four bytes after each call's first instruction may be
/// deleted all together, and no target is strictly inside four such bytes. Else
/// `CallsNotShrinkable`, where `faulty` is the index of the first call that isn't accepted with
/// those before it.
pub fn linker_utils_calls_shrinkable_nonnull(
    deltas: &[RelaxDelta],
    calls: &[Call],
    faulty: &mut usize,
) -> u32 {
    match first_not_shrinkable(deltas, calls) {
        Some(index) => {
            *faulty = index;
            Status::CallsNotShrinkable as u32
        }
        None => Status::Success as u32,
    }
}

/// Writes for each call whether it is in the greatest choice of calls that can all become jumps at
/// once: a byte that is 1 or 0. A choice can where each of its calls reaches its target by `jal`
/// once the four bytes after the first instruction of each are deleted.
///
/// The first that applies of `DifferentLengths`, where `chosen` has not as many bytes as there are
/// calls; and `CallsNotShrinkable`, as `linker_utils_calls_shrinkable`. `chosen` is unchanged then.
pub fn linker_utils_shrink_calls_nonnull(
    deltas: &[RelaxDelta],
    calls: &[Call],
    chosen: &mut [u8],
    faulty: &mut usize,
) -> u32 {
    if chosen.len() != calls.len() {
        return Status::DifferentLengths as u32;
    }
    if let Some(index) = first_not_shrinkable(deltas, calls) {
        *faulty = index;
        return Status::CallsNotShrinkable as u32;
    }
    shrink_calls_into(deltas, calls, chosen);
    Status::Success as u32
}
