// SPDX-License-Identifier: MIT OR Apache-2.0
// Made by tools/generate of crates/linker_utils_c/src/placement.rt.
//! Places of stubs, in arrays of the caller's.

use crate::status::Status;
use linker_utils::source::placement::{Branch, Code, Layout, PlaceError, StubShape, place_stubs};

/// A stub that is placed.
#[repr(C)]
#[derive(Clone, Copy)]
pub struct PlacedStub {
    /// Where it is.
    pub place: u64,
    /// The index of the boundary at which it stands.
    pub boundary: usize,
    /// The index of its target.
    pub target: usize,
}

/// How many stubs there are at most for n branches: two for each, or the largest number if
/// those are more.
pub fn linker_utils_most_stubs(branches_len: usize) -> usize {
    branches_len.saturating_mul(2)
}

/// Writes the stubs of a layout to the beginning of an array.
fn put_stubs(layout: &Layout, stubs: &mut [PlacedStub]) {
    for index in 0..layout.stubs.len() {
        let stub = layout.stubs[index];
        stubs[index] = PlacedStub {
            place: layout.places[index],
            boundary: stub.boundary,
            target: stub.target,
        };
    }
}

/// The number of the stub that a branch goes by.
#[inline(always)]
fn way_number(stub: Option<usize>) -> usize {
    match stub {
        Some(stub) => stub,
        None => usize::MAX,
    }
}

/// Writes the stub that each branch goes by.
fn put_ways(stubs: &[Option<usize>], ways: &mut [usize]) {
    for index in 0..stubs.len() {
        ways[index] = way_number(stubs[index]);
    }
}

/// Why no stubs are placed.
fn place_status(error: &PlaceError) -> u32 {
    match error {
        PlaceError::OutOfMemory => Status::OutOfMemory as u32,
        PlaceError::NoLength => Status::StubWithoutLength as u32,
        PlaceError::NotAscending(_) => Status::NotAscending as u32,
        PlaceError::NoTarget(_) => Status::NoTarget as u32,
        PlaceError::TooLong => Status::CodeTooLong as u32,
        PlaceError::NoBoundary(_, _) => Status::NoBoundary as u32,
        PlaceError::StubTooFar(_, _) => Status::StubTooFar as u32,
    }
}

/// Writes the index at fault, if there is one.
fn put_faulty(error: &PlaceError, faulty: &mut usize) {
    match error {
        PlaceError::NotAscending(index) => *faulty = *index,
        PlaceError::NoTarget(index) => *faulty = *index,
        PlaceError::NoBoundary(index, _) => *faulty = *index,
        PlaceError::StubTooFar(index, layout) => *faulty = layout.stubs[*index].target,
        PlaceError::OutOfMemory | PlaceError::NoLength | PlaceError::TooLong => {}
    }
}

/// Places stubs in code, where the arrays have their lengths.
fn place(
    code: &Code<'_>,
    stubs: &mut [PlacedStub],
    stubs_used: &mut usize,
    ways: &mut [usize],
    before: &mut [u64],
    faulty: &mut usize,
) -> u32 {
    match place_stubs(code) {
        Ok(placement) => {
            put_stubs(&placement.layout, stubs);
            put_ways(&placement.stubs, ways);
            before.copy_from_slice(&placement.layout.before);
            *stubs_used = placement.layout.stubs.len();
            Status::Success as u32
        }
        Err(error) => {
            put_faulty(&error, faulty);
            place_status(&error)
        }
    }
}

/// Whether arrays have the lengths that a call takes.
#[inline(always)]
fn have_lengths(branches: usize, boundaries: usize, ways: usize, before: usize) -> bool {
    ways == branches && before > 0 && before - 1 == boundaries
}

/// Whether there are fewer elements than two for each branch.
#[inline(always)]
fn is_short(stubs: usize, branches: usize) -> bool {
    stubs / 2 < branches
}

/// Places stubs at boundaries, as `place_stubs`: writes them to the beginning of `stubs` and how
/// many there are to `stubs_used`; for each branch the index of the stub that it goes by, or the
/// largest number; and for each boundary, and the end, how many bytes of stubs there are before
/// those at it.
///
/// The first that applies of `DifferentLengths`, where `ways` has not an element for each branch,
/// or `before` not one more than there are boundaries; `ShortMemory`, where `stubs` has fewer
/// elements than `linker_utils_most_stubs` says; and the errors of `place_stubs`, with the index at
/// fault in `faulty`: of a boundary, a branch or, where a stub doesn't reach it, a target. Nothing
/// else is written then.
pub fn linker_utils_place_stubs_nonnull(
    branches: &[Branch],
    targets: &[u64],
    boundaries: &[u64],
    shape: &StubShape,
    stubs: &mut [PlacedStub],
    stubs_used: &mut usize,
    ways: &mut [usize],
    before: &mut [u64],
    faulty: &mut usize,
) -> u32 {
    if !have_lengths(branches.len(), boundaries.len(), ways.len(), before.len()) {
        return Status::DifferentLengths as u32;
    }
    if is_short(stubs.len(), branches.len()) {
        return Status::ShortMemory as u32;
    }
    let code = Code {
        branches,
        targets,
        boundaries,
        shape: *shape,
    };
    place(&code, stubs, stubs_used, ways, before, faulty)
}
