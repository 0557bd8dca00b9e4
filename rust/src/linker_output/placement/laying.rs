// SPDX-License-Identifier: MIT OR Apache-2.0
// Made by tools/generate of crates/linker_output/src/placement/laying.rt.
//! Where stubs are, and what branches reach, by how many stubs there are at each boundary.

use super::{Branch, Code, StubCounts, Part, StubAt, StubShape, Way};

/// Whether a target is in reach.
#[inline(always)]
pub(super) fn reaches(max_backward: u64, max_forward: u64, from: u64, to: u64) -> bool {
    if from <= to {
        to - from < max_forward
    } else {
        from - to <= max_backward
    }
}

/// How many boundaries are at or below an offset.
pub(super) fn passed(boundaries: &[u64], offset: u64) -> usize {
    let mut low = 0;
    let mut high = boundaries.len();
    while low < high {
        let middle = low + (high - low) / 2;
        if boundaries[middle] <= offset {
            low = middle + 1;
        } else {
            high = middle;
        }
    }
    low
}

impl StubShape {
    /// How many bytes the stubs at a boundary take.
    #[inline(always)]
    fn size_of(&self, group: StubCounts) -> u64 {
        let stubs = group.front + group.middle + group.back;
        let bytes = self.len * stubs;
        bytes + (self.unit - bytes % self.unit) % self.unit
    }
}

/// How many bytes of stubs there are before those at each boundary, and at the end how many in all.
pub(super) fn lay_out(shape: &StubShape, groups: &[StubCounts], before: &mut [u64]) {
    let mut bytes = 0;
    for index in 0..groups.len() {
        before[index] = bytes;
        bytes += shape.size_of(groups[index]);
    }
    before[groups.len()] = bytes;
}

impl Code<'_> {
    /// Where what was at an offset is.
    #[inline(always)]
    pub(super) fn moved(&self, before: &[u64], offset: u64) -> u64 {
        offset + before[passed(self.boundaries, offset)]
    }

    /// Where a stub is.
    pub(super) fn place_of(&self, groups: &[StubCounts], before: &[u64], stub: &StubAt) -> u64 {
        let start = self.boundaries[stub.boundary] + before[stub.boundary];
        let group = groups[stub.boundary];
        match stub.part {
            Part::Front => start + self.shape.len * stub.index,
            Part::Middle => start + self.shape.len * (group.front + stub.index),
            Part::Back => {
                let end = self.boundaries[stub.boundary] + before[stub.boundary + 1];
                end - self.shape.len * (stub.index + 1)
            }
        }
    }

    /// Whether a stub at the boundary next to a branch is in its reach.
    pub(super) fn is_near(&self, branch: &Branch, stub: &StubAt) -> bool {
        let ahead = passed(self.boundaries, branch.offset);
        let boundary = self.boundaries[stub.boundary];
        match stub.part {
            Part::Front => {
                stub.boundary == ahead
                    && reaches(
                        branch.max_backward,
                        branch.max_forward,
                        branch.offset,
                        boundary + self.shape.len * stub.index,
                    )
            }
            Part::Middle => false,
            Part::Back => {
                stub.boundary + 1 == ahead
                    && reaches(
                        branch.max_backward,
                        branch.max_forward,
                        branch.offset + self.shape.len * (stub.index + 1),
                        boundary,
                    )
            }
        }
    }

    /// Whether a branch reaches an address by a layout.
    pub(super) fn reaches_at(&self, before: &[u64], branch: &Branch, place: u64) -> bool {
        let from = self.moved(before, branch.offset);
        reaches(branch.max_backward, branch.max_forward, from, place)
    }

    /// Whether a branch reaches neither its target nor the stub by which it goes, if that has a
    /// place.
    pub(super) fn is_lost(&self, before: &[u64], places: &[u64], branch: &Branch, way: Way) -> bool {
        let target = self.moved(before, self.targets[branch.target]);
        if self.reaches_at(before, branch, target) {
            return false;
        }
        match way {
            Way::Direct => true,
            Way::Far(stub) | Way::Near(stub) => {
                stub < places.len() && !self.reaches_at(before, branch, places[stub])
            }
        }
    }

    /// How many bytes all stubs take that there may be.
    fn most_bytes(&self) -> u64 {
        let stubs = 2 * self.branches.len() as u64 + 1;
        self.shape.unit * self.boundaries.len() as u64 + self.shape.len * stubs
    }

    /// Whether a branch reaches its target also with the bytes of all stubs in between.
    pub(super) fn has_spare(&self, branch: &Branch) -> bool {
        let target = self.targets[branch.target];
        let most = self.most_bytes();
        target + most < branch.offset.saturating_add(branch.max_forward)
            && branch.offset + most <= target.saturating_add(branch.max_backward)
    }
}
