// SPDX-License-Identifier: MIT OR Apache-2.0
// Made by tools/generate of crates/linker_output/src/placement/adding.rt.
//! Stubs that are added for branches, and those that branches share.

use crate::support::*;
use super::laying::passed;
use super::{Branch, Code, StubCounts, Part, State, StubAt, Way};
use crate::linker_base::relaxation::OutOfMemory;

impl StubCounts {
    /// How many stubs of a part there are.
    #[inline(always)]
    fn stubs_of(self, part: Part) -> u64 {
        match part {
            Part::Front => self.front,
            Part::Middle => self.middle,
            Part::Back => self.back,
        }
    }

    /// The same with one more.
    #[inline(always)]
    fn with_one(mut self, part: Part) -> StubCounts {
        match part {
            Part::Front => self.front += 1,
            Part::Middle => self.middle += 1,
            Part::Back => self.back += 1,
        }
        self
    }
}

impl StubAt {
    /// Whether it is of a target in a part of a boundary.
    #[inline(always)]
    fn is_at(&self, boundary: usize, part: Part, target: usize) -> bool {
        self.boundary == boundary && self.target == target && self.part == part
    }
}

impl Part {
    /// By what a branch goes for which there is a new stub of the part.
    #[inline(always)]
    fn way(self, stub: usize) -> Way {
        match self {
            Part::Middle => Way::Far(stub),
            Part::Front | Part::Back => Way::Near(stub),
        }
    }
}

/// What the indexes of boundaries are multiplied by, a prime, so that stubs are spread over the
/// lists.
const SPREAD: usize = 0x9e37_79b1;

/// In which of the lists the stubs of a target at a boundary are.
#[inline(always)]
fn list_of(lists: usize, boundary: usize, target: usize) -> usize {
    (boundary % SPREAD * SPREAD + target % SPREAD) % lists
}

impl State {
    /// The stub of a target in a part of a boundary.
    fn find(&self, code: &Code<'_>, boundary: usize, part: Part, target: usize) -> Option<usize> {
        let list = list_of(self.heads.len(), boundary, target);
        let mut above = self.heads[list];
        while above > 0 {
            let index = above - 1;
            if self.stubs[index].is_at(boundary, part, target) {
                return Some(index);
            }
            above = self.nexts[index];
        }
        None
    }

    /// Adds a stub for a branch, and has the branch go by it.
    fn add(
        &mut self,
        code: &Code<'_>,
        index: usize,
        boundary: usize,
        part: Part,
    ) -> Result<(), OutOfMemory> {
        let target = code.branches[index].target;
        let stub = self.stubs.len();
        let group = self.groups[boundary];
        let list = list_of(self.heads.len(), boundary, target);
        self.stubs.fallible_push(StubAt {
            boundary,
            part,
            index: group.stubs_of(part),
            target,
        })?;
        self.nexts.fallible_push(self.heads[list])?;
        self.heads[list] = stub + 1;
        self.groups[boundary] = group.with_one(part);
        self.ways[index] = part.way(stub);
        self.last[target] = stub;
        Ok(())
    }

    /// Has a branch go by a stub that there is.
    fn take(&mut self, code: &Code<'_>, index: usize, way: Way) {
        self.ways[index] = way;
    }

    /// Whether a branch reaches a stub by a layout.
    fn reaches_stub(
        &self,
        code: &Code<'_>,
        before: &[u64],
        places: &[u64],
        branch: &Branch,
        stub: usize,
    ) -> bool {
        // one that this sweep added has no place yet
        let place = if stub < places.len() {
            places[stub]
        } else {
            let boundary = self.stubs[stub].boundary;
            code.boundaries[boundary] + before[boundary]
        };
        code.reaches_at(before, branch, place)
    }

    /// A stub of a branch's target that the branch reaches by a layout: that which was used last.
    fn shared(
        &self,
        code: &Code<'_>,
        before: &[u64],
        places: &[u64],
        branch: &Branch,
    ) -> Option<usize> {
        let stub = self.last[branch.target];
        if stub < self.stubs.len()
            && self.stubs[stub].target == branch.target
            && self.reaches_stub(code, before, places, branch, stub)
        {
            Some(stub)
        } else {
            None
        }
    }

    /// A boundary ahead of a branch within half of its reach, beyond the next one.
    fn far_boundary(&self, code: &Code<'_>, branch: &Branch) -> Option<usize> {
        let half = branch.max_forward / 2;
        let following = passed(code.boundaries, branch.offset.saturating_add(half));
        let ahead = passed(code.boundaries, branch.offset);
        if following > ahead && following - ahead > 1 {
            Some(following - 1)
        } else {
            None
        }
    }

    /// Has a branch that went to its target go by a stub that it can share with branches farther
    /// away, if there is one in its reach or can be.
    fn go_far(
        &mut self,
        code: &Code<'_>,
        before: &[u64],
        places: &[u64],
        index: usize,
    ) -> Result<bool, OutOfMemory> {
        let Way::Direct = self.ways[index] else {
            return Ok(false);
        };
        let branch = code.branches[index];
        if let Some(stub) = self.shared(code, before, places, &branch) {
            self.take(code, index, Way::Far(stub));
            return Ok(true);
        }
        let Some(boundary) = self.far_boundary(code, &branch) else {
            return Ok(false);
        };
        match self.find(code, boundary, Part::Middle, branch.target) {
            Some(stub) => {
                let is_reached = self.reaches_stub(code, before, places, &branch, stub);
                if !is_reached {
                    return Ok(false);
                }
                self.take(code, index, Way::Far(stub));
                Ok(true)
            }
            None => {
                if !self.may_share {
                    return Ok(false);
                }
                self.add(code, index, boundary, Part::Middle)?;
                Ok(true)
            }
        }
    }

    /// Whether a stub is next to a branch and in its reach.
    fn is_near(&self, code: &Code<'_>, branch: &Branch, stub: usize) -> bool {
        code.is_near(branch, &self.stubs[stub])
    }

    /// The stub that a branch would get in a part of a boundary.
    fn new_stub(&self, code: &Code<'_>, branch: &Branch, boundary: usize, part: Part) -> StubAt {
        let group = self.groups[boundary];
        StubAt {
            boundary,
            part,
            index: group.stubs_of(part),
            target: branch.target,
        }
    }

    /// Has a branch go by the stub of its target in a part of a boundary next to it, if there is
    /// such a boundary, or by a new one, if that is in reach.
    fn go_to(
        &mut self,
        code: &Code<'_>,
        index: usize,
        boundary: usize,
        part: Part,
    ) -> Result<bool, OutOfMemory> {
        if boundary >= code.boundaries.len() {
            return Ok(false);
        }
        let branch = code.branches[index];
        match self.find(code, boundary, part, branch.target) {
            Some(stub) => {
                let is_near = self.is_near(code, &branch, stub);
                if !is_near {
                    return Ok(false);
                }
                self.take(code, index, Way::Near(stub));
                Ok(true)
            }
            None => {
                let new = self.new_stub(code, &branch, boundary, part);
                let fits = code.is_near(&branch, &new);
                if !fits {
                    return Ok(false);
                }
                self.add(code, index, boundary, part)?;
                Ok(true)
            }
        }
    }

    /// Has a branch that is lost go by another stub, if one can be in its reach.
    pub(super) fn raise(
        &mut self,
        code: &Code<'_>,
        before: &[u64],
        places: &[u64],
        index: usize,
    ) -> Result<bool, OutOfMemory> {
        if self.go_far(code, before, places, index)? {
            return Ok(true);
        }
        let ahead = passed(code.boundaries, code.branches[index].offset);
        if self.go_to(code, index, ahead, Part::Front)? {
            return Ok(true);
        }
        if ahead == 0 {
            return Ok(false);
        }
        self.go_to(code, index, ahead - 1, Part::Back)
    }

    /// Notes the stub by which a branch goes as the last one of its target.
    pub(super) fn note(&mut self, code: &Code<'_>, index: usize) {
        match self.ways[index] {
            Way::Direct => {}
            Way::Far(stub) => self.last[code.branches[index].target] = stub,
            Way::Near(stub) => self.last[code.branches[index].target] = stub,
        }
    }
}
