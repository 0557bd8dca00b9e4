// SPDX-License-Identifier: MIT OR Apache-2.0
// Made by tools/generate of crates/linker_output/src/placement/sweeping.rt.
//! Stubs are added until each branch reaches what it goes by.

use alloc::vec::Vec;
use crate::support::*;
use super::laying::lay_out;
use super::{Code, MOST_PASSES, State, Sweep, Visit, Way};
use crate::linker_base::relaxation::OutOfMemory;

impl State {
    /// Has a branch that is lost by a layout go by another stub. If it is `late`, also one that may
    /// be lost by the stubs to come.
    fn visit(
        &mut self,
        code: &Code<'_>,
        before: &[u64],
        places: &[u64],
        late: bool,
        index: usize,
    ) -> Result<Visit, OutOfMemory> {
        let branch = code.branches[index];
        let way = self.ways[index];
        let lost = code.is_lost(before, places, &branch, way);
        if let Way::Near(_) = way {
            self.note(code, index);
            return Ok(Visit::Served);
        }
        if lost {
            if self.raise(code, before, places, index)? {
                return Ok(Visit::Raised);
            }
            return Ok(Visit::Lost);
        }
        if late && !code.has_spare(&branch) {
            if self.raise(code, before, places, index)? {
                return Ok(Visit::Raised);
            }
        }
        self.note(code, index);
        Ok(Visit::Served)
    }

    /// Has the branches that are lost by a layout go by other stubs. If it is `late`, also those
    /// that may be lost by the stubs to come.
    fn sweep(
        &mut self,
        code: &Code<'_>,
        before: &[u64],
        places: &[u64],
        late: bool,
    ) -> Result<Sweep, OutOfMemory> {
        let mut changed = false;
        for index in 0..code.branches.len() {
            match self.visit(code, before, places, late, index)? {
                Visit::Served => {}
                Visit::Raised => changed = true,
                Visit::Lost => {
                    if !changed {
                        return Ok(Sweep::Stuck(index));
                    }
                }
            }
        }
        if changed {
            Ok(Sweep::Changed)
        } else {
            Ok(Sweep::Settled)
        }
    }

    /// Where each stub is.
    fn find_places(
        &self,
        code: &Code<'_>,
        before: &[u64],
        places: &mut Vec<u64>,
    ) -> Result<(), OutOfMemory> {
        places.clear();
        for stub in &self.stubs {
            places.fallible_push(code.place_of(&self.groups, before, stub))?;
        }
        Ok(())
    }

    /// Adds stubs until each branch reaches what it goes by. After `MOST_PASSES` passes also those
    /// go by other stubs that may be lost by the stubs to come, so that there are few further
    /// passes. It returns none, or the index of a branch that reaches nothing and no boundary.
    pub(super) fn settle(
        &mut self,
        code: &Code<'_>,
        before: &mut [u64],
        places: &mut Vec<u64>,
    ) -> Result<Option<usize>, OutOfMemory> {
        let mut passes = 0;
        loop {
            lay_out(&code.shape, &self.groups, before);
            self.find_places(code, before, places)?;
            let late = if passes < MOST_PASSES {
                passes += 1;
                false
            } else {
                true
            };
            match self.sweep(code, before, places, late)? {
                Sweep::Settled => return Ok(None),
                Sweep::Stuck(index) => return Ok(Some(index)),
                Sweep::Changed => {}
            }
        }
    }
}
