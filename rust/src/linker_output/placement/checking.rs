// SPDX-License-Identifier: MIT OR Apache-2.0
// Made by tools/generate of crates/linker_output/src/placement/checking.rt.
//! Whether stubs can be placed in code, and whether those that are placed reach their targets.

use super::laying::reaches;
use super::{Code, LIMIT, Layout, PlaceError};

/// Whether numbers are below 2^62.
fn are_low(numbers: &[u64]) -> bool {
    for number in numbers {
        if *number >= LIMIT {
            return false;
        }
    }
    true
}

/// The first index of a boundary that is above the next one.
fn first_descent(boundaries: &[u64]) -> Option<usize> {
    for index in 0..boundaries.len() {
        if index > 0 && boundaries[index] < boundaries[index - 1] {
            return Some(index - 1);
        }
    }
    None
}

impl Code<'_> {
    /// Whether the offsets of branches are below 2^62.
    fn has_low_branches(&self) -> bool {
        for branch in self.branches {
            if branch.offset >= LIMIT {
                return false;
            }
        }
        true
    }

    /// The first branch whose target isn't in the table.
    fn first_without_target(&self) -> Option<usize> {
        for (index, branch) in self.branches.iter().enumerate() {
            if branch.target >= self.targets.len() {
                return Some(index);
            }
        }
        None
    }

    /// Whether the bytes of all stubs that there may be are below 2^62.
    fn has_room(&self) -> bool {
        let stubs = (self.branches.len() as u64)
            .saturating_mul(2)
            .saturating_add(1);
        let bytes = self.shape.len.saturating_mul(stubs);
        let units = self.shape.unit.saturating_mul(self.boundaries.len() as u64);
        units.saturating_add(bytes) < LIMIT
    }

    /// Whether stubs can be placed in the code.
    pub(super) fn check(&self) -> Result<(), PlaceError> {
        if self.shape.len == 0 || self.shape.unit == 0 {
            return Err(PlaceError::NoLength);
        }
        if let Some(index) = first_descent(self.boundaries) {
            return Err(PlaceError::NotAscending(index));
        }
        if let Some(index) = self.first_without_target() {
            return Err(PlaceError::NoTarget(index));
        }
        if !self.has_low_branches()
            || !are_low(self.targets)
            || !are_low(self.boundaries)
            || !self.has_room()
        {
            return Err(PlaceError::TooLong);
        }
        Ok(())
    }
}

impl Layout {
    /// Whether a stub reaches its target.
    fn reaches(&self, code: &Code<'_>, index: usize) -> bool {
        let shape = code.shape;
        let stub = self.stubs[index];
        let target = code.moved(&self.before, code.targets[stub.target]);
        reaches(
            shape.max_backward,
            shape.max_forward,
            self.places[index],
            target,
        )
    }

    /// The first stub that doesn't reach its target.
    pub(super) fn first_short(&self, code: &Code<'_>) -> Option<usize> {
        for index in 0..self.stubs.len() {
            if !self.reaches(code, index) {
                return Some(index);
            }
        }
        None
    }
}
