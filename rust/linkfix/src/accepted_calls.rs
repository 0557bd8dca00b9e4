// SPDX-License-Identifier: MIT OR Apache-2.0
// Made by tools/generate of crates/linkfix/src/accepted_calls.rt.
//! The calls that were made jumps.

use crate::support::*;
use std::collections::BTreeMap;

/// The bytes of a jump: the sites of two accepted calls are at least so far apart.
const JUMP_LEN: u64 = 4;

/// Calls, each a site and a target, whose sites are at least 4 apart.
pub struct AcceptedCalls {
    targets: BTreeMap<u64, u64>,
}

impl AcceptedCalls {
    /// No calls. It doesn't allocate.
    pub fn new() -> AcceptedCalls {
        AcceptedCalls {
            targets: BTreeMap::new(),
        }
    }

    /// The calls by site.
    pub fn fallible_to_vec(&self) -> Result<Vec<(u64, u64)>, AllocError> {
        let mut calls = Vec::fallible_with_capacity(self.targets.len())?;
        for (site, target) in &self.targets {
            calls.push_reserved((*site, *target));
        }
        Ok(calls)
    }

    /// Whether the site is at least 4 from that of each call. The search takes O(log n).
    pub fn are_far_from(&self, site: u64) -> bool {
        let first = site.saturating_sub(JUMP_LEN - 1);
        match self.targets.range(first..).next() {
            Some((next, _)) => next.saturating_sub(site) >= JUMP_LEN,
            None => true,
        }
    }

    /// Adds a call in O(log n). It changes nothing where it runs out of memory.
    pub fn fallible_insert(&mut self, site: u64, target: u64) -> Result<(), AllocError> {
        let _ = self.targets.fallible_insert(site, target)?;
        Ok(())
    }

    /// Takes out the call at `site` that was added last, in O(log n).
    pub fn remove(&mut self, site: u64) {
        let _ = self.targets.remove(&site);
    }
}
