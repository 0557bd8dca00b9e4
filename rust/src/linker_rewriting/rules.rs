// SPDX-License-Identifier: MIT OR Apache-2.0
// Made by tools/generate of crates/linker_rewriting/src/rules.rt.
//! The loop that decides what becomes of a section's relocations and of their instructions, by any
//! rule.

use crate::linker_rewriting::covered::first_covered;
use crate::linker_rewriting::decisions::{Decision, DecisionNumbers, RewritingError, decision_in, end_after};
use crate::linker_rewriting::relocations::{Site, relocation_in, site};
use crate::linker_rewriting::riscv_pcrel_groups::is_note;
use crate::linker_section::relocations::relocations_len;
use crate::elf::Architecture;

/// A rule by which relocations are decided: all of a group are rewritten, or none is.
pub(crate) trait Rule {
    /// Whether no other relocation takes along the one with an index, and it stays whatever its
    /// instruction is. Unless a rule says so, no test is made before `decide`.
    #[inline(always)]
    fn leaves(&self, _is_taken: bool, _relocations: &[u8], _index: usize) -> bool {
        false
    }

    /// What becomes of the relocation with an index. None if its group doesn't stay, but it can't
    /// be rewritten. `stays` is what was noted of it.
    fn decide(&self, is_taken: bool, stays: bool, site: &Site<'_>) -> Option<Decision>;

    /// Where those bytes of a decision begin and end that no other one may have.
    fn span(&self, decision: &Decision, offset: u64) -> (u64, u64);
}

/// Decides what becomes of each relocation of a section and of its instruction by a rule, in the
/// caller's memory. Nothing is rewritten.
#[inline(always)]
pub(crate) fn decide_by<R: Rule>(
    rule: &R,
    architecture: Architecture,
    relocations: &[u8],
    section: &[u8],
    decisions: &mut [DecisionNumbers],
) -> Result<(), RewritingError> {
    let mut end = 0;
    let mut is_taken = false;
    for index in 0..relocations_len(relocations) {
        if rule.leaves(is_taken, relocations, index) {
            decisions[index] = DecisionNumbers::from_decision(Decision::Kept);
            continue;
        }
        let site = site!(relocations, section, index);
        let stays = is_note(&decision_in(decisions, index));
        let Some(decision) = rule.decide(is_taken, stays, &site) else {
            return Err(RewritingError::NotSurveyed(index));
        };
        let (start, own) = rule.span(&decision, site.relocation.offset);
        let Some(new_end) = end_after(start, own, end) else {
            return Err(RewritingError::Overlaps(index));
        };
        end = new_end;
        is_taken = decision.takes_next();
        decisions[index] = DecisionNumbers::from_decision(decision);
    }
    match first_covered(architecture, relocations, section, decisions) {
        Some(index) => Err(RewritingError::Overlaps(index)),
        None => Ok(()),
    }
}
