// SPDX-License-Identifier: MIT OR Apache-2.0
// Made by tools/generate of crates/linker_rewriting/src/riscv_pcrel_groups.rt.
//! Groups of one label of RISC-V: a high part, and the low parts whose symbol is the label at it.

use crate::linker_rewriting::candidates::{Chosen, candidate_by};
use crate::linker_rewriting::decisions::{Decision, DecisionNumbers, decision_in};
use crate::linker_rewriting::facts::{OutputFacts, RelaxContext, SymbolFacts, link_facts};
use crate::linker_rewriting::groups::{Scope, scope_in};
use crate::linker_rewriting::phases::Phase;
use crate::linker_rewriting::relocations::{Site, relocation_in, site};
use crate::linker_rewriting::sequences::is_marked_at;
use crate::linker_section::facts::{Addresses, Symbol};
use crate::linker_section::relocations::{Rela, first_from, is_ascending, relocations_len};
use crate::architecture::Relaxation;
use crate::elf::{Architecture, Choice, LinkFacts, Operands};
#[cfg(feature = "riscv64")]
use crate::riscv64::RiscVRelocation;

/// The `r_type` of the high parts whose groups a phase rewrites.
fn high_r_type(phase: Phase) -> u32 {
    #[cfg(not(feature = "riscv64"))]
    {
        0
    }
    #[cfg(feature = "riscv64")]
    {
    match phase {
        Phase::TlsLocalExec => RiscVRelocation::R_RISCV_TLSDESC_HI20.r_type(),
        _ => RiscVRelocation::R_RISCV_GOT_HI20.r_type(),
    }
    }
}

/// How many relocations at one offset are searched for a high part.
const SEARCHED: usize = 16;

/// Whether as many others at an offset are before the relocation with an index, among relocations
/// that ascend.
pub(crate) fn is_beyond(relocations: &[u8], at: u64, index: usize) -> bool {
    SEARCHED <= index && relocation_in(relocations, index - SEARCHED).offset == at
}

/// The index of the first relocation with an `r_type` at an offset, among those that are searched
/// of relocations that ascend. So it takes O(log n).
pub(crate) fn high_at(relocations: &[u8], r_type: u32, at: u64) -> Option<usize> {
    let first = first_from(relocations, at);
    for index in first..relocations_len(relocations).min(first + SEARCHED) {
        let relocation = relocation_in(relocations, index);
        if relocation.offset != at {
            return None;
        }
        if relocation.r_type == r_type {
            return Some(index);
        }
    }
    None
}

/// Where the label is in the section that is a relocation's symbol.
pub(crate) fn label_at(context: &RelaxContext<'_>, relocation: &Rela) -> Option<u64> {
    let label = context.values.get(relocation.symbol as usize)?;
    Some(label.address.wrapping_sub(context.addresses.section))
}

fn label_offset(context: &RelaxContext<'_>, relocation: &Rela) -> Option<u64> {
    if relocation.r_type == high_r_type(context.phase) {
        Some(relocation.offset)
    } else {
        label_at(context, relocation)
    }
}

/// The index of the high part at the label of a relocation, among relocations that ascend.
pub(crate) fn high_of(
    context: &RelaxContext<'_>,
    relocations: &[u8],
    relocation: &Rela,
) -> Option<usize> {
    let at = label_offset(context, relocation)?;
    high_at(relocations, high_r_type(context.phase), at)
}

/// Whether a relocation with an `r_type` is rewritten with its label.
#[inline(always)]
pub(crate) fn is_in_label(architecture: Architecture, phase: Phase, r_type: u32) -> bool {
    matches!(scope_in(architecture, phase, r_type), Scope::Labelled)
}

/// Whether the mark is there that counts for a relocation with a high part.
fn is_label_marked(context: &RelaxContext<'_>, site: &Site<'_>, high: usize) -> bool {
    let (architecture, relocations) = (context.architecture, site.relocations);
    match context.phase {
        Phase::TlsLocalExec => {
            let part = relocation_in(relocations, high);
            is_marked_at(architecture, relocations, high, &part)
        }
        _ => is_marked_at(architecture, relocations, site.index, &site.relocation),
    }
}

/// The same facts, where no entry of the GOT is in reach: G + A is 2^63 bytes from the place.
fn without_entry(facts: Option<LinkFacts>) -> Option<LinkFacts> {
    let facts = facts?;
    let addend = facts.operands.addend as u64;
    let far = facts.operands.place.wrapping_add(0x8000_0000_0000_0000);
    Some(LinkFacts {
        operands: Operands {
            got_entry: far.wrapping_sub(addend),
            ..facts.operands
        },
        ..facts
    })
}

/// The rewrite of the instruction of the relocation with an index, by the facts of its label's high
/// part.
pub(crate) fn label_candidate(
    context: &RelaxContext<'_>,
    site: &Site<'_>,
    high: usize,
) -> Option<Chosen> {
    let part = relocation_in(site.relocations, high);
    let marked = is_label_marked(context, site, high);
    let facts = without_entry(link_facts(context, &part, &part, marked));
    candidate_by(context, site, &facts)
}

/// The index of the high part whose group stays, since this relocation is of it and has no rewrite.
fn lacking(context: &RelaxContext<'_>, site: &Site<'_>) -> Option<usize> {
    if !is_in_label(context.architecture, context.phase, site.relocation.r_type) {
        return None;
    }
    let high = high_of(context, site.relocations, &site.relocation)?;
    match label_candidate(context, site, high) {
        Some(_) => None,
        None => Some(high),
    }
}

/// Whether a decision is the note that a group stays.
#[inline(always)]
pub(crate) fn is_note(decision: &Decision) -> bool {
    matches!(decision, Decision::Consumed)
}

pub(crate) fn set_all(relocations: &[u8], decision: Decision, decisions: &mut [DecisionNumbers]) {
    let made = DecisionNumbers::from_decision(decision);
    for index in 0..relocations_len(relocations) {
        decisions[index] = made;
    }
}

/// Notes at each high part of a section whether its group stays.
fn note_highs(
    context: &RelaxContext<'_>,
    relocations: &[u8],
    section: &[u8],
    decisions: &mut [DecisionNumbers],
) {
    for index in 0..relocations_len(relocations) {
        let site = site!(relocations, section, index);
        let Some(high) = lacking(context, &site) else {
            continue;
        };
        decisions[high] = DecisionNumbers::from_decision(Decision::Consumed);
    }
}

/// What is noted of the group of a relocation: at its high part; it stays where there is none.
fn note_of(
    context: &RelaxContext<'_>,
    relocations: &[u8],
    decisions: &[DecisionNumbers],
    relocation: &Rela,
) -> Decision {
    match high_of(context, relocations, relocation) {
        Some(high) => decision_in(decisions, high),
        None => Decision::Consumed,
    }
}

/// Notes at each relocation of a label what is noted at its high part.
fn copy_notes(
    context: &RelaxContext<'_>,
    relocations: &[u8],
    section: &[u8],
    decisions: &mut [DecisionNumbers],
) {
    for index in 0..relocations_len(relocations) {
        let relocation = relocation_in(relocations, index);
        if !is_in_label(context.architecture, context.phase, relocation.r_type) {
            continue;
        }
        let note = note_of(context, relocations, decisions, &relocation);
        decisions[index] = DecisionNumbers::from_decision(note);
    }
}

fn has_labels(architecture: Architecture, phase: Phase) -> bool {
    match architecture {
        #[cfg(feature = "riscv64")]
        Architecture::RiscV => matches!(phase, Phase::TlsLocalExec | Phase::GotToPcRel),
        _ => false,
    }
}

/// Notes at each relocation of a label of RISC-V whether its group stays, in place of its decision.
pub(crate) fn note_labels(
    context: &RelaxContext<'_>,
    relocations: &[u8],
    section: &[u8],
    decisions: &mut [DecisionNumbers],
) {
    if !has_labels(context.architecture, context.phase) {
        return;
    }
    if !is_ascending(relocations) {
        set_all(relocations, Decision::Consumed, decisions);
        return;
    }
    set_all(relocations, Decision::Kept, decisions);
    note_highs(context, relocations, section, decisions);
    copy_notes(context, relocations, section, decisions);
}
