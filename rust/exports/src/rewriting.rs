// SPDX-License-Identifier: MIT OR Apache-2.0
// Made by tools/generate of crates/linker_utils_c/src/rewriting.rt.
//! The rewrites of a section in one call, before addresses are known and once they are.

use crate::status::{Status, at_fault, or_return};
use linker_utils::source::rewriting::{DecisionError, DecisionNumbers, Deletion, RewritingError};
use linker_utils::source::rewriting::{OutputFacts, RelaxContext, SymbolFacts};
use linker_utils::source::rewriting::{UnrelaxableGroups, has_rewrites};
use linker_utils::source::rewriting::Phase;
use linker_utils::source::rewriting::{
    decide_rewrites, make_rewrites, rewrite_placed_section, rewrite_section,
};
use linker_utils::source::rewriting::{survey, survey_placed_section};
use linker_utils::source::rewriting::{rewrite_toc_loads, survey_toc_loads};
use linker_utils::source::section::{Addresses, Symbol};
use linker_utils::elf::Architecture;

/// The phase with a number.
#[inline(always)]
fn phase_of(number: u32) -> Option<Phase> {
    match number {
        0 => Some(Phase::PreLayout),
        1 => Some(Phase::TlsLocalExec),
        2 => Some(Phase::GotToPcRel),
        3 => Some(Phase::ShortPcRel),
        _ => None,
    }
}

/// Whether an architecture has rewrites in a phase, as `has_rewrites` of `rewriting`. False
/// of a machine or a phase that isn't known.
pub fn linker_utils_has_rewrites(machine: u16, phase: u32) -> bool {
    let Some(architecture) = Architecture::from_machine(machine) else {
        return false;
    };
    match phase_of(phase) {
        Some(phase) => has_rewrites(architecture, phase),
        None => false,
    }
}

/// Notes which groups of an object stay as they are, by one of its sections, as `survey` of
/// `rewriting`. `UnknownArchitecture`.
pub fn linker_utils_survey_nonnull(
    machine: u16,
    output: &OutputFacts,
    symbols: &[SymbolFacts],
    relocations: &[u8],
    section: &[u8],
    kept: &mut [UnrelaxableGroups],
) -> u32 {
    let architecture = or_return!(Architecture::from_machine(machine), UnknownArchitecture);
    survey(architecture, output, symbols, relocations, section, kept);
    Status::Success as u32
}

/// Notes which groups of an object stay in a phase once addresses are known, by one of its
/// sections, as `survey_placed_section` of `rewriting`. The first that applies of
/// `UnknownArchitecture`; `UnknownPhase`; `FactsContradict`.
pub fn linker_utils_survey_placed_section_nonnull(
    machine: u16,
    phase: u32,
    output: &OutputFacts,
    symbols: &[SymbolFacts],
    addresses: &Addresses,
    values: &[Symbol],
    relocations: &[u8],
    section: &[u8],
    kept: &mut [UnrelaxableGroups],
) -> u32 {
    let architecture = or_return!(Architecture::from_machine(machine), UnknownArchitecture);
    let phase = or_return!(phase_of(phase), UnknownPhase);
    let context = RelaxContext {
        architecture,
        phase,
        output,
        symbols,
        addresses,
        values,
    };
    survey_status(survey_placed_section(&context, relocations, section, kept))
}

/// The status of a survey.
#[inline(always)]
pub(crate) fn survey_status(surveyed: Result<(), usize>) -> u32 {
    match surveyed {
        Ok(()) => Status::Success as u32,
        Err(_) => Status::FactsContradict as u32,
    }
}

/// The status of an error. The index of the relocation or the symbol at fault is written, if one
/// is.
#[inline(always)]
pub(crate) fn put_error(error: RewritingError, faulty: &mut usize) -> u32 {
    match error {
        RewritingError::TooShort => Status::ShortMemory as u32,
        RewritingError::NotSurveyed(index) => at_fault(Status::NotSurveyed as u32, index, faulty),
        RewritingError::Overlaps(index) => at_fault(Status::Overlaps as u32, index, faulty),
        RewritingError::Contradiction(symbol) => at_fault(
            Status::FactsContradict as u32,
            symbol,
            faulty,
        ),
    }
}

/// Rewrites the instructions of a section of code before addresses are known, and turns its
/// relocations into those after it, as `rewrite_section` of `rewriting`. What became of each
/// relocation is in `decisions`, whose elements after those of the relocations are unchanged.
///
/// The first that applies of `UnknownArchitecture`; `ShortMemory`, where there are fewer decisions
/// than relocations; and why it can't rewrite the relocation at `faulty`: `NotSurveyed` or
/// `Overlaps`. Then the section and its relocations are unchanged, and the decisions below `faulty`
/// are made.
pub fn linker_utils_rewrite_section_nonnull(
    machine: u16,
    output: &OutputFacts,
    symbols: &[SymbolFacts],
    kept: &[UnrelaxableGroups],
    relocations: &mut [u8],
    section: &mut [u8],
    decisions: &mut [DecisionNumbers],
    faulty: &mut usize,
) -> u32 {
    let architecture = or_return!(Architecture::from_machine(machine), UnknownArchitecture);
    match rewrite_section(
        architecture,
        output,
        symbols,
        kept,
        relocations,
        section,
        decisions,
    ) {
        Ok(()) => Status::Success as u32,
        Err(error) => put_error(error, faulty),
    }
}

/// Decides what `linker_utils_rewrite_section` would do, and writes nothing but `decisions`, as
/// `decide_rewrites` of `rewriting`. The statuses are those of that call.
pub fn linker_utils_decide_rewrites_nonnull(
    machine: u16,
    output: &OutputFacts,
    symbols: &[SymbolFacts],
    kept: &[UnrelaxableGroups],
    relocations: &[u8],
    section: &[u8],
    decisions: &mut [DecisionNumbers],
    faulty: &mut usize,
) -> u32 {
    let architecture = or_return!(Architecture::from_machine(machine), UnknownArchitecture);
    match decide_rewrites(
        architecture,
        output,
        symbols,
        kept,
        relocations,
        section,
        decisions,
    ) {
        Ok(()) => Status::Success as u32,
        Err(error) => put_error(error, faulty),
    }
}

/// The status of an error of `make_rewrites`. The index of the relocation at fault is written, if
/// one is.
#[inline(always)]
fn put_making_error(error: DecisionError, faulty: &mut usize) -> u32 {
    match error {
        DecisionError::TooShort => Status::ShortMemory as u32,
        DecisionError::Changed(index) => at_fault(Status::DoesNotMatch as u32, index, faulty),
        DecisionError::Overlaps(index) => at_fault(Status::Overlaps as u32, index, faulty),
    }
}

/// Makes decisions of `linker_utils_decide_rewrites`, as `make_rewrites` of `rewriting`. Any
/// bytes are decisions.
///
/// `ShortMemory`, where there are fewer decisions than relocations; else why it can't rewrite the
/// relocation at `faulty`: `DoesNotMatch` or `Overlaps`. Then the section and its relocations are
/// unchanged.
pub fn linker_utils_make_rewrites_nonnull(
    relocations: &mut [u8],
    section: &mut [u8],
    decisions: &[DecisionNumbers],
    faulty: &mut usize,
) -> u32 {
    match make_rewrites(relocations, section, decisions) {
        Ok(()) => Status::Success as u32,
        Err(error) => put_making_error(error, faulty),
    }
}

/// Rewrites the instructions of a section of code in a phase, once addresses are known, and turns
/// its relocations into those after it, as `rewrite_placed_section` of `rewriting`. What
/// became of each relocation is in `decisions`, and what is to be deleted in the first
/// `deleted_used` elements of `deleted`; the elements after these are unchanged.
///
/// The first that applies of `UnknownArchitecture`; `UnknownPhase`; `FactsContradict`, of the
/// symbol at `faulty`; `ShortMemory`, where there are fewer decisions than relocations; why it
/// can't rewrite the relocation at `faulty`, `NotSurveyed` or `Overlaps`; and `ShortMemory`, where
/// there are fewer elements of `deleted` than deletions. Then the section, its relocations and
/// `deleted_used` are unchanged.
pub fn linker_utils_rewrite_placed_section_nonnull(
    machine: u16,
    phase: u32,
    output: &OutputFacts,
    symbols: &[SymbolFacts],
    addresses: &Addresses,
    values: &[Symbol],
    kept: &[UnrelaxableGroups],
    relocations: &mut [u8],
    section: &mut [u8],
    decisions: &mut [DecisionNumbers],
    deleted: &mut [Deletion],
    deleted_used: &mut usize,
    faulty: &mut usize,
) -> u32 {
    let architecture = or_return!(Architecture::from_machine(machine), UnknownArchitecture);
    let phase = or_return!(phase_of(phase), UnknownPhase);
    let context = RelaxContext {
        architecture,
        phase,
        output,
        symbols,
        addresses,
        values,
    };
    match rewrite_placed_section(&context, kept, relocations, section, decisions, deleted) {
        Ok(len) => {
            *deleted_used = len;
            Status::Success as u32
        }
        Err(error) => put_error(error, faulty),
    }
}

/// Notes which words of an object's section of addresses stay, by one of its sections of code, as
/// `survey_toc_loads` of `rewriting`. `UnknownArchitecture`; `FactsContradict`.
pub fn linker_utils_survey_toc_loads_nonnull(
    machine: u16,
    output: &OutputFacts,
    symbols: &[SymbolFacts],
    addresses: &Addresses,
    values: &[Symbol],
    words_start: u64,
    words: &[u8],
    relocations: &[u8],
    section: &[u8],
    kept: &mut [bool],
) -> u32 {
    let architecture = or_return!(Architecture::from_machine(machine), UnknownArchitecture);
    let context = RelaxContext {
        architecture,
        phase: Phase::ShortPcRel,
        output,
        symbols,
        addresses,
        values,
    };
    survey_status(survey_toc_loads(&context, words_start, words, relocations, section, kept))
}

/// Has the instructions of a section of code compute the addresses that they load from words of an
/// object's section of addresses, and turns their relocations into those after it, as
/// `rewrite_toc_loads` of `rewriting`. What became of each relocation is in `decisions`,
/// whose elements after those of the relocations are unchanged. The types of loads are those of
/// which `linker_utils_entry_relocation` says another one.
///
/// The first that applies of `UnknownArchitecture`; `FactsContradict`, of the symbol at `faulty`;
/// `ShortMemory`, where there are fewer decisions than relocations; and why it can't rewrite the
/// relocation at `faulty`: `NotSurveyed` or `Overlaps`. Then the section and its relocations are
/// unchanged, and the decisions below `faulty` are made.
pub fn linker_utils_rewrite_toc_loads_nonnull(
    machine: u16,
    output: &OutputFacts,
    symbols: &[SymbolFacts],
    addresses: &Addresses,
    values: &[Symbol],
    words_start: u64,
    words: &[u8],
    kept: &[bool],
    relocations: &mut [u8],
    section: &mut [u8],
    decisions: &mut [DecisionNumbers],
    faulty: &mut usize,
) -> u32 {
    let architecture = or_return!(Architecture::from_machine(machine), UnknownArchitecture);
    let context = RelaxContext {
        architecture,
        phase: Phase::ShortPcRel,
        output,
        symbols,
        addresses,
        values,
    };
    match rewrite_toc_loads(
        &context,
        words_start,
        words,
        kept,
        relocations,
        section,
        decisions,
    ) {
        Ok(()) => Status::Success as u32,
        Err(error) => put_error(error, faulty),
    }
}
