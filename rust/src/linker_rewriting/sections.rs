// SPDX-License-Identifier: MIT OR Apache-2.0
// Made by tools/generate of crates/linker_rewriting/src/sections.rt.
//! The rewrites of a section, made in one call for each phase.
//!
//! What became of each relocation is in `decisions`, which needs room for each of them. One that
//! goes, with its instruction or since another's rewrite takes it along, gets the type 0, so that
//! indexes stay. After an error the section and its relocations are as before.

use crate::linker_rewriting::candidates::deletes_within;
use crate::linker_rewriting::decisions::{
    Decision, DecisionError, DecisionNumbers, Deletion, RewritingError, decide_section,
    decision_in, end_after, span_of,
};
use crate::linker_rewriting::facts::{OutputFacts, RelaxContext, SymbolFacts, contradiction, pre_layout};
use crate::linker_rewriting::groups::UnrelaxableGroups;
use crate::linker_rewriting::phases::Phase;
use crate::linker_rewriting::relocations::relocation_in;
use crate::linker_section::relocations::{Rela, relocations_len, set_relocation};
use crate::architecture::Relaxation;
use crate::elf::{Architecture, InstructionRewrite};

/// A number of the bytes of a section from a place on, which is another where one of them is.
fn bytes_number(section: &[u8], start: u64, len: u64) -> u32 {
    let mut number: u32 = 0;
    for index in 0..len {
        let turned = number % (1 << 24) * (1 << 8) + number / (1 << 24);
        number = turned.wrapping_add(u32::from(section[(start + index) as usize]));
    }
    number
}

/// That of the bytes that a rewrite at an offset writes.
#[inline(always)]
fn window_number(kind: Relaxation, section: &[u8], offset: u64) -> u32 {
    let window = kind.window();
    if window.len == 0 {
        return 0;
    }
    bytes_number(section, offset - window.back, window.len)
}

/// Whether a rewrite's instructions are at an offset, and what it deletes is in the section.
#[inline(always)]
fn is_there(kind: Relaxation, section: &[u8], offset: u64) -> bool {
    kind.matches(section, offset) && deletes_within(section, offset, kind.deleted())
}

/// Whether a decision can be made at an offset, of instructions that its rewrite is meant for and
/// of bytes with a number.
#[inline(always)]
fn fits(decision: &Decision, number: u32, section: &[u8], offset: u64) -> bool {
    match decision {
        Decision::Rewritten(choice) => {
            is_there(choice.kind, section, offset)
                && window_number(choice.kind, section, offset) == number
        }
        Decision::RewrittenWithSymbol(choice, _) => is_there(choice.kind, section, offset),
        _ => true,
    }
}

/// Keeps a number of the bytes that each decision rewrites, if anything changes.
fn keep_bytes(changes: bool, relocations: &[u8], section: &[u8], decisions: &mut [DecisionNumbers]) {
    if !changes {
        return;
    }
    for index in 0..relocations_len(relocations) {
        let Decision::Rewritten(choice) = decision_in(decisions, index) else {
            continue;
        };
        let offset = relocation_in(relocations, index).offset;
        let number = window_number(choice.kind, section, offset);
        decisions[index] = DecisionNumbers::from_choice(choice, number);
    }
}

/// Tests that decisions can be made of a section as it is.
fn check_decisions(
    relocations: &[u8],
    section: &[u8],
    decisions: &[DecisionNumbers],
) -> Result<(), DecisionError> {
    let len = relocations_len(relocations);
    if decisions.len() < len {
        return Err(DecisionError::TooShort);
    }
    let mut end = 0;
    for index in 0..len {
        let decision = decision_in(decisions, index);
        if let Decision::Kept = decision {
            continue;
        }
        let offset = relocation_in(relocations, index).offset;
        if !fits(&decision, decisions[index].bytes(), section, offset) {
            return Err(DecisionError::Changed(index));
        }
        let (start, own) = span_of(&decision, offset);
        let Some(new_end) = end_after(start, own, end) else {
            return Err(DecisionError::Overlaps(index));
        };
        end = new_end;
    }
    Ok(())
}

#[inline(always)]
fn make(decision: Decision, relocation: &mut Rela, section: &mut [u8]) {
    match decision {
        Decision::Kept => {}
        Decision::Consumed => relocation.r_type = 0,
        Decision::Rewritten(choice) => {
            choice
                .kind
                .apply(section, &mut relocation.offset, &mut relocation.addend);
            relocation.r_type = choice.relocation;
        }
        Decision::RewrittenWithSymbol(choice, subject) => {
            relocation.symbol = subject.symbol;
            relocation.addend = subject.addend;
            choice
                .kind
                .apply(section, &mut relocation.offset, &mut relocation.addend);
            relocation.r_type = choice.relocation;
        }
    }
}

/// Makes what was decided, if anything changes.
pub(crate) fn make_all(
    changes: bool,
    decisions: &[DecisionNumbers],
    relocations: &mut [u8],
    section: &mut [u8],
) {
    if !changes {
        return;
    }
    for index in 0..relocations_len(relocations) {
        let decision = decision_in(decisions, index);
        if let Decision::Kept = decision {
            continue;
        }
        let mut relocation = relocation_in(relocations, index);
        make(decision, &mut relocation, section);
        set_relocation(relocations, index, &relocation);
    }
}

/// `crate::link::rewrite_section`, with more parameters.
pub fn rewrite_section(
    architecture: Architecture,
    output: &OutputFacts,
    symbols: &[SymbolFacts],
    kept: &[UnrelaxableGroups],
    relocations: &mut [u8],
    section: &mut [u8],
    decisions: &mut [DecisionNumbers],
) -> Result<(), RewritingError> {
    let context = pre_layout!(architecture, output, symbols);
    let changes = decide_section(&context, kept, relocations, section, decisions)?;
    make_all(changes, decisions, relocations, section);
    Ok(())
}

/// `crate::link::decide_rewrites`, with more parameters.
///
/// ```
/// use linker_utils::source::rewriting::{Decision, DecisionError, DecisionNumbers};
/// use linker_utils::source::rewriting::{OutputFacts, SymbolFacts};
/// use linker_utils::source::rewriting::UnrelaxableGroups;
/// use linker_utils::source::rewriting::{decide_rewrites, make_rewrites};
/// use linker_utils::elf::Architecture;
///
/// // call *f@GOTPCREL(%rip), with R_X86_64_GOTPCRELX of symbol 1 at 2, becomes addr32 call f
/// let input = [0xff, 0x15, 0, 0, 0, 0];
/// let mut relocations = [0; 24];
/// (relocations[0], relocations[8], relocations[12]) = (2, 41, 1);
/// relocations[16..].copy_from_slice(&(-4i64).to_le_bytes());
/// let mut decisions = [DecisionNumbers::from_decision(Decision::Kept)];
/// decide_rewrites(
///     Architecture::X86_64,
///     &OutputFacts { is_executable: true, is_fixed: false, has_near_symbols: true },
///     &[SymbolFacts { is_local: true, ..SymbolFacts::default() }; 2],
///     &[UnrelaxableGroups::default(); 2],
///     &relocations,
///     &input,
///     &mut decisions,
/// )
/// .unwrap();
/// let mut section = input;
/// assert_eq!(make_rewrites(&mut relocations, &mut section, &decisions), Ok(()));
/// assert_eq!(section, [0x67, 0xe8, 0, 0, 0, 0]);
/// // R_X86_64_PC32, whose instruction isn't the one that was decided on
/// assert_eq!(relocations[8], 2);
/// let again = make_rewrites(&mut relocations, &mut section, &decisions);
/// assert_eq!(again, Err(DecisionError::Changed(0)));
/// ```
pub fn decide_rewrites(
    architecture: Architecture,
    output: &OutputFacts,
    symbols: &[SymbolFacts],
    kept: &[UnrelaxableGroups],
    relocations: &[u8],
    section: &[u8],
    decisions: &mut [DecisionNumbers],
) -> Result<(), RewritingError> {
    let context = pre_layout!(architecture, output, symbols);
    let changes = decide_section(&context, kept, relocations, section, decisions)?;
    keep_bytes(changes, relocations, section, decisions);
    Ok(())
}

/// `crate::link::make_rewrites`, with more parameters.
pub fn make_rewrites(
    relocations: &mut [u8],
    section: &mut [u8],
    decisions: &[DecisionNumbers],
) -> Result<(), DecisionError> {
    check_decisions(relocations, section, decisions)?;
    make_all(true, decisions, relocations, section);
    Ok(())
}

/// Lists what decisions delete, if anything changes. Returns how many there are; none where there
/// is less room.
pub(crate) fn list_deletions(
    changes: bool,
    relocations: &[u8],
    decisions: &[DecisionNumbers],
    deleted: &mut [Deletion],
) -> Option<usize> {
    if !changes {
        return Some(0);
    }
    let mut len = 0;
    for index in 0..relocations_len(relocations) {
        let Some(bytes) = decision_in(decisions, index).deleted() else {
            continue;
        };
        if deleted.len() <= len {
            return None;
        }
        let relocation = relocation_in(relocations, index);
        deleted[len] = Deletion {
            offset: relocation.offset + bytes.start,
            bytes: bytes.count,
        };
        len += 1;
    }
    Some(len)
}

/// `crate::link::rewrite_placed_section`, with more parameters.
pub fn rewrite_placed_section(
    context: &RelaxContext<'_>,
    kept: &[UnrelaxableGroups],
    relocations: &mut [u8],
    section: &mut [u8],
    decisions: &mut [DecisionNumbers],
    deleted: &mut [Deletion],
) -> Result<usize, RewritingError> {
    if let Some(symbol) = contradiction(context.symbols, context.values, relocations) {
        return Err(RewritingError::Contradiction(symbol));
    }
    let changes = decide_section(context, kept, relocations, section, decisions)?;
    let Some(len) = list_deletions(changes, relocations, decisions, deleted) else {
        return Err(RewritingError::TooShort);
    };
    make_all(changes, decisions, relocations, section);
    Ok(len)
}
