// SPDX-License-Identifier: MIT OR Apache-2.0
// Made by tools/generate of crates/linker_utils_c/src/global_pointer.rt.
//! RISC-V's addresses near the global pointer or 0, without their high part.

use crate::rewriting::{put_error, survey_status};
use crate::status::{Status, at_fault, or_return};
use linker_utils::source::rewriting::{DecisionNumbers, Deletion};
use linker_utils::source::rewriting::{OutputFacts, RelaxContext, SymbolFacts};
use linker_utils::source::rewriting::{
    finish_gp_relaxation, rewrite_global_pointer, survey_global_pointer,
};
use linker_utils::source::rewriting::Phase;
use linker_utils::source::section::{Addresses, Symbol};
use linker_utils::elf::Architecture;

/// Notes which symbols of an object keep the high part of their address, by one of its sections of
/// code, as `survey_global_pointer` of `rewriting`. `UnknownArchitecture`;
/// `FactsContradict`.
pub fn linker_utils_survey_global_pointer_nonnull(
    machine: u16,
    output: &OutputFacts,
    symbols: &[SymbolFacts],
    addresses: &Addresses,
    values: &[Symbol],
    global_pointer: u64,
    relocations: &[u8],
    section: &[u8],
    kept: &mut [bool],
) -> u32 {
    let architecture = or_return!(Architecture::from_machine(machine), UnknownArchitecture);
    let context = RelaxContext {
        architecture,
        phase: Phase::ShortPcRel,
        output,
        symbols,
        addresses,
        values,
    };
    survey_status(survey_global_pointer(&context, global_pointer, relocations, section, kept))
}

/// Has the high parts of addresses near the global pointer or 0 go, and turns the relocations of a
/// section of code into those without them, as `rewrite_global_pointer` of `rewriting`. What
/// became of each relocation is in `decisions`, and what is to be deleted in the first
/// `deleted_used` elements of `deleted`; the elements after these are unchanged.
///
/// The first that applies of `UnknownArchitecture`; `FactsContradict`, of the symbol at `faulty`;
/// `ShortMemory`, where there are fewer decisions than relocations; `NotSurveyed` or `Overlaps`, of
/// the relocation at `faulty`; and `ShortMemory`, where there are fewer elements of `deleted` than
/// deletions. Then the relocations and `deleted_used` are unchanged.
pub fn linker_utils_rewrite_global_pointer_nonnull(
    machine: u16,
    output: &OutputFacts,
    symbols: &[SymbolFacts],
    addresses: &Addresses,
    values: &[Symbol],
    global_pointer: u64,
    kept: &[bool],
    relocations: &mut [u8],
    section: &[u8],
    decisions: &mut [DecisionNumbers],
    deleted: &mut [Deletion],
    deleted_used: &mut usize,
    faulty: &mut usize,
) -> u32 {
    let architecture = or_return!(Architecture::from_machine(machine), UnknownArchitecture);
    let context = RelaxContext {
        architecture,
        phase: Phase::ShortPcRel,
        output,
        symbols,
        addresses,
        values,
    };
    match rewrite_global_pointer(
        &context,
        global_pointer,
        kept,
        relocations,
        section,
        decisions,
        deleted,
    ) {
        Ok(len) => {
            *deleted_used = len;
            Status::Success as u32
        }
        Err(error) => put_error(error, faulty),
    }
}

/// Writes the base of each low part of a section that has none, as `finish_gp_relaxation` of
/// `rewriting`.
///
/// `OutOfReach`, where no base reaches what the relocation at `faulty` refers to, its symbol isn't
/// in the table, or its instruction isn't in the section. Then the section and its relocations are
/// unchanged.
pub fn linker_utils_finish_gp_relaxation_nonnull(
    addresses: &Addresses,
    values: &[Symbol],
    global_pointer: u64,
    relocations: &mut [u8],
    section: &mut [u8],
    faulty: &mut usize,
) -> u32 {
    match finish_gp_relaxation(addresses, values, global_pointer, relocations, section) {
        Ok(()) => Status::Success as u32,
        Err(index) => at_fault(Status::OutOfReach as u32, index, faulty),
    }
}
