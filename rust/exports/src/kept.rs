// SPDX-License-Identifier: MIT OR Apache-2.0
// Made by tools/generate of crates/linker_utils_c/src/kept.rt.
//! What choices of rewrites read of symbols, kept until values are written.

use crate::sections::status_of_error;
use crate::status::{Status, at_fault, or_return};
use linker_utils::source::rewriting::{OutputFacts, RelaxContext, SymbolFacts};
use linker_utils::source::rewriting::{
    FactsSnapshot, WritingError, relocate_rewritten_section, snapshot_facts,
};
use linker_utils::source::rewriting::Phase;
use linker_utils::source::section::{Addresses, Symbol};
use linker_utils::source::section::memory_len;
use linker_utils::elf::Architecture;

/// Keeps what choices of rewrites read of an object's symbols and of the output, as
/// `snapshot_facts` of `rewriting`. The error is `DifferentLengths`.
pub fn linker_utils_snapshot_facts_nonnull(
    output: &OutputFacts,
    symbols: &[SymbolFacts],
    kept: &mut [FactsSnapshot],
) -> u32 {
    if kept.len() != symbols.len() {
        return Status::DifferentLengths as u32;
    }
    snapshot_facts(output, symbols, kept);
    Status::Success as u32
}

/// Writes the values of a section whose instructions were rewritten, as
/// `relocate_rewritten_section` of `rewriting`, or none of them. The first that applies of
/// `UnknownArchitecture`; `ShortMemory`, where `memory` has fewer elements than
/// `linker_utils_relocate_memory`; `FactsContradict`, with the symbol at `faulty`; `FactsChanged`,
/// with the first such relocation at `faulty`; `NeedsStub`, likewise; and why the relocation at
/// `faulty` can't be written.
pub fn linker_utils_relocate_rewritten_section_nonnull(
    machine: u16,
    output: &OutputFacts,
    facts: &[SymbolFacts],
    kept: &[FactsSnapshot],
    addresses: &Addresses,
    relocations: &[u8],
    symbols: &[Symbol],
    section: &mut [u8],
    memory: &mut [u64],
    faulty: &mut usize,
) -> u32 {
    let architecture = or_return!(Architecture::from_machine(machine), UnknownArchitecture);
    if memory.len() < memory_len(relocations) {
        return Status::ShortMemory as u32;
    }
    let context = RelaxContext {
        architecture,
        phase: Phase::PreLayout,
        output,
        symbols: facts,
        addresses,
        values: symbols,
    };
    match relocate_rewritten_section(&context, kept, relocations, section, memory) {
        Ok(()) => Status::Success as u32,
        Err(WritingError::Contradiction(symbol)) => at_fault(
            Status::FactsContradict as u32,
            symbol,
            faulty,
        ),
        Err(WritingError::Changed(index)) => at_fault(Status::FactsChanged as u32, index, faulty),
        Err(WritingError::NeedsStub(index)) => at_fault(Status::NeedsStub as u32, index, faulty),
        Err(WritingError::Section(error)) => at_fault(
            status_of_error(error.error),
            error.index,
            faulty,
        ),
    }
}
