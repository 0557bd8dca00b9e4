// SPDX-License-Identifier: MIT OR Apache-2.0
// Made by tools/generate of crates/linker_utils_c/src/sections.rt.
//! What a section's relocations require, their values, and writing all of them.

use crate::relocate::{status_of, uleb_status_of};
use crate::status::{Status, at_fault, or_return};
use linker_utils::source::section::{Addresses, Symbol};
use linker_utils::source::section::{EntryClass, Requirements, needs};
use linker_utils::source::section::relocation_at;
use linker_utils::source::section::{ByRelocation, Resolved, relocate_resolved};
use linker_utils::source::section::{RelocationError, memory_len, relocate_section};
use linker_utils::source::section::{ValueError, value as value_of};
use linker_utils::elf::Architecture;

/// What a relocation requires.
#[repr(C)]
#[derive(Clone, Copy)]
pub struct RequirementNumbers {
    /// The addend of the required entry of the GOT; 0 where none is required.
    pub entry_addend: i64,
    /// What that entry holds: 0 none, 1 an address, 2 an offset from the thread pointer, 3 the
    /// module's number and an offset in its TLS block, 4 the module's number and 0, 5 a TLS
    /// descriptor.
    pub entry_class: u32,
    /// 1 where its value goes into a branch; else 0.
    pub is_branch: u8,
    /// 1 where a stub or an entry of the PLT may serve as its target; else 0.
    pub may_use_stub: u8,
    /// 1 where such an entry is made only if the output doesn't define the symbol; else 0.
    pub stub_only_if_undefined: u8,
    /// 1 where it is a word of 8 bytes with S + A; else 0.
    pub is_word: u8,
    /// 1 where what is written depends on where the output is loaded; else 0.
    pub depends_on_load: u8,
}

/// The number of a class.
#[inline(always)]
fn class_number(class: EntryClass) -> u32 {
    match class {
        EntryClass::Address => 1,
        EntryClass::ThreadOffset => 2,
        EntryClass::ModuleOffset => 3,
        EntryClass::Module => 4,
        EntryClass::Descriptor => 5,
    }
}

/// What is required, in numbers.
#[inline(always)]
pub(crate) fn in_numbers(needs: &Requirements) -> RequirementNumbers {
    let (entry_class, entry_addend) = match needs.entry {
        Some(entry) => (class_number(entry.class), entry.addend),
        None => (0, 0),
    };
    RequirementNumbers {
        entry_addend,
        entry_class,
        is_branch: needs.is_branch.into(),
        may_use_stub: needs.may_use_stub.into(),
        stub_only_if_undefined: needs.stub_only_if_undefined.into(),
        is_word: needs.is_word.into(),
        depends_on_load: needs.depends_on_load.into(),
    }
}

/// What a relocation requires, if it has a row, in numbers.
#[inline(always)]
pub(crate) fn needs_by(needs: Option<Requirements>, required: &mut RequirementNumbers) -> u32 {
    let needs = or_return!(needs, UnknownRelocation);
    *required = in_numbers(&needs);
    Status::Success as u32
}

/// What a relocation with `r_type` and an addend requires in files with `e_machine` `machine`, by
/// whether its symbol is thread-local. The first that applies of `UnknownArchitecture`;
/// `UnknownRelocation`.
pub fn linker_utils_needs(
    machine: u16,
    r_type: u32,
    addend: i64,
    is_thread_local: bool,
    required: &mut RequirementNumbers,
) -> u32 {
    let architecture = or_return!(Architecture::from_machine(machine), UnknownArchitecture);
    needs_by(
        needs(architecture, r_type, addend, is_thread_local),
        required,
    )
}

/// Why a relocation has no value.
#[inline(always)]
pub(crate) fn value_status_of(error: ValueError) -> u32 {
    match error {
        ValueError::UnknownType => Status::UnknownRelocation as u32,
        ValueError::NoSymbol => Status::NoSymbol as u32,
        ValueError::NoEntry => Status::NoEntry as u32,
        ValueError::NoTlsBase => Status::NoTlsBase as u32,
        ValueError::NoHighPart => Status::NoHighPart as u32,
        ValueError::NotAligned => Status::NotAligned as u32,
        ValueError::NeedsStub => Status::NeedsStub as u32,
        ValueError::OutOfReach => Status::OutOfReach as u32,
    }
}

/// The value of the relocation at an index of a section's relocations, as `value`. The first that
/// applies of `UnknownArchitecture`; `TooShort`, where there is none at the index;
/// `UnknownRelocation`; `NoSymbol`; `NoHighPart`; `NoEntry`; `NoTlsBase`; `NoValue`.
pub fn linker_utils_value_at_nonnull(
    machine: u16,
    addresses: &Addresses,
    relocations: &[u8],
    symbols: &[Symbol],
    index: usize,
    value: &mut i64,
) -> u32 {
    let architecture = or_return!(Architecture::from_machine(machine), UnknownArchitecture);
    let relocation = or_return!(relocation_at(relocations, index), TooShort);
    match value_of(architecture, addresses, relocations, symbols, &relocation) {
        Ok(Some(number)) => {
            *value = number;
            Status::Success as u32
        }
        Ok(None) => Status::NoValue as u32,
        Err(error) => value_status_of(error),
    }
}

/// How many elements of memory `linker_utils_relocate_section` needs for a section's relocations.
pub fn linker_utils_relocate_memory_nonnull(relocations: &[u8]) -> usize {
    memory_len(relocations)
}

/// Why a relocation's value isn't written.
#[inline(always)]
pub(crate) fn status_of_error(error: RelocationError) -> u32 {
    match error {
        RelocationError::Value(error) => value_status_of(error),
        RelocationError::Overlaps => Status::Overlaps as u32,
        RelocationError::OtherLength => Status::OtherLength as u32,
        RelocationError::Write(error) => status_of(Err(error)),
        RelocationError::Uleb128(error) => uleb_status_of(Err(error)),
    }
}

/// Writes the values of a section's relocations, as `relocate_section`, or none of them. The first
/// that applies of `UnknownArchitecture`; `ShortMemory`, where `memory` has fewer elements than
/// `linker_utils_relocate_memory`; and why the relocation at `faulty` can't be written.
pub fn linker_utils_relocate_section_nonnull(
    machine: u16,
    addresses: &Addresses,
    relocations: &[u8],
    symbols: &[Symbol],
    section: &mut [u8],
    memory: &mut [u64],
    faulty: &mut usize,
) -> u32 {
    let architecture = or_return!(Architecture::from_machine(machine), UnknownArchitecture);
    if memory.len() < memory_len(relocations) {
        return Status::ShortMemory as u32;
    }
    match relocate_section(
        architecture,
        addresses,
        relocations,
        symbols,
        section,
        memory,
    ) {
        Ok(()) => Status::Success as u32,
        Err(error) => at_fault(status_of_error(error.error), error.index, faulty),
    }
}

/// Writes the values of a section's relocations, as `relocate_resolved`, or none of them. What is
/// known of each is at its index. The first that applies of `UnknownArchitecture`; `ShortMemory`,
/// where `memory` has fewer elements than `linker_utils_relocate_memory`; and why the relocation at
/// `faulty` can't be written: `NoSymbol`, where `resolved` has fewer elements.
pub fn linker_utils_relocate_resolved_nonnull(
    machine: u16,
    addresses: &Addresses,
    relocations: &[u8],
    resolved: &[Resolved],
    section: &mut [u8],
    memory: &mut [u64],
    faulty: &mut usize,
) -> u32 {
    let architecture = or_return!(Architecture::from_machine(machine), UnknownArchitecture);
    if memory.len() < memory_len(relocations) {
        return Status::ShortMemory as u32;
    }
    match relocate_resolved(
        architecture,
        addresses,
        relocations,
        ByRelocation { resolved },
        section,
        memory,
    ) {
        Ok(()) => Status::Success as u32,
        Err(error) => at_fault(status_of_error(error.error), error.index, faulty),
    }
}
