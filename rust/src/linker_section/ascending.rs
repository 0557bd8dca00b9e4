// SPDX-License-Identifier: MIT OR Apache-2.0
// Made by tools/generate of crates/linker_section/src/ascending.rt.
//! The values of relocations that ascend by offset, written.

use crate::linker_section::conditions::begins_with;
use crate::linker_section::facts::Addresses;
use crate::linker_section::fields::Field;
use crate::linker_section::order::are_runs_apart;
use crate::linker_section::quick::{HighPart, high_after, quick_value};
use crate::linker_section::relocations::{
    RELA_LEN, Rela, offset_at, relocation_in, relocation_of, relocations_from, relocations_len,
};
use crate::linker_section::saved::whole_word_at;
use crate::linker_section::sections::{
    FIRST_STEP, NO_FIELD, SectionError, Step, Stopped, write_held_at, write_one,
};
use crate::linker_section::symbols::Symbols;
use crate::linker_elf::elf::Architecture;
use crate::linker_elf::elf::architecture::by_architecture;

/// Writes the value of the relocation at an index, if it is found and accepted with few
/// tests, and keeps the bytes that were there before. Its offset has to be `end` at least.
/// Returns where its field ends, and the last high part; and else changes no byte of the section.
#[inline(always)]
fn write_quickly<S: Symbols>(
    architecture: Architecture,
    addresses: &Addresses,
    relocations: &[u8],
    symbols: S,
    relocation: &Rela,
    high: Option<HighPart>,
    index: usize,
    end: u64,
    section: &mut [u8],
    memory: &mut [u64],
) -> Option<(u64, Option<HighPart>)> {
    let offset = relocation.offset;
    if offset < end {
        return None;
    }
    let Some(row) = architecture.row(relocation.r_type) else {
        return None;
    };
    let Some(word) = whole_word_at(section, offset) else {
        return None;
    };
    if !begins_with(architecture, &row, word) {
        return None;
    }
    // stored before the value is found, so that the word takes no register
    memory[index] = word;
    let Some(value) = quick_value(
        architecture,
        addresses,
        relocations,
        symbols,
        &row,
        index,
        relocation,
        high,
    ) else {
        return None;
    };
    if write_held_at(&row, value, offset, section).is_err() {
        return None;
    }
    let high = high_after(architecture, &row, offset, value, high);
    Some((offset + row.window() as u64, high))
}

/// The last field before a relocation: that of a step, or where others were written quickly since,
/// that of the relocation before.
#[inline(always)]
fn last_field(architecture: Architecture, relocations: &[u8], index: usize, step: &Step) -> Field {
    if step.index == index {
        return step.last;
    }
    let relocation = relocation_in(relocations, index - 1);
    match architecture.row(relocation.r_type) {
        Some(row) => Field {
            offset: relocation.offset,
            len: row.window(),
            kind: row.kind(),
        },
        None => NO_FIELD,
    }
}

/// The same as `write_one`, of the relocation after those that were written quickly since a step.
/// None where it is before the last field.
#[inline(never)]
fn write_slowly<S: Symbols>(
    architecture: Architecture,
    addresses: &Addresses,
    relocations: &[u8],
    symbols: S,
    index: usize,
    step: &Step,
    section: &mut [u8],
    memory: &mut [u64],
) -> Result<Option<Step>, SectionError> {
    let last = last_field(architecture, relocations, index, step);
    if offset_at(relocations, index) < last.offset {
        return Ok(None);
    }
    match write_one(
        architecture,
        addresses,
        relocations,
        symbols,
        None,
        index,
        last,
        section,
        memory,
    ) {
        Ok(step) => Ok(Some(step)),
        Err(error) => Err(error),
    }
}

/// The same as `write_in_any_order`, of relocations whose fields ascend by offset. Returns how many
/// are written: fewer than there are, where the next one is before the last field.
#[inline(always)]
fn write_ascending<S: Symbols>(
    architecture: Architecture,
    addresses: &Addresses,
    relocations: &[u8],
    symbols: S,
    section: &mut [u8],
    memory: &mut [u64],
) -> Result<usize, Stopped> {
    let mut step = FIRST_STEP;
    let mut end = 0;
    let mut high = None;
    let mut index = 0;
    let mut rest = relocations;
    while let Some((entry, following)) = rest.split_first_chunk::<RELA_LEN>() {
        let relocation = relocation_of(entry);
        if let Some((own_end, part)) = write_quickly(
            architecture,
            addresses,
            relocations,
            symbols,
            &relocation,
            high,
            index,
            end,
            section,
            memory,
        ) {
            end = own_end;
            high = part;
            index += 1;
            rest = following;
            continue;
        }
        match write_slowly(
            architecture,
            addresses,
            relocations,
            symbols,
            index,
            &step,
            section,
            memory,
        ) {
            Ok(Some(next)) => {
                step = next;
                index = step.index;
                end = step.last.offset + step.last.len as u64;
                rest = relocations_from(relocations, index);
            }
            Ok(None) => return Ok(index),
            Err(error) => return Err(Stopped {
                count: index,
                error,
            }),
        }
    }
    Ok(index)
}

/// The same of the relocations from an index on, where those before are written, and they are the
/// second of two runs by ascending offsets. None where all are written; and else below which index
/// the bytes are kept that were there before. By code for all architectures.
#[inline(never)]
pub(crate) fn write_second_run<S: Symbols>(
    architecture: Architecture,
    addresses: &Addresses,
    relocations: &[u8],
    symbols: S,
    start: usize,
    section: &mut [u8],
    memory: &mut [u64],
) -> Option<usize> {
    let len = relocations_len(relocations);
    let mut end = 0;
    let mut high = None;
    let mut index = start;
    while index < len {
        let relocation = relocation_in(relocations, index);
        let Some((own_end, part)) = write_quickly(
            architecture,
            addresses,
            relocations,
            symbols,
            &relocation,
            high,
            index,
            end,
            section,
            memory,
        ) else {
            return Some(index);
        };
        end = own_end;
        high = part;
        index += 1;
    }
    if are_runs_apart(architecture, relocations, start) {
        None
    } else {
        Some(index)
    }
}

/// `write_ascending` for an architecture that the compiler knows.
macro_rules! ascending_of {
    ($of:ident $module:ident $names:ident ($($given:ident),*)) => {
        write_ascending(Architecture::$of, $($given),*)
    };
}

/// The same as `write_ascending`, by code of the architecture's own.
pub(crate) fn write_ascending_of<S: Symbols>(
    architecture: Architecture,
    addresses: &Addresses,
    relocations: &[u8],
    symbols: S,
    section: &mut [u8],
    memory: &mut [u64],
) -> Result<usize, Stopped> {
    by_architecture!(
        architecture,
        ascending_of(addresses, relocations, symbols, section, memory)
    )
}
