// SPDX-License-Identifier: MIT OR Apache-2.0
// Made by tools/generate of crates/linker_utils_c/src/relocate.rt.
//! Relocations: their values, their reach, and writing them.

use crate::status::{Status, or_return};
use linker_utils::elf::{
    Architecture, FormulaError, Operands, RelocateError, Row, Uleb128PairError, Uleb128Role,
};
use linker_utils::utils::{self, Uleb128Error};

#[inline(always)]
pub(crate) fn value_status(error: FormulaError) -> u32 {
    match error {
        FormulaError::NoEntry => Status::NoEntry as u32,
        FormulaError::NoTlsBase => Status::NoTlsBase as u32,
        FormulaError::NoValue => Status::NoValue as u32,
    }
}

/// The value by a relocation's row, if it has one.
#[inline(always)]
pub(crate) fn value_by(row: Option<Row>, operands: &Operands, value: &mut i64) -> u32 {
    match row {
        Some(row) => match row.value(operands) {
            Ok(number) => {
                *value = number;
                Status::Success as u32
            }
            Err(error) => value_status(error),
        },
        None => Status::UnknownRelocation as u32,
    }
}

/// The value of the relocation with `r_type` in files with `e_machine` `machine`. The first that
/// applies of `UnknownArchitecture`; `UnknownRelocation`; `NoEntry`; `NoTlsBase`; `NoValue`.
pub fn linker_utils_value(
    machine: u16,
    r_type: u32,
    operands: &Operands,
    value: &mut i64,
) -> u32 {
    let architecture = or_return!(Architecture::from_machine(machine), UnknownArchitecture);
    value_by(architecture.row(r_type), operands, value)
}

/// The values of a relocation that can be written.
#[repr(C)]
#[derive(Clone, Copy)]
pub struct Reach {
    /// The least value; 0 if every value can be written.
    pub min: i64,
    /// The first above all values; 0 if every value can be written.
    pub max: i64,
    /// 1 if only values from `min` up, below `max`, can be written; else 0.
    pub has_range: u8,
}

/// A row's reach.
#[inline(always)]
pub(crate) fn reach_in(row: &Row) -> Reach {
    match row.reach().bounds {
        Some((min, max)) => Reach {
            min,
            max,
            has_range: 1,
        },
        None => Reach {
            min: 0,
            max: 0,
            has_range: 0,
        },
    }
}

/// The reach of a relocation's row, if it has one.
#[inline(always)]
pub(crate) fn reach_by(row: Option<Row>, reach: &mut Reach) -> u32 {
    let row = or_return!(row, UnknownRelocation);
    *reach = reach_in(&row);
    Status::Success as u32
}

/// The values of a relocation that can be written. The first that applies of `UnknownArchitecture`;
/// `UnknownRelocation`.
pub fn linker_utils_reach(machine: u16, r_type: u32, reach: &mut Reach) -> u32 {
    let architecture = or_return!(Architecture::from_machine(machine), UnknownArchitecture);
    reach_by(architecture.row(r_type), reach)
}

#[inline(always)]
pub(crate) fn status_of(outcome: Result<(), RelocateError>) -> u32 {
    match outcome {
        Ok(()) => Status::Success as u32,
        Err(RelocateError::Unsupported) => Status::Unsupported as u32,
        Err(RelocateError::TooShort) => Status::TooShort as u32,
        Err(RelocateError::Misaligned) => Status::Misaligned as u32,
        Err(RelocateError::OutOfReach) => Status::OutOfReach as u32,
    }
}

/// Writes a value by a relocation's row, if it has one.
#[inline(always)]
pub(crate) fn write_by(row: Option<Row>, value: i64, dest: &mut [u8]) -> u32 {
    let row = or_return!(row, UnknownRelocation);
    status_of(row.write(value, dest))
}

#[inline(always)]
fn relocate(architecture: Architecture, r_type: u32, value: i64, dest: &mut [u8]) -> u32 {
    write_by(architecture.row(r_type), value, dest)
}

/// Writes the value of a relocation to the bytes that `dest` begins with. The first that applies of
/// `UnknownArchitecture`; `UnknownRelocation`; `Unsupported`; `TooShort`; `Misaligned`;
/// `OutOfReach`.
pub fn linker_utils_relocate_nonnull(
    machine: u16,
    r_type: u32,
    value: i64,
    dest: &mut [u8],
) -> u32 {
    let architecture = or_return!(Architecture::from_machine(machine), UnknownArchitecture);
    relocate(architecture, r_type, value, dest)
}

/// A relocation of a section.
#[repr(C)]
#[derive(Clone, Copy)]
pub struct Relocation {
    /// The offset in the section of the first byte that is written.
    pub offset: u64,
    /// The value, as `linker_utils_value` returns it.
    pub value: i64,
    /// The relocation's type.
    pub r_type: u32,
}

/// Relocates the bytes from an offset on.
#[inline(always)]
fn relocate_at(
    architecture: Architecture,
    offset: u64,
    r_type: u32,
    value: i64,
    section: &mut [u8],
) -> u32 {
    if (section.len() as u64) < offset {
        return Status::TooShort as u32;
    }
    relocate(architecture, r_type, value, &mut section[offset as usize..])
}

fn relocate_all(
    architecture: Architecture,
    section: &mut [u8],
    relocations: &[Relocation],
    faulty: &mut usize,
) -> u32 {
    let mut at = 0;
    while at < relocations.len() {
        let relocation = relocations[at];
        let status = relocate_at(
            architecture,
            relocation.offset,
            relocation.r_type,
            relocation.value,
            section,
        );
        if status != Status::Success as u32 {
            *faulty = at;
            return status;
        }
        at += 1;
    }
    Status::Success as u32
}

/// Writes the values of the relocations of one section, in order. It stops at the first that is
/// rejected: its index is then `faulty`, the status says why, those before it are written, and it
/// has changed nothing. `UnknownArchitecture` is first. An offset past the section's end is
/// `TooShort`.
pub fn linker_utils_relocate_all_nonnull(
    machine: u16,
    section: &mut [u8],
    relocations: &[Relocation],
    faulty: &mut usize,
) -> u32 {
    let architecture = or_return!(Architecture::from_machine(machine), UnknownArchitecture);
    relocate_all(architecture, section, relocations, faulty)
}

/// What a relocation of a ULEB128 number does with its value: 1 sets, 2 adds, 3 subtracts; 0 of
/// every other number of an architecture or a relocation.
pub fn linker_utils_uleb128_role(machine: u16, r_type: u32) -> u32 {
    let Some(architecture) = Architecture::from_machine(machine) else {
        return 0;
    };
    match architecture.uleb128_role(r_type) {
        None => 0,
        Some(Uleb128Role::Sets) => 1,
        Some(Uleb128Role::Adds) => 2,
        Some(Uleb128Role::Subtracts) => 3,
    }
}

#[inline(always)]
pub(crate) fn uleb_status_of(outcome: Result<(), Uleb128Error>) -> u32 {
    match outcome {
        Ok(()) => Status::Success as u32,
        Err(Uleb128Error::Ended) => Status::Uleb128Ended as u32,
        Err(Uleb128Error::TooLarge) => Status::Uleb128TooLarge as u32,
        Err(Uleb128Error::DoesNotFit) => Status::DoesNotFit as u32,
    }
}

/// Writes a value over the ULEB128 number that `dest` begins with, in as many bytes. The first that
/// applies of `Uleb128Ended`; `Uleb128TooLarge`; `DoesNotFit`.
pub fn linker_utils_write_uleb128_nonnull(dest: &mut [u8], value: u64) -> u32 {
    uleb_status_of(utils::write_uleb128(dest, value))
}

/// Writes what two relocations make of the ULEB128 number that `dest` begins with, in as many
/// bytes, by the type of the first and the values of both. The first that applies of
/// `UnknownArchitecture`; `UnknownRelocation`, where the type isn't that of a first one;
/// `Uleb128Ended`; `Uleb128TooLarge`; `DoesNotFit`.
pub fn linker_utils_write_uleb128_pair_nonnull(
    machine: u16,
    r_type: u32,
    dest: &mut [u8],
    first: u64,
    second: u64,
) -> u32 {
    let architecture = or_return!(Architecture::from_machine(machine), UnknownArchitecture);
    match architecture.write_uleb128_pair(r_type, dest, first, second) {
        Ok(()) => Status::Success as u32,
        Err(Uleb128PairError::NotFirst) => Status::UnknownRelocation as u32,
        Err(Uleb128PairError::Number(error)) => uleb_status_of(Err(error)),
    }
}
