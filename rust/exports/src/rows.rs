// SPDX-License-Identifier: MIT OR Apache-2.0
// Made by tools/generate of crates/linker_utils_c/src/rows.rt.
//! Relocations by handles: one look-up by `e_machine` and `r_type`, and all calls by its result.

use crate::choices::{ChoiceNumbers, LinkFactNumbers, choose_in_numbers};
use crate::relocate::{Reach, reach_by, reach_in, status_of, value_by, value_status, write_by};
use crate::sections::{RequirementNumbers, in_numbers, needs_by};
use crate::status::{Status, or_return};
use linker_utils::source::section::needs;
use linker_utils::architecture::fits;
use linker_utils::elf::{
    ApplyError, Architecture, HANDLE_UNIT, Operands, RelocationKind, Row, RowSize,
};

/// The row of a handle, if it is one.
#[inline(always)]
fn row_of(handle: u32) -> Option<Row> {
    match Architecture::of_handle(handle) {
        Some(architecture) => architecture.row(handle % HANDLE_UNIT),
        None => None,
    }
}

/// The handle of the relocation with `r_type` in files with `e_machine` `machine`; 0 where the
/// architecture isn't known, or no meaning.
pub fn linker_utils_find(machine: u16, r_type: u32) -> u32 {
    let Some(architecture) = Architecture::from_machine(machine) else {
        return 0;
    };
    architecture.handle(r_type)
}

/// The value of a relocation by its handle. The first that applies of `UnknownRelocation`;
/// `NoEntry`; `NoTlsBase`; `NoValue`.
pub fn linker_utils_row_value(handle: u32, operands: &Operands, value: &mut i64) -> u32 {
    value_by(row_of(handle), operands, value)
}

/// Writes the value of a relocation by its handle. The first that applies of `UnknownRelocation`;
/// `Unsupported`; `TooShort`; `Misaligned`; `OutOfReach`.
pub fn linker_utils_row_write_nonnull(handle: u32, value: i64, dest: &mut [u8]) -> u32 {
    write_by(row_of(handle), value, dest)
}

/// The status of a relocation that is applied, or of why it isn't.
#[inline(always)]
fn status_applied(outcome: Option<Result<(), ApplyError>>) -> u32 {
    match outcome {
        Some(Ok(())) => Status::Success as u32,
        Some(Err(ApplyError::Formula(error))) => value_status(error),
        Some(Err(ApplyError::Write(error))) => status_of(Err(error)),
        None => Status::UnknownRelocation as u32,
    }
}

/// `Architecture::apply` of a handle.
#[inline(always)]
fn applied(handle: u32, operands: &Operands, dest: &mut [u8]) -> Option<Result<(), ApplyError>> {
    match Architecture::of_handle(handle) {
        Some(architecture) => architecture.apply(handle % HANDLE_UNIT, operands, dest),
        None => None,
    }
}

/// Computes the value of a relocation by its handle and writes it. The first that applies of
/// `UnknownRelocation`; `NoEntry`; `NoTlsBase`; `NoValue`; `Unsupported`; `TooShort`; `Misaligned`;
/// `OutOfReach`.
#[inline(always)]
pub fn linker_utils_row_apply_nonnull(
    handle: u32,
    operands: &Operands,
    dest: &mut [u8],
) -> u32 {
    status_applied(applied(handle, operands, dest))
}

/// The values of a relocation that can be written, by its handle. `UnknownRelocation`.
pub fn linker_utils_row_reach(handle: u32, reach: &mut Reach) -> u32 {
    reach_by(row_of(handle), reach)
}

/// What a relocation requires, by its handle, as `linker_utils_needs`. `UnknownRelocation`.
pub fn linker_utils_row_needs(
    handle: u32,
    addend: i64,
    is_thread_local: bool,
    required: &mut RequirementNumbers,
) -> u32 {
    match Architecture::of_handle(handle) {
        Some(architecture) => {
            let needs = needs(architecture, handle % HANDLE_UNIT, addend, is_thread_local);
            needs_by(needs, required)
        }
        None => Status::UnknownRelocation as u32,
    }
}

/// Which rewrite a linker makes of the instruction at a relocation, by its handle, as
/// `linker_utils_choose`. `UnknownRelocation`.
pub fn linker_utils_row_choose_nonnull(
    handle: u32,
    section: &[u8],
    offset: u64,
    facts: &LinkFactNumbers,
    choice: &mut ChoiceNumbers,
) -> u32 {
    let architecture = or_return!(Architecture::of_handle(handle), UnknownRelocation);
    let r_type = handle % HANDLE_UNIT;
    let _ = or_return!(architecture.row(r_type), UnknownRelocation);
    *choice = choose_in_numbers(architecture, r_type, section, offset, &facts.facts());
    Status::Success as u32
}

/// Whether a relocation can be rewritten if each other one of its sequence can, by its handle, as
/// `linker_utils_relocation_fits`. False of a number that is no handle.
pub fn linker_utils_row_fits_nonnull(
    handle: u32,
    section: &[u8],
    offset: u64,
    facts: &LinkFactNumbers,
) -> bool {
    let Some(architecture) = Architecture::of_handle(handle) else {
        return false;
    };
    let r_type = handle % HANDLE_UNIT;
    match architecture.row(r_type) {
        Some(_) => fits(architecture, r_type, section, offset, &facts.facts()),
        None => false,
    }
}

/// What a relocation means and requires, in numbers. A fact holds where its number is 1.
#[repr(C)]
#[derive(Clone, Copy)]
pub struct RowNumbers {
    /// What each value has to be a multiple of.
    pub alignment: u64,
    /// Which values can be written.
    pub reach: Reach,
    /// What it requires with the addend 1, of a symbol that isn't thread-local.
    pub needs: RequirementNumbers,
    /// The relocation's type.
    pub r_type: u32,
    /// The formula of its value.
    pub kind: u32,
    /// The machine.
    pub machine: u16,
    /// How many bytes a write writes.
    pub window: u8,
    /// 1 where an entry of the PLT may serve as its target; else 0.
    pub may_use_plt: u8,
    /// 1 where its value is relative to its place; else 0.
    pub is_relative: u8,
    /// Its name, with a NUL after it.
    pub name: [u8; 40],
}

/// Whether the formula has the place.
#[inline(always)]
fn is_relative(kind: RelocationKind, size: RowSize) -> bool {
    match kind {
        RelocationKind::Relative => !matches!(size, RowSize::ByteSize(0)),
        RelocationKind::RelativeRiscVLow12
        | RelocationKind::RelativeLoongArchHigh
        | RelocationKind::GotRelative
        | RelocationKind::GotRelativeLoongArch64
        | RelocationKind::PltRelative
        | RelocationKind::TlsGd
        | RelocationKind::TlsLd
        | RelocationKind::GotTpOff
        | RelocationKind::GotTpOffLoongArch64
        | RelocationKind::TlsDesc
        | RelocationKind::TlsDescLoongArch64 => true,
        _ => false,
    }
}

/// The name of a type, and NULs.
fn padded_name(architecture: Architecture, r_type: u32) -> [u8; 40] {
    let mut name = [0u8; 40];
    if let Some(text) = architecture.name(r_type) {
        name[..text.len()].copy_from_slice(text.as_bytes());
    }
    name
}

/// What a relocation of a type requires with the addend 1, of a symbol that isn't thread-local.
fn requirements(architecture: Architecture, r_type: u32) -> RequirementNumbers {
    match needs(architecture, r_type, 1, false) {
        Some(needs) => in_numbers(&needs),
        None => RequirementNumbers {
            entry_addend: 0,
            entry_class: 0,
            is_branch: 0,
            may_use_stub: 0,
            stub_only_if_undefined: 0,
            is_word: 0,
            depends_on_load: 0,
        },
    }
}

/// A type's row in numbers.
fn row_numbers(architecture: Architecture, r_type: u32, row: &Row) -> RowNumbers {
    let info = row.info();
    RowNumbers {
        alignment: info.alignment,
        reach: reach_in(row),
        needs: requirements(architecture, r_type),
        r_type,
        kind: row.numbers().kind,
        machine: architecture.machine(),
        window: row.window() as u8,
        may_use_plt: row.may_use_plt().into(),
        is_relative: is_relative(info.kind, info.size).into(),
        name: padded_name(architecture, r_type),
    }
}

/// What a relocation means and requires, by its handle. `UnknownRelocation`.
pub fn linker_utils_row_of(handle: u32, row: &mut RowNumbers) -> u32 {
    let architecture = or_return!(Architecture::of_handle(handle), UnknownRelocation);
    let r_type = handle % HANDLE_UNIT;
    let found = or_return!(architecture.row(r_type), UnknownRelocation);
    *row = row_numbers(architecture, r_type, &found);
    Status::Success as u32
}
