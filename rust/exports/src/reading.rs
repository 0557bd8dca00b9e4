// SPDX-License-Identifier: MIT OR Apache-2.0
// Made by tools/generate of crates/linker_utils_c/src/reading.rt.
//! The numbers in immediates; what stands in the fields of linked relocations, and the addresses
//! after it.

use crate::forms::form_of;
use crate::status::{Status, or_return};
use linker_utils::source::reading::FieldValue;
use linker_utils::source::reading::operand;
use linker_utils::source::reading::read;
use linker_utils::source::reading::{Reference, Terms, join, solve, terms_of};
use linker_utils::bit_misc::BitRange;
use linker_utils::elf::{AnyForm, Architecture, Operands, Row};

/// The number that the machine makes of the immediate of the instruction that the bytes begin with,
/// as `operand` of `reading` returns it. The first that applies of `UnknownArchitecture`;
/// `UnknownForm`; `DoesNotMatch`, where the bytes don't begin with an instruction of the form.
pub fn linker_utils_operand_nonnull(
    machine: u16,
    form: u32,
    bytes: &[u8],
    number: &mut i64,
) -> u32 {
    match form_of(machine, form) {
        Ok(named) => put_operand(named, bytes, number),
        Err(status) => status,
    }
}

#[inline(always)]
fn put_operand(form: AnyForm, bytes: &[u8], number: &mut i64) -> u32 {
    *number = or_return!(operand(form, bytes), DoesNotMatch);
    Status::Success as u32
}

/// What is known of a number of 64 bits, a relocation's value or an address.
#[repr(C)]
#[derive(Clone, Copy)]
pub struct FieldValueNumbers {
    /// The known bits of the sum of the number and `rounding`, the first of them at bit 0.
    pub bits: u64,
    /// What was added to the number, modulo 2^64, before its bits were taken.
    pub rounding: u64,
    /// The first known bit. Bit 0 is the lowest.
    pub first_bit: u8,
    /// The first bit above the known ones.
    pub end_bit: u8,
}

impl FieldValueNumbers {
    #[inline(always)]
    pub(crate) fn of(field: FieldValue) -> FieldValueNumbers {
        FieldValueNumbers {
            bits: field.bits,
            rounding: field.rounding,
            first_bit: field.known.start,
            end_bit: field.known.end,
        }
    }

    #[inline(always)]
    pub(crate) fn field(&self) -> FieldValue {
        FieldValue {
            known: BitRange {
                start: self.first_bit,
                end: self.end_bit,
            },
            bits: self.bits,
            rounding: self.rounding,
        }
    }
}

/// What is known of the value of the relocation with `r_type` from the bytes that begin with its
/// field, as `read` of `reading` returns it. The first that applies of
/// `UnknownArchitecture`; `UnknownRelocation`; `TooShort`, where there are fewer bytes than the
/// field's; `HoldsNoValue`.
pub fn linker_utils_read_value_nonnull(
    machine: u16,
    r_type: u32,
    bytes: &[u8],
    value: &mut FieldValueNumbers,
) -> u32 {
    let architecture = or_return!(Architecture::from_machine(machine), UnknownArchitecture);
    let meaning = or_return!(architecture.row(r_type), UnknownRelocation);
    read_row(&meaning, bytes, value)
}

#[inline(always)]
fn read_row(row: &Row, bytes: &[u8], value: &mut FieldValueNumbers) -> u32 {
    match read(row, bytes) {
        Some(field) => {
            *value = FieldValueNumbers::of(field);
            Status::Success as u32
        }
        None => {
            if bytes.len() < row.window() {
                Status::TooShort as u32
            } else {
                Status::HoldsNoValue as u32
            }
        }
    }
}

#[inline(always)]
pub(crate) fn reference_number(reference: Reference) -> u32 {
    match reference {
        Reference::Symbol => 0,
        Reference::GotEntry => 1,
        Reference::PltEntry => 2,
    }
}

/// Writes the address that was solved for, with what it is that of.
#[inline(always)]
fn put_address(
    terms: Option<Terms>,
    solution: Option<FieldValue>,
    reference: &mut u32,
    address: &mut FieldValueNumbers,
) -> u32 {
    match terms {
        None => Status::NoAddress as u32,
        Some(terms) => match solution {
            None => Status::NoAddress as u32,
            Some(solution) => {
                *reference = reference_number(terms.reference);
                *address = FieldValueNumbers::of(solution);
                Status::Success as u32
            }
        },
    }
}

fn solve_row(
    row: &Row,
    value: &FieldValueNumbers,
    operands: &Operands,
    reference: &mut u32,
    address: &mut FieldValueNumbers,
) -> u32 {
    let field = value.field();
    if !field.is_proper() {
        return Status::BadFieldValue as u32;
    }
    let info = row.info();
    let solution = solve(&info, &field, operands);
    put_address(terms_of(info.kind, info.size), solution, reference, address)
}

/// What is known of the address that the value of the relocation with `r_type` comes from, as
/// `solve` of `reading` returns it, and into `reference` which address it is: 0 that of the
/// symbol, 1 that of the GOT entry, 2 that of the PLT entry. Of the operands only the place, the
/// GOT's address and the base of TLS are read. The first that applies of `UnknownArchitecture`;
/// `UnknownRelocation`; `BadFieldValue`; `NoAddress`, also where the base of TLS is read and there
/// is none.
pub fn linker_utils_solve(
    machine: u16,
    r_type: u32,
    value: &FieldValueNumbers,
    operands: &Operands,
    reference: &mut u32,
    address: &mut FieldValueNumbers,
) -> u32 {
    let architecture = or_return!(Architecture::from_machine(machine), UnknownArchitecture);
    let meaning = or_return!(architecture.row(r_type), UnknownRelocation);
    solve_row(&meaning, value, operands, reference, address)
}

#[inline(always)]
fn put_whole(joined: Option<FieldValue>, whole: &mut FieldValueNumbers) -> u32 {
    let joined = or_return!(joined, NotHalves);
    *whole = FieldValueNumbers::of(joined);
    Status::Success as u32
}

/// What is known of an address from both halves of a pair, as `join` of `reading` returns
/// it. The first that applies of `BadFieldValue`, of either half, and `NotHalves`.
pub fn linker_utils_join(
    high: &FieldValueNumbers,
    low: &FieldValueNumbers,
    whole: &mut FieldValueNumbers,
) -> u32 {
    let high = high.field();
    let low = low.field();
    if !high.is_proper() || !low.is_proper() {
        return Status::BadFieldValue as u32;
    }
    put_whole(join(&high, &low), whole)
}
