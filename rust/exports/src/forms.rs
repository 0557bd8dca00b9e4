// SPDX-License-Identifier: MIT OR Apache-2.0
// Made by tools/generate of crates/linker_utils_c/src/forms.rt.
//! Values in the immediates of instructions, by `e_machine` and a form's number.

use crate::architectures::{by_architecture, known};
use crate::status::{Status, or_return};
use linker_utils::elf::{
    AArch64Instruction, AnyForm, Architecture, InstructionForm, LoongArch64Instruction, Ppc64Form,
    RiscVInstruction,
};

/// The form of an architecture and a number, or the status that says which of the two is unknown.
#[inline(always)]
fn form_in(architecture: Architecture, form: u32) -> Result<AnyForm, u32> {
    match architecture {
        Architecture::X86_64 => Err(Status::UnknownArchitecture as u32),
        _ => architecture.form(form).ok_or(Status::UnknownForm as u32),
    }
}

/// The same by a machine.
#[inline(always)]
pub(crate) fn form_of(machine: u16, form: u32) -> Result<AnyForm, u32> {
    match Architecture::from_machine(machine) {
        Some(architecture) => form_in(architecture, form),
        None => Err(Status::UnknownArchitecture as u32),
    }
}

/// The length in bytes of a form's window, into `window`. The errors are `UnknownArchitecture` and
/// `UnknownForm`.
pub fn linker_utils_window(machine: u16, form: u32, window: &mut usize) -> u32 {
    match form_of(machine, form) {
        Ok(named) => {
            *window = named.window();
            Status::Success as u32
        }
        Err(status) => status,
    }
}

/// Whether `linker_utils_write` of the value to these bytes would succeed: the status is that of
/// the write.
pub fn linker_utils_fits_nonnull(
    machine: u16,
    form: u32,
    value: u64,
    bytes: &[u8],
) -> u32 {
    match form_of(machine, form) {
        Ok(named) => fit(named, value, bytes),
        Err(status) => status,
    }
}

#[inline(always)]
fn fit<F: InstructionForm>(form: F, value: u64, bytes: &[u8]) -> u32 {
    if bytes.len() < form.window() {
        return Status::TooShort as u32;
    }
    if !form.fits(value, bytes) {
        return Status::DoesNotFit as u32;
    }
    Status::Success as u32
}

// Writes a value by a form, if there is one: `AnyForm` would require its architecture again.
#[inline(always)]
fn write_by<F: InstructionForm>(form: Option<F>, value: u64, negative: bool, dest: &mut [u8]) -> u32 {
    let named = or_return!(form, UnknownForm);
    let status = fit(named, value, dest);
    if status == Status::Success as u32 {
        named.write(value, negative, dest);
    }
    status
}

/// Writes a value and its sign into the instruction that `dest` begins with, and changes no bit but
/// the form's. The error is the first that applies of `UnknownArchitecture`, `UnknownForm`,
/// `TooShort` with fewer bytes than the window, and `DoesNotFit`.
pub fn linker_utils_write_nonnull(
    machine: u16,
    form: u32,
    value: u64,
    negative: bool,
    dest: &mut [u8],
) -> u32 {
    let architecture = or_return!(Architecture::from_machine(machine), UnknownArchitecture);
    match architecture {
        Architecture::AArch64 => {
            write_by(AArch64Instruction::from_number(form), value, negative, dest)
        }
        Architecture::RiscV => {
            write_by(RiscVInstruction::from_number(form), value, negative, dest)
        }
        Architecture::LoongArch64 => {
            write_by(
                LoongArch64Instruction::from_number(form),
                value,
                negative,
                dest,
            )
        }
        Architecture::Ppc64 => { write_by(Ppc64Form::from_number(form), value, negative, dest) }
        Architecture::X86_64 => Status::UnknownArchitecture as u32,
    }
}

/// The longest window of a form, in bytes. Only near a section's end are fewer left, so that the
/// window of the form itself is seldom required.
const LONGEST_WINDOW: usize = 8;

// Reads a value by a form, if there is one.
#[inline(always)]
fn read_by(form: Result<AnyForm, u32>, bytes: &[u8], value: &mut u64, negative: &mut u8) -> u32 {
    let named = match form {
        Ok(named) => named,
        Err(status) => return status,
    };
    if bytes.len() < LONGEST_WINDOW && bytes.len() < named.window() {
        return Status::TooShort as u32;
    }
    let (number, flag) = named.read(bytes);
    *value = number;
    *negative = u8::from(flag);
    Status::Success as u32
}

/// Reads the value in the instruction that `bytes` begins with, modulo 2^64, and the form's flag,
/// 0 or 1. The error is the first that applies of `UnknownArchitecture`, `UnknownForm`, and
/// `TooShort` with fewer bytes than the window.
pub fn linker_utils_read_nonnull(
    machine: u16,
    form: u32,
    bytes: &[u8],
    value: &mut u64,
    negative: &mut u8,
) -> u32 {
    let architecture = or_return!(Architecture::from_machine(machine), UnknownArchitecture);
    by_architecture!(architecture, known(of => {
        read_by(form_in(of, form), bytes, value, negative)
    }))
}
