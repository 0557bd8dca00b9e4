// SPDX-License-Identifier: MIT OR Apache-2.0
// Made by tools/generate of crates/linker_utils_c/src/recognising.rt.
//! What a linker made of a relocation, by the bytes before and after, and the bits of its field.

use crate::choices::{ChoiceNumbers, LinkFactNumbers, in_numbers};
use crate::reading::{FieldValueNumbers, reference_number};
use crate::status::{Status, or_return};
use linker_utils::source::reading::FieldValue;
use linker_utils::source::recognise::architecture::{
    Destination, destination_of, recognise, recognise_chosen, window_of,
};
use linker_utils::source::recognise::{FieldBits, field_bits, same_but_for};
use linker_utils::source::recognise::{CANDIDATES, MAX_WINDOW, Recognised};
use linker_utils::architecture::Relaxation;
use linker_utils::elf::{Architecture, Choice, Operands, RewriteWindow, Row};

/// Which bits of the bytes that `bytes` begins with a write of the relocation with `r_type` may
/// change, bit 0 the lowest of the first byte, as `field_bits` of `reading` returns them.
/// The first that applies of `UnknownArchitecture`; `UnknownRelocation`; `TooShort`.
pub fn linker_utils_field_bits_nonnull(
    machine: u16,
    r_type: u32,
    bytes: &[u8],
    bits: &mut u64,
) -> u32 {
    let architecture = or_return!(Architecture::from_machine(machine), UnknownArchitecture);
    let meaning = or_return!(architecture.row(r_type), UnknownRelocation);
    put_bits(&meaning, bytes, bits)
}

#[inline(always)]
fn put_bits(row: &Row, bytes: &[u8], bits: &mut u64) -> u32 {
    if bytes.len() < row.window() {
        return Status::TooShort as u32;
    }
    *bits = field_bits(row, bytes);
    Status::Success as u32
}

/// Whether two windows of the same length, which begin with the field of the relocation with
/// `r_type`, differ in the field only. False where the machine or the type is unknown, the lengths
/// differ or the field isn't in the windows.
pub fn linker_utils_same_but_for_nonnull(
    machine: u16,
    r_type: u32,
    a: &[u8],
    b: &[u8],
) -> bool {
    let Some(architecture) = Architecture::from_machine(machine) else {
        return false;
    };
    match architecture.row(r_type) {
        Some(meaning) => same_but_for(&meaning, a, b),
        None => false,
    }
}

/// A rewrite that leaves the linked bytes, in numbers.
#[repr(C)]
#[derive(Clone, Copy)]
pub struct RecognisedNumbers {
    /// The rewrite, the relocation after it and what is deleted.
    pub choice: ChoiceNumbers,
    /// The offset of that relocation's field in the linked bytes.
    pub offset: u64,
    /// What is known of its value from the field; no bits where nothing is.
    pub value: FieldValueNumbers,
}

#[inline(always)]
fn known_of(value: Option<FieldValue>) -> FieldValueNumbers {
    match value {
        Some(field) => FieldValueNumbers::of(field),
        None => FieldValueNumbers {
            bits: 0,
            rounding: 0,
            first_bit: 0,
            end_bit: 0,
        },
    }
}

#[inline]
fn numbers_of(made: Recognised<Relaxation, u32>) -> RecognisedNumbers {
    RecognisedNumbers {
        choice: in_numbers(made.choice),
        offset: made.offset,
        value: known_of(made.value),
    }
}

/// Writes what was found, and returns how many it is.
fn write_found(
    made: &[Option<Recognised<Relaxation, u32>>],
    found: &mut [RecognisedNumbers],
) -> usize {
    let mut count = 0;
    for index in 0..made.len() {
        if let Some(one) = made[index] {
            found[count] = numbers_of(one);
            count += 1;
        }
    }
    count
}

/// Writes the window that `linker_utils_recognise` wants around the relocation with `r_type`, whose
/// offset in the original bytes is given, as `window_of` of `reading`. The first that
/// applies of `UnknownArchitecture`; `WindowTooLong`.
pub fn linker_utils_recognise_window_nonnull(
    machine: u16,
    r_type: u32,
    original: &[u8],
    offset: u64,
    window: &mut RewriteWindow,
) -> u32 {
    let architecture = or_return!(Architecture::from_machine(machine), UnknownArchitecture);
    if original.len() > MAX_WINDOW {
        return Status::WindowTooLong as u32;
    }
    *window = window_of(architecture, r_type, original, offset);
    Status::Success as u32
}

/// Writes which rewrites, and relocations after them, a linker may have made at the relocation with
/// `r_type`, whose offset in the original bytes is given, as `recognise` of `reading`.
/// `count` is how many there are, and the elements of `found` from there on are unchanged.
///
/// `found` has 6 elements. The first that applies of `UnknownArchitecture`; `DifferentLengths`;
/// `WindowTooLong`. Nothing is written then.
pub fn linker_utils_recognise_nonnull(
    machine: u16,
    r_type: u32,
    original: &[u8],
    offset: u64,
    others: &[FieldBits],
    linked: &[u8],
    found: &mut [RecognisedNumbers],
    count: &mut usize,
) -> u32 {
    let architecture = or_return!(Architecture::from_machine(machine), UnknownArchitecture);
    recognise_into(
        architecture,
        r_type,
        original,
        offset,
        others,
        linked,
        found,
        count,
    )
}

fn recognise_into(
    architecture: Architecture,
    r_type: u32,
    original: &[u8],
    offset: u64,
    others: &[FieldBits],
    linked: &[u8],
    found: &mut [RecognisedNumbers],
    count: &mut usize,
) -> u32 {
    if found.len() != CANDIDATES {
        return Status::DifferentLengths as u32;
    }
    if original.len() > MAX_WINDOW {
        return Status::WindowTooLong as u32;
    }
    let made = recognise(architecture, r_type, original, offset, others, linked);
    *count = write_found(&made, found);
    Status::Success as u32
}

/// Writes the choice that `linker_utils_choose` makes by these facts, if it leaves the linked
/// bytes, as `linker_utils_recognise` says. The first that applies of `UnknownArchitecture`;
/// `WindowTooLong`; `LeavesOtherBytes`.
pub fn linker_utils_recognise_chosen_nonnull(
    machine: u16,
    r_type: u32,
    original: &[u8],
    offset: u64,
    others: &[FieldBits],
    linked: &[u8],
    facts: &LinkFactNumbers,
    found: &mut RecognisedNumbers,
) -> u32 {
    let architecture = or_return!(Architecture::from_machine(machine), UnknownArchitecture);
    if original.len() > MAX_WINDOW {
        return Status::WindowTooLong as u32;
    }
    put_chosen(
        recognise_chosen(
            architecture,
            r_type,
            original,
            offset,
            others,
            linked,
            &facts.facts(),
        ),
        found,
    )
}

#[inline(always)]
fn put_chosen(made: Option<Recognised<Relaxation, u32>>, found: &mut RecognisedNumbers) -> u32 {
    let made = or_return!(made, LeavesOtherBytes);
    *found = numbers_of(made);
    Status::Success as u32
}

/// Where a recognised relocation leads, in numbers.
#[repr(C)]
#[derive(Clone, Copy)]
pub struct DestinationNumbers {
    /// What is known of the address: of S + A, L + A, or the GOT entry's.
    pub address: FieldValueNumbers,
    /// A, the addend of the relocation after the rewrite.
    pub addend: i64,
    /// S, or L of a relocation that goes by a PLT entry, as `symbol` of `Destination` returns it; 0
    /// where `has_symbol` is.
    pub symbol: u64,
    /// Which address it is: 0 S + A, 1 the GOT entry's, 2 L + A.
    pub reference: u32,
    /// 1 where `symbol` is known; 0 of a GOT entry's address, and where not all bits are known.
    pub has_symbol: u8,
}

/// A destination in numbers.
#[inline(always)]
fn destination_in(destination: &Destination, st_other: u8) -> DestinationNumbers {
    let (has_symbol, symbol) = match destination.symbol(st_other) {
        Some(symbol) => (1, symbol),
        None => (0, 0),
    };
    DestinationNumbers {
        address: FieldValueNumbers::of(destination.address),
        addend: destination.addend,
        symbol,
        reference: reference_number(destination.reference),
        has_symbol,
    }
}

/// Writes where a relocation leads, if it leads anywhere.
#[inline(always)]
fn put_destination(
    found: Option<Destination>,
    st_other: u8,
    destination: &mut DestinationNumbers,
) -> u32 {
    let found = or_return!(found, NoAddress);
    *destination = destination_in(&found, st_other);
    Status::Success as u32
}

/// Where a relocation leads after a rewrite of the architecture that has these numbers.
fn put_destination_of(
    architecture: Architecture,
    made: &RecognisedNumbers,
    original: &[u8],
    offset: u64,
    operands: &Operands,
    st_other: u8,
    destination: &mut DestinationNumbers,
) -> u32 {
    let choice = &made.choice;
    let kind = or_return!(
        Relaxation::from_number(architecture, choice.rewrite, choice.opcode_len),
        UnknownRewrite
    );
    let made = Recognised {
        choice: Choice {
            kind,
            relocation: choice.relocation,
        },
        offset: made.offset,
        value: Some(made.value.field()),
    };
    put_destination(
        destination_of(architecture, &made, original, offset, operands),
        st_other,
        destination,
    )
}

/// Where a relocation leads that `linker_utils_recognise` or `linker_utils_recognise_chosen` found,
/// with the same original bytes and offset, as `destination_of` of `reading`; the symbol by
/// its `st_other`. The first that applies of `UnknownArchitecture`; `WindowTooLong`;
/// `UnknownRewrite`; `NoAddress`.
pub fn linker_utils_get_destination_nonnull(
    machine: u16,
    made: &RecognisedNumbers,
    original: &[u8],
    offset: u64,
    operands: &Operands,
    st_other: u8,
    destination: &mut DestinationNumbers,
) -> u32 {
    let architecture = or_return!(Architecture::from_machine(machine), UnknownArchitecture);
    if original.len() > MAX_WINDOW {
        return Status::WindowTooLong as u32;
    }
    put_destination_of(
        architecture,
        made,
        original,
        offset,
        operands,
        st_other,
        destination,
    )
}
