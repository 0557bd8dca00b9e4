// SPDX-License-Identifier: MIT OR Apache-2.0
// Made by tools/generate of crates/linker_section/src/sections.rt.
//! The values of a section's relocations, written.

use crate::linker_section::ascending::{write_ascending_of, write_second_run};
use crate::linker_section::conditions::{has_length, has_offset, is_filled, is_in_reach, lacks_stub};
use crate::linker_section::facts::{Addresses, Symbol};
use crate::linker_section::fields::{Field, begins_pair, ends_pair, is_of_pair, uleb_len};
use crate::linker_section::order::{field_in, first_overlap};
use crate::linker_section::relocations::{Rela, is_ascending, relocation_in, relocations_len};
use crate::linker_section::saved::{restore, word_at};
use crate::linker_section::symbols::{ByIndex, Known, Symbols};
use crate::linker_section::values::{ValueError, value_of};
use crate::linker_base::utils::{self, Uleb128Error};
use crate::linker_elf::elf::architecture::pair_number;
use crate::linker_elf::elf::{Architecture, RelocateError, RelocationKind, Row, Uleb128Role};

/// Why a relocation's value isn't written.
#[cfg_attr(not(exhaustive), non_exhaustive)]
#[derive(Clone, Copy, Debug, PartialEq, Eq, Hash)]
pub enum RelocationError {
    /// It has no value.
    Value(ValueError),
    /// Its field has a byte of that of an earlier relocation, with which it doesn't compose.
    Overlaps,
    /// The instruction there is shorter or longer than its form: one of RISC-V, or one of PowerPC64
    /// without a prefix at a relocation of 34 bits.
    OtherLength,
    /// Its value can't be written, as [`Row::write`](crate::elf::Row::write) says. An offset past the section's end is
    /// `TooShort`. A relocation of a ULEB128 number is `Unsupported` where it isn't of a pair. An
    /// offset from the thread pointer is `OutOfReach` also where the instruction's base register is
    /// the thread pointer, and the offset isn't in -0x800..0x800: of `R_RISCV_TPREL_LO12_I`,
    /// `R_RISCV_TPREL_LO12_S`, `R_LARCH_TLS_LE_LO12` and `R_LARCH_TLS_LE_LO12_R`.
    Write(RelocateError),
    /// The number of the pair at a ULEB128 number that it begins isn't written.
    Uleb128(Uleb128Error),
}

/// The first relocation of a section whose value isn't written.
#[derive(Clone, Copy, Debug, PartialEq, Eq)]
pub struct SectionError {
    /// Its index.
    pub index: usize,
    /// Why it isn't.
    pub error: RelocationError,
}

/// Writes a value to the bytes from an offset on, of which it isn't an offset from the thread
/// pointer that an instruction with this base doesn't hold.
#[inline(always)]
pub(crate) fn write_held_at(
    row: &Row,
    value: i64,
    offset: u64,
    section: &mut [u8],
) -> Result<(), RelocateError> {
    if (section.len() as u64) < offset {
        return Err(RelocateError::TooShort);
    }
    row.write(value, &mut section[offset as usize..])
}

/// Writes a value to the bytes from an offset on.
#[inline(always)]
fn write_at(row: &Row, value: i64, offset: u64, section: &mut [u8]) -> Result<(), RelocateError> {
    if !has_offset(row, value, offset, section) {
        return Err(RelocateError::OutOfReach);
    }
    write_held_at(row, value, offset, section)
}

/// Whether the value of a relocation isn't written, by what is known of its symbol.
#[inline(always)]
fn is_known_left_out<K: Known>(known: Option<K>) -> bool {
    match known {
        Some(known) => known.is_left_out(),
        None => false,
    }
}

/// Whether the value of the relocation with an index isn't written.
#[inline(always)]
fn is_left_out<S: Symbols>(symbols: S, relocations: &[u8], index: usize) -> bool {
    is_known_left_out(symbols.find(index, &relocation_in(relocations, index)))
}

/// Whether the value of a relocation with a row isn't written.
#[inline(always)]
fn is_skipped<K: Known>(row: &Row, known: Option<K>) -> bool {
    is_known_left_out(known) && !is_of_pair(&row.info())
}

/// The row and the value of the relocation with an index. None of one without a value, and of one
/// that is left out, except for those of a pair at a ULEB128 number.
pub(crate) fn row_value<S: Symbols>(
    architecture: Architecture,
    addresses: &Addresses,
    relocations: &[u8],
    symbols: S,
    index: usize,
    relocation: &Rela,
) -> Result<Option<(Row, i64)>, ValueError> {
    let Some(row) = architecture.row(relocation.r_type) else {
        return Err(ValueError::UnknownType);
    };
    let known = symbols.find(index, relocation);
    if is_skipped(&row, known) {
        return Ok(None);
    }
    match value_of(
        architecture,
        addresses,
        relocations,
        symbols,
        &row,
        relocation,
        known,
    ) {
        Ok(Some(value)) => {
            if lacks_stub(architecture, relocation, known) {
                Err(ValueError::NeedsStub)
            } else if !is_in_reach(architecture, relocations, relocation, value) {
                Err(ValueError::OutOfReach)
            } else {
                Ok(Some((row, value)))
            }
        }
        Ok(None) => {
            if is_filled(architecture, addresses, relocation) {
                Ok(None)
            } else {
                Err(ValueError::NotAligned)
            }
        }
        Err(error) => Err(error),
    }
}

/// The role of a pair's first relocation, whose second is of a kind.
#[inline(always)]
fn first_role(kind: RelocationKind) -> Uleb128Role {
    match kind {
        RelocationKind::PairSubtractionULEB128LoongArch => Uleb128Role::Adds,
        _ => Uleb128Role::Sets,
    }
}

/// The number that a pair writes over that at an offset.
fn number_of_pair(kind: RelocationKind, first: i64, second: i64, offset: u64, section: &[u8]) -> u64 {
    let role = first_role(kind);
    let (first, second) = (first as u64, second as u64);
    if (section.len() as u64) < offset {
        return pair_number(role, &[], first, second);
    }
    pair_number(role, &section[offset as usize..], first, second)
}

/// Writes a number in place of the ULEB128 number at an offset.
#[inline(always)]
fn write_number_at(number: u64, offset: u64, section: &mut [u8]) -> Result<(), Uleb128Error> {
    if (section.len() as u64) < offset {
        return Err(Uleb128Error::Ended);
    }
    utils::write_uleb128(&mut section[offset as usize..], number)
}

/// The field of a relocation of a row at an offset.
#[inline(always)]
pub(crate) fn field_at(row: &Row, offset: u64, section: &[u8]) -> Field {
    let info = row.info();
    let len = if is_of_pair(&info) {
        number_len_at(offset, section)
    } else {
        row.window()
    };
    Field {
        offset,
        len,
        kind: info.kind,
    }
}

/// How many bytes of a section the relocation at an index writes, of at most ten: those of its row,
/// or as many as the ULEB128 number has that it is at. None are of a relocation whose `r_type` has
/// no row, or that has no value, as marks.
///
/// # Requires
///
/// - `index < memory_len(relocations)`
#[must_use]
#[cfg_attr(debug_assertions, track_caller)]
pub fn field_len(
    architecture: Architecture,
    relocations: &[u8],
    section: &[u8],
    index: usize,
) -> usize {
    debug_assert!(index < memory_len(relocations));
    match field_in(architecture, relocations, section, index) {
        Some(field) => field.len,
        None => 0,
    }
}

/// How many bytes the ULEB128 number at an offset has.
#[inline(never)]
fn number_len_at(offset: u64, section: &[u8]) -> usize {
    if (section.len() as u64) < offset {
        return 0;
    }
    uleb_len(&section[offset as usize..])
}

/// Whether a field overlaps none of those before it, except those with which its relocation
/// composes. The last of them says so where relocations ascend by offset; else there is the index
/// of the first that does.
#[inline(always)]
fn is_clear(limit: Option<usize>, index: usize, field: &Field, last: &Field) -> bool {
    match limit {
        None => field.len == 0 || field.is_clear_of(last),
        Some(limit) => index != limit,
    }
}

/// The second of a pair at a ULEB128 number whose first is at an index and has a row.
#[inline(always)]
pub(crate) fn second_of_pair(
    architecture: Architecture,
    relocations: &[u8],
    index: usize,
    row: &Row,
) -> Option<Rela> {
    let info = row.info();
    if begins_pair(info.size, info.kind) {
        next_of_pair(architecture, relocations, index)
    } else {
        None
    }
}

/// The next relocation, if it is the second of a pair at the same offset.
#[inline(never)]
fn next_of_pair(architecture: Architecture, relocations: &[u8], index: usize) -> Option<Rela> {
    if relocations_len(relocations) - index < 2 {
        return None;
    }
    let first = relocation_in(relocations, index);
    let second = relocation_in(relocations, index + 1);
    if second.offset != first.offset {
        return None;
    }
    let Some(row) = architecture.row(second.r_type) else {
        return None;
    };
    let info = row.info();
    if ends_pair(info.size, info.kind) {
        Some(second)
    } else {
        None
    }
}

/// Writes the number of a pair at a ULEB128 number, whose first relocation has a value.
fn relocate_pair<S: Symbols>(
    architecture: Architecture,
    addresses: &Addresses,
    relocations: &[u8],
    symbols: S,
    index: usize,
    value: i64,
    second: &Rela,
    section: &mut [u8],
) -> Result<(), SectionError> {
    let (row, subtracted) = match row_value(
        architecture,
        addresses,
        relocations,
        symbols,
        index + 1,
        second,
    ) {
        Ok(Some(found)) => found,
        // the second of a pair has a value
        Ok(None) => return Ok(()),
        Err(error) => {
            return Err(SectionError {
                index: index + 1,
                error: RelocationError::Value(error),
            });
        }
    };
    let offset = second.offset;
    let number = number_of_pair(row.kind(), value, subtracted, offset, section);
    match write_number_at(number, offset, section) {
        Ok(()) => Ok(()),
        Err(error) => Err(SectionError {
            index,
            error: RelocationError::Uleb128(error),
        }),
    }
}

/// Where the values of a section's relocations stopped to be written.
pub(crate) struct Stopped {
    /// Below which index the bytes are kept that were there before.
    pub(crate) count: usize,
    /// Why.
    pub(crate) error: SectionError,
}

/// How far the values of a section's relocations are written.
#[derive(Clone, Copy)]
pub(crate) struct Step {
    /// The index of the next relocation.
    pub(crate) index: usize,
    /// The last field.
    pub(crate) last: Field,
}

/// The step over the relocation at an index that is left out. Its field counts as that of any
/// other. By itself, since most sections have none.
#[inline(never)]
fn leave_out(
    architecture: Architecture,
    relocations: &[u8],
    limit: Option<usize>,
    index: usize,
    last: Field,
    section: &[u8],
) -> Result<Step, SectionError> {
    let Some(field) = field_in(architecture, relocations, section, index) else {
        let index = index + 1;
        return Ok(Step { index, last });
    };
    if !is_clear(limit, index, &field, &last) {
        let error = RelocationError::Overlaps;
        return Err(SectionError { index, error });
    }
    if !field.is_within(section.len()) {
        let error = RelocationError::Write(RelocateError::TooShort);
        return Err(SectionError { index, error });
    }
    let index = index + 1;
    Ok(Step { index, last: field })
}

/// Writes the value of the relocation at an index, and where it is the first of a pair the
/// number of both, and keeps the bytes that were there before. By itself, since most values are
/// written by `write_quickly`.
#[inline(never)]
pub(crate) fn write_one<S: Symbols>(
    architecture: Architecture,
    addresses: &Addresses,
    relocations: &[u8],
    symbols: S,
    limit: Option<usize>,
    index: usize,
    last: Field,
    section: &mut [u8],
    memory: &mut [u64],
) -> Result<Step, SectionError> {
    let relocation = relocation_in(relocations, index);
    memory[index] = word_at(section, relocation.offset);
    let (row, value) = match row_value(
        architecture,
        addresses,
        relocations,
        symbols,
        index,
        &relocation,
    ) {
        Ok(Some(found)) => found,
        Ok(None) => {
            if is_left_out(symbols, relocations, index) {
                return leave_out(architecture, relocations, limit, index, last, section);
            }
            let index = index + 1;
            return Ok(Step { index, last });
        }
        Err(error) => {
            let error = RelocationError::Value(error);
            return Err(SectionError { index, error });
        }
    };
    let field = field_at(&row, relocation.offset, section);
    if !is_clear(limit, index, &field, &last) {
        let error = RelocationError::Overlaps;
        return Err(SectionError { index, error });
    }
    let last = field.or(last);
    if let Some(second) = second_of_pair(architecture, relocations, index, &row) {
        memory[index + 1] = word_at(section, relocation.offset.wrapping_add(8));
        if let Err(error) = relocate_pair(
            architecture,
            addresses,
            relocations,
            symbols,
            index,
            value,
            &second,
            section,
        ) {
            return Err(error);
        }
        let index = index + 2;
        return Ok(Step { index, last });
    }
    if !has_length(&row, relocation.offset, section) {
        let error = RelocationError::OtherLength;
        return Err(SectionError { index, error });
    }
    if let Err(error) = write_at(&row, value, relocation.offset, section) {
        let error = RelocationError::Write(error);
        return Err(SectionError { index, error });
    }
    let index = index + 1;
    Ok(Step { index, last })
}

/// The field before the first.
pub(crate) const NO_FIELD: Field = Field {
    offset: 0,
    len: 0,
    kind: RelocationKind::None,
};

/// The step before the first.
pub(crate) const FIRST_STEP: Step = Step {
    index: 0,
    last: NO_FIELD,
};

/// Writes the values of a section's relocations in their order, and keeps the bytes that were there
/// before. `limit` is the least index of a relocation whose field overlaps that of an earlier one
/// with which it doesn't compose.
fn write_in_any_order<S: Symbols>(
    architecture: Architecture,
    addresses: &Addresses,
    relocations: &[u8],
    symbols: S,
    limit: usize,
    section: &mut [u8],
    memory: &mut [u64],
) -> Result<(), Stopped> {
    let len = relocations_len(relocations);
    let mut last = NO_FIELD;
    let mut index = 0;
    while index < len {
        match write_one(
            architecture,
            addresses,
            relocations,
            symbols,
            Some(limit),
            index,
            last,
            section,
            memory,
        ) {
            Ok(step) => {
                index = step.index;
                last = step.last;
            }
            Err(error) => {
                let count = index;
                return Err(Stopped { count, error });
            }
        }
    }
    Ok(())
}

/// The same as `write_in_any_order`, where the values of the relocations below a count are written:
/// they are put back first.
fn write_again<S: Symbols>(
    architecture: Architecture,
    addresses: &Addresses,
    relocations: &[u8],
    symbols: S,
    count: usize,
    section: &mut [u8],
    memory: &mut [u64],
) -> Result<(), Stopped> {
    restore(architecture, relocations, count, memory, section);
    let order = &mut memory[..relocations_len(relocations)];
    let limit = first_overlap(architecture, relocations, section, order);
    write_in_any_order(
        architecture,
        addresses,
        relocations,
        symbols,
        limit,
        section,
        memory,
    )
}

/// Writes the values of a section's relocations, in whichever order these are, and keeps the bytes
/// that were there before. Whether they ascend by offset is seen as they are written.
fn write_values<S: Symbols>(
    architecture: Architecture,
    addresses: &Addresses,
    relocations: &[u8],
    symbols: S,
    section: &mut [u8],
    memory: &mut [u64],
) -> Result<(), Stopped> {
    let count = match write_ascending_of(
        architecture,
        addresses,
        relocations,
        symbols,
        section,
        memory,
    ) {
        Ok(start) => {
            if start == relocations_len(relocations) {
                return Ok(());
            }
            match write_second_run(
                architecture,
                addresses,
                relocations,
                symbols,
                start,
                section,
                memory,
            ) {
                None => return Ok(()),
                Some(count) => count,
            }
        }
        Err(stopped) => {
            if is_ascending(relocations) {
                return Err(stopped);
            }
            stopped.count
        }
    };
    write_again(
        architecture,
        addresses,
        relocations,
        symbols,
        count,
        section,
        memory,
    )
}

/// Writes the values of a section's relocations, or none of them, however symbols are found.
#[inline(always)]
pub(crate) fn relocate_values<S: Symbols>(
    architecture: Architecture,
    addresses: &Addresses,
    relocations: &[u8],
    symbols: S,
    section: &mut [u8],
    memory: &mut [u64],
) -> Result<(), SectionError> {
    match write_values(
        architecture,
        addresses,
        relocations,
        symbols,
        section,
        memory,
    ) {
        Ok(()) => Ok(()),
        Err(stopped) => {
            restore(architecture, relocations, stopped.count, memory, section);
            Err(stopped.error)
        }
    }
}

/// How many elements of memory [`relocate_section`](crate::section::relocate_section()) takes: one for each relocation.
#[must_use]
#[inline(always)]
pub fn memory_len(relocations: &[u8]) -> usize {
    relocations_len(relocations)
}

/// `crate::link::relocate_section`, with more parameters.
///
/// ```
/// use linker_utils::source::section::{Addresses, Symbol};
/// use linker_utils::source::section::{memory_len, relocate_section};
/// use linker_utils::elf::Architecture;
///
/// // call f, with R_X86_64_PLT32 of symbol 1 at offset 1, whose addend is -4
/// let mut relocations = [0; 24];
/// (relocations[0], relocations[8], relocations[12]) = (1, 4, 1);
/// relocations[16..].copy_from_slice(&(-4i64).to_le_bytes());
/// let mut section = [0xe8, 0, 0, 0, 0];
/// let addresses = Addresses { section: 0x401000, ..Addresses::default() };
/// let function = Symbol { address: 0x402005, ..Symbol::default() };
/// let symbols = [Symbol::default(), function];
/// let mut memory = [0; 1];
/// assert_eq!(memory_len(&relocations), 1);
/// let of = Architecture::X86_64;
/// relocate_section(of, &addresses, &relocations, &symbols, &mut section, &mut memory).unwrap();
/// assert_eq!(section, [0xe8, 0x00, 0x10, 0, 0]);
/// ```
#[cfg_attr(debug_assertions, track_caller)]
pub fn relocate_section(
    architecture: Architecture,
    addresses: &Addresses,
    relocations: &[u8],
    symbols: &[Symbol],
    section: &mut [u8],
    memory: &mut [u64],
) -> Result<(), SectionError> {
    debug_assert!(memory_len(relocations) <= memory.len());
    relocate_values(
        architecture,
        addresses,
        relocations,
        ByIndex { symbols },
        section,
        memory,
    )
}
