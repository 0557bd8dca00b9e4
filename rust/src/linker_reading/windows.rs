// SPDX-License-Identifier: MIT OR Apache-2.0
// Made by tools/generate of crates/linker_reading/src/windows.rt.
//! Which bytes around a relocation recognising compares, and where a recognised one leads.

use crate::linker_reading::fields::FieldValue;
use crate::linker_reading::recognise::{
    CANDIDATES, Choices, MAX_WINDOW, Recognised, RecognisedName, deleted_at, put,
};
use crate::linker_reading::solving::{Reference, solve, terms_of};
use crate::linker_base::rewrite::RewriteWindow;
use crate::linker_elf::elf::choice_table::RelocationName;
use crate::linker_elf::elf::{AnyForm, InstructionRewrite, Row, RowSize};
#[cfg(feature = "ppc64")]
use crate::linker_elf::elf::Ppc64Form;
use crate::architecture::Relaxation;
use crate::elf::{Architecture, Choice, Operands};

/// The offset and the addend of the relocation after a rewrite.
fn place_after(kind: Relaxation, original: &[u8], offset: u64, addend: i64) -> (u64, i64) {
    let mut buffer = [0u8; MAX_WINDOW];
    let after = &mut buffer[..original.len()];
    after.copy_from_slice(original);
    let (mut at, mut addend_now) = (offset, addend);
    kind.apply(after, &mut at, &mut addend_now);
    (at, addend_now)
}

/// Whether a choice is one of some.
fn is_listed<N: RecognisedName>(choices: &Choices<N::Kind, N>, choice: Choice<N::Kind, N>) -> bool {
    for index in 0..choices.1 {
        if choices.0[index] == choice {
            return true;
        }
    }
    false
}

/// Whether the window of a row, if there is one, lies in bytes.
fn has_field(row: &Option<Row>, at: u64, bytes: &[u8]) -> bool {
    match row {
        Some(row) => at.saturating_add(row.window() as u64) <= bytes.len() as u64,
        None => true,
    }
}

/// Whether the rewrite of a choice that is listed for bytes is meant for what is at the offset, and
/// all is there that [`recognise`](crate::recognise::recognise()) compares.
fn is_there<N: RecognisedName>(choice: Choice<N::Kind, N>, bytes: &[u8], offset: u64) -> bool {
    let kind = N::relaxation(choice.kind);
    if !kind.matches(bytes, offset) {
        return false;
    }
    let (start, count) = deleted_at(kind.deleted(), offset);
    if start.saturating_add(count) > bytes.len() as u64 {
        return false;
    }
    let (at, _) = place_after(kind, bytes, offset, 0);
    has_field(&choice.relocation.find_row(), at, bytes)
}

/// The choice at an index.
#[cfg_attr(not(debug_assertions), inline(always))]
fn choice_at<N: RecognisedName>(
    choices: &[Choice<N::Kind, N>; CANDIDATES],
    index: usize,
) -> Choice<N::Kind, N> {
    choices[index]
}

/// The choices that are there in bytes.
pub(crate) fn those_there<N: RecognisedName>(
    name: N,
    bytes: &[u8],
    offset: u64,
) -> Choices<N::Kind, N> {
    let (mut choices, count) = name.listed(bytes, offset);
    let mut kept = 0;
    for index in 0..count {
        let choice = choice_at(&choices, index);
        if is_there(choice, bytes, offset) {
            put(&mut choices, kept, choice);
            kept += 1;
        }
    }
    (choices, kept)
}

/// Whether each choice that is there is so in the bytes from `begin` to `end`, too.
fn has_each<N: RecognisedName>(
    name: N,
    there: &Choices<N::Kind, N>,
    original: &[u8],
    offset: u64,
    begin: u64,
    end: u64,
) -> bool {
    let len = original.len() as u64;
    let from = begin.min(len);
    let part = &original[from as usize..end.min(len).max(from) as usize];
    let at = offset - begin;
    for index in 0..there.1 {
        if !is_there(choice_at(&there.0, index), part, at) {
            return false;
        }
    }
    let listed = name.listed(part, at);
    for index in 0..there.1 {
        if !is_listed(&listed, choice_at(&there.0, index)) {
            return false;
        }
    }
    true
}

/// The window that begins at the last byte, and ends at the first one, with which each choice is
/// there that is there in all bytes.
pub(crate) fn least_window<N: RecognisedName>(
    name: N,
    there: &Choices<N::Kind, N>,
    original: &[u8],
    offset: u64,
) -> RewriteWindow {
    let len = original.len() as u64;
    let (mut begin, mut end) = (offset, offset);
    while begin > 0 && !has_each(name, there, original, offset, begin, len) {
        begin -= 1;
    }
    while end < len && !has_each(name, there, original, offset, begin, end) {
        end += 1;
    }
    RewriteWindow {
        back: offset - begin,
        len: end - begin,
    }
}

/// Where a recognised relocation leads.
#[derive(Clone, Copy, Debug, PartialEq, Eq, Hash)]
pub struct Destination {
    /// Which address it is.
    pub reference: Reference,
    /// What is known of it: of S + A, L + A, or the GOT entry's address, as [`solve`](crate::reading::solve()) returns it.
    pub address: FieldValue,
    /// A, the addend of the relocation after the rewrite.
    pub addend: i64,
    /// Whether a branch of PowerPC64 leads there. In a function of its own output that is the local
    /// entry point.
    pub is_local_entry: bool,
}

impl Destination {
    /// The address less the addend: S, or L of a relocation that goes by a PLT entry; of a branch
    /// of PowerPC64 the function's local entry point, or a stub. `None` of the GOT entry's, and
    /// where not all bits are known, as of a half of an address.
    #[must_use]
    pub fn local_entry(&self) -> Option<u64> {
        if !is_of_symbol(self.reference) {
            return None;
        }
        let address = self.address.number()?;
        Some(address.wrapping_sub(self.addend as u64))
    }

    /// S, also of a branch of PowerPC64: `local_entry` less the distance of the local entry point
    /// that the symbol's `st_other` says (64-Bit ELF V2 ABI, "Symbol Values"). `st_other` is read
    /// of such branches only, and has to be 0 for one to a stub.
    #[must_use]
    pub fn symbol(&self, st_other: u8) -> Option<u64> {
        let entry = self.local_entry()?;
        Some(entry.wrapping_sub(entry_distance(self.is_local_entry, st_other)))
    }
}

fn is_of_symbol(reference: Reference) -> bool {
    !matches!(reference, Reference::GotEntry)
}

/// How far after the symbol a branch leads: bits 5 to 7 of `st_other` are the logarithm.
fn entry_distance(is_local: bool, st_other: u8) -> u64 {
    let logarithm = st_other / 32;
    if is_local && logarithm > 1 {
        1 << logarithm
    } else {
        0
    }
}

/// Whether a row is that of a branch of PowerPC64.
fn is_local_entry(size: RowSize) -> bool {
    matches_any!(
        size,
        #[cfg(feature = "ppc64")]
        RowSize::BitMasking { insn: AnyForm::Ppc64(Ppc64Form::Branch14 | Ppc64Form::Branch24), .. }
    )
}

/// Where a relocation with a row and a value leads, after a rewrite.
fn destination_by(
    row: &Option<Row>,
    value: Option<FieldValue>,
    kind: Relaxation,
    original: &[u8],
    offset: u64,
    operands: &Operands,
) -> Option<Destination> {
    let Some(row) = row else {
        return None;
    };
    let Some(value) = value else {
        return None;
    };
    if !value.is_proper() || !kind.matches(original, offset) {
        return None;
    }
    let info = row.info();
    let Some(terms) = terms_of(info.kind, info.size) else {
        return None;
    };
    let Some(address) = solve(&info, &value, operands) else {
        return None;
    };
    let (_, addend) = place_after(kind, original, offset, operands.addend);
    Some(Destination {
        reference: terms.reference,
        address,
        addend,
        is_local_entry: is_local_entry(info.size),
    })
}

/// Where a relocation leads that [`recognise`](crate::recognise::recognise()) found, with the same original bytes and offset. Of the
/// operands the addend is that before the rewrite, and the place is the address of the field in the
/// linked file; the GOT's address and the base of TLS are read where [`solve`](crate::reading::solve()) does. `None` of a
/// relocation without a row or without a value, of one that [`solve`](crate::reading::solve()) has no address for, and of a
/// rewrite that isn't meant for what is there.
///
/// # Requires
///
/// - `original.len() <= 64`
#[must_use]
#[cfg_attr(debug_assertions, track_caller)]
pub fn destination_of(
    architecture: Architecture,
    made: &Recognised<Relaxation, u32>,
    original: &[u8],
    offset: u64,
    operands: &Operands,
) -> Option<Destination> {
    debug_assert!(original.len() <= 64);
    let row = architecture.row(made.choice.relocation);
    destination_by(
        &row,
        made.value,
        made.choice.kind,
        original,
        offset,
        operands,
    )
}
