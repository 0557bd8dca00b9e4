// SPDX-License-Identifier: MIT OR Apache-2.0
// Made by tools/generate of crates/linker_utils_c/src/lazy_plt.rt.
//! Lazy PLTs: the code of headers and entries, and what their words hold at first.

use crate::relocate::status_of;
use crate::status::{Status, or_return};
use linker_utils::source::output::{LazyEntry, LazyForm, LazyPlt};
use linker_utils::source::output::StubError;
use linker_utils::elf::Architecture;

/// Lengths of a lazy PLT, in bytes, and how many words `.got.plt` has before those of entries.
#[repr(C)]
#[derive(Clone, Copy)]
pub struct LazyPltNumbers {
    /// The header's length.
    pub header_len: u64,
    /// An entry's length.
    pub entry_len: u64,
    /// What addresses of the header and of entries are multiples of.
    pub alignment: u64,
    /// How many words there are before those of entries.
    pub header_words: u64,
}

/// The form with a number.
#[inline]
fn form_of(number: u32) -> Option<LazyForm> {
    match number {
        0 => Some(LazyForm::Plain),
        1 => Some(LazyForm::Landing),
        2 => Some(LazyForm::LandingEntry),
        3 => Some(LazyForm::Authenticated),
        4 => Some(LazyForm::AuthenticatedLanding),
        5 => Some(LazyForm::AuthenticatedLandingEntry),
        _ => None,
    }
}

/// The lazy PLT of an architecture in the form with a number.
fn plt_in(architecture: Architecture, form: u32) -> Option<&'static LazyPlt> {
    let Some(form) = form_of(form) else {
        return None;
    };
    LazyPlt::of_form(architecture, form)
}

/// Writes the lengths of a lazy PLT in a form, as those of `LazyPlt::of_form`: form 0 is for code
/// that isn't protected, and 1 to 5 are those of `LazyForm` in their order. The first that applies
/// of `UnknownArchitecture`; `UnknownStub`, where the architecture has none of the form.
pub fn linker_utils_get_lazy_plt(
    machine: u16,
    form: u32,
    plt: &mut LazyPltNumbers,
) -> u32 {
    let architecture = or_return!(Architecture::from_machine(machine), UnknownArchitecture);
    let found = or_return!(plt_in(architecture, form), UnknownStub);
    *plt = numbers_in(found);
    Status::Success as u32
}

/// The lengths of a lazy PLT.
fn numbers_in(plt: &LazyPlt) -> LazyPltNumbers {
    LazyPltNumbers {
        header_len: plt.header_len(),
        entry_len: plt.entry_len(),
        alignment: plt.alignment,
        header_words: plt.header_words.len() as u64,
    }
}

/// The status of code that is written or not.
pub(crate) fn status_in(written: Result<(), StubError>) -> u32 {
    match written {
        Ok(()) => Status::Success as u32,
        Err(StubError::Missing) => Status::UnknownStub as u32,
        Err(StubError::TooShort) => Status::TooShort as u32,
        Err(StubError::Field(error)) => status_of(Err(error)),
    }
}

/// Writes the header of a lazy PLT that stands at an address, of the `.got.plt` at `words`, to the
/// beginning of `bytes`, as `LazyPlt::write_header`. The first that applies of
/// `UnknownArchitecture`; `UnknownStub`; `TooShort`; and where a field doesn't reach the error of
/// the first such field, as `linker_utils_relocate`. Then `bytes` are unchanged.
pub fn linker_utils_write_lazy_header_nonnull(
    machine: u16,
    form: u32,
    header: u64,
    words: u64,
    bytes: &mut [u8],
) -> u32 {
    let architecture = or_return!(Architecture::from_machine(machine), UnknownArchitecture);
    let plt = or_return!(plt_in(architecture, form), UnknownStub);
    put_header(plt, header, words, bytes)
}

fn put_header(plt: &LazyPlt, header: u64, words: u64, bytes: &mut [u8]) -> u32 {
    status_in(plt.write_header(header, words, bytes))
}

/// Writes an entry of a lazy PLT to the beginning of `bytes`, as `LazyPlt::write_entry`. The first
/// that applies of `UnknownArchitecture`; `UnknownStub`; `TooShort`; and where a field doesn't
/// reach the error of the first such field, as `linker_utils_relocate`. Then `bytes` are unchanged.
pub fn linker_utils_write_lazy_entry_nonnull(
    machine: u16,
    form: u32,
    entry: &LazyEntry,
    bytes: &mut [u8],
) -> u32 {
    let architecture = or_return!(Architecture::from_machine(machine), UnknownArchitecture);
    let plt = or_return!(plt_in(architecture, form), UnknownStub);
    put_entry(plt, entry, bytes)
}

fn put_entry(plt: &LazyPlt, entry: &LazyEntry, bytes: &mut [u8]) -> u32 {
    status_in(plt.write_entry(entry, bytes))
}

/// Writes what a word at the begin of `.got.plt` holds in each form, as `LazyPlt::header_word`. The
/// first that applies of `UnknownArchitecture`; `NotProvided`, of an index that is too large.
pub fn linker_utils_lazy_header_word(
    machine: u16,
    index: usize,
    dynamic: u64,
    header: u64,
    word: &mut u64,
) -> u32 {
    let architecture = or_return!(Architecture::from_machine(machine), UnknownArchitecture);
    *word = or_return!(
        LazyPlt::of(architecture).header_word(index, dynamic, header),
        NotProvided
    );
    Status::Success as u32
}

/// What an entry's word holds at first, as `LazyPlt::entry_word`; 0 of a machine that isn't known,
/// and where the architecture has none of the form.
pub fn linker_utils_lazy_entry_word(
    machine: u16,
    form: u32,
    entry: u64,
    header: u64,
    dynamic: u64,
) -> u64 {
    let Some(architecture) = Architecture::from_machine(machine) else {
        return 0;
    };
    match plt_in(architecture, form) {
        Some(plt) => put_word(plt, entry, header, dynamic),
        None => 0,
    }
}

fn put_word(plt: &LazyPlt, entry: u64, header: u64, dynamic: u64) -> u64 {
    plt.entry_word(entry, header, dynamic)
}
