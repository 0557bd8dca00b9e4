// SPDX-License-Identifier: MIT OR Apache-2.0
// Made by tools/generate of crates/linker_reading/src/recognise/engine.rt.
//! Which choices of a table leave the linked bytes, and what then stands in the field.

use crate::linker_reading::fields::FieldValue;
use crate::linker_reading::reading::read;
use crate::linker_reading::recognise::fields::{FieldBits, are_same_but};
use crate::linker_elf::elf::choice_table::{ChoiceEntry, ChoiceTable, RelocationName, RewriteSet};
use crate::linker_elf::elf::{InstructionRewrite, Row};
use crate::architecture::Relaxation;
use crate::elf::{Choice, LinkFacts};
use crate::linker_base::rewrite::DeletedBytes;

/// How many choices a relocation may have.
pub const CANDIDATES: usize = 6;

/// How long the windows of original bytes may be.
pub const MAX_WINDOW: usize = 64;

/// The choices of a table, in its order, and how many they are.
pub type Choices<K, R> = ([Choice<K, R>; CANDIDATES], usize);

/// A choice that leaves the linked bytes, and what stands in the field of its relocation there.
#[derive(Clone, Copy, Debug, PartialEq, Eq, Hash)]
pub struct Recognised<K, R> {
    /// The rewrite, and the relocation after it.
    pub choice: Choice<K, R>,
    /// The field's offset in the linked bytes: the relocation's after the rewrite, less the deleted
    /// bytes before it.
    pub offset: u64,
    /// What is known of the value of the relocation after the rewrite from the linked bytes at the
    /// offset, as `reading::read` returns it. None of a relocation without a row, and of one whose
    /// field isn't its value. [`solve`](crate::reading::solve()) makes the address of it, with the addend that `apply` leaves:
    /// of x86-64's absolute rewrites it is 4 more than before.
    pub value: Option<FieldValue>,
}

/// The bits of a relocation's field at an offset, if its window is there. A relocation without a
/// row has no bits.
#[inline(always)]
fn field_at(row: &Option<Row>, at: u64, bytes: &[u8]) -> Option<FieldBits> {
    match row {
        Some(row) => FieldBits::of_row(row, at, bytes).ok(),
        None => Some(FieldBits { offset: 0, bits: 0 }),
    }
}

/// Where the deleted bytes begin, at most 2^64 - 1, and how many they are.
#[inline(always)]
pub(crate) fn deleted_at(deleted: Option<DeletedBytes>, offset: u64) -> (u64, u64) {
    match deleted {
        Some(bytes) => (offset.saturating_add(bytes.start), u64::from(bytes.count)),
        None => (0, 0),
    }
}

/// Whether the linked bytes are those after a rewrite, without the deleted ones, but for the field
/// of a row and some other bits.
#[inline(always)]
fn are_left(
    after: &[u8],
    at: u64,
    row: &Option<Row>,
    deleted: Option<DeletedBytes>,
    offset: u64,
    others: &[FieldBits],
    linked: &[u8],
) -> bool {
    let (start, count) = deleted_at(deleted, offset);
    let linked_len = linked.len() as u64;
    if linked_len < start || linked_len + count != after.len() as u64 {
        return false;
    }
    match field_at(row, at, after) {
        Some(field) => are_same_but(&field, others, start, count, after, linked),
        None => false,
    }
}

/// The offset in the linked bytes of what is at an offset after a rewrite.
#[inline(always)]
fn linked_offset(deleted: Option<DeletedBytes>, offset: u64, at: u64) -> u64 {
    let (start, count) = deleted_at(deleted, offset);
    at - count.min(at.saturating_sub(start))
}

/// What stands in the field of a relocation at an offset of the linked bytes.
#[inline(always)]
fn value_at(row: &Option<Row>, at: u64, linked: &[u8]) -> Option<FieldValue> {
    let Some(row) = row else {
        return None;
    };
    let start = at.min(linked.len() as u64);
    read(row, &linked[start as usize..])
}

/// A relocation's name, with the table of its choices.
pub trait RecognisedName: RelocationName + PartialEq + 'static {
    /// The rewrites.
    type Kind: ChoiceTable<Relocation = Self, Originals: 'static> + PartialEq + 'static;

    /// The `r_type` in ELF files.
    #[must_use]
    fn elf_type(self) -> u32;

    /// A rewrite as one of all architectures'.
    #[must_use]
    fn relaxation(kind: Self::Kind) -> Relaxation;

    /// The choice by what a linker knows.
    #[must_use]
    #[inline]
    fn choose(self, original: &[u8], offset: u64, facts: &LinkFacts) -> Choice<Self::Kind, Self> {
        Self::Kind::choose(self, original, offset, facts)
    }

    /// The choices of its table. The last of them changes nothing.
    #[must_use]
    fn listed(self, section: &[u8], at: u64) -> Choices<Self::Kind, Self> {
        choices_of(
            Self::Kind::entries(self, section, at),
            Self::Kind::none(),
            self,
        )
    }
}

/// Sets the choice at an index. Beside the entries the prover finds no bound for the array's bytes.
#[inline(always)]
pub(crate) fn put<K: Copy, R: Copy>(
    choices: &mut [Choice<K, R>; CANDIDATES],
    index: usize,
    choice: Choice<K, R>,
) {
    choices[index] = choice;
}

/// The choices of entries, and after these another.
#[inline(always)]
fn choices_of<O, K: Copy, R: Copy>(
    entries: &'static [ChoiceEntry<O, K, R>],
    kind: K,
    relocation: R,
) -> Choices<K, R> {
    let mut choices = [Choice { kind, relocation }; CANDIDATES];
    for index in 0..entries.len() {
        let ChoiceEntry {
            kind,
            relocation,
            ..
        } = entries[index];
        put(&mut choices, index, Choice { kind, relocation });
    }
    (choices, entries.len() + 1)
}

/// A choice with what stands in its field, if its rewrite is meant for what is at the offset and it
/// leaves the linked bytes, as [`recognise`](crate::recognise::recognise()) says. In a loop LLVM would compute for every rewrite
/// what some need.
#[inline(never)]
fn recognise_one<N: RecognisedName>(
    choice: Choice<N::Kind, N>,
    original: &[u8],
    offset: u64,
    others: &[FieldBits],
    linked: &[u8],
) -> Option<Recognised<N::Kind, N>> {
    let kind = N::relaxation(choice.kind);
    if !kind.matches(original, offset) {
        return None;
    }
    let mut buffer = [0u8; MAX_WINDOW];
    let after = &mut buffer[..original.len()];
    after.copy_from_slice(original);
    let (mut at, mut addend) = (offset, 0);
    kind.apply(after, &mut at, &mut addend);
    let row = choice.relocation.find_row();
    let deleted = kind.deleted();
    if !are_left(after, at, &row, deleted, offset, others, linked) {
        return None;
    }
    let field_offset = linked_offset(deleted, offset, at);
    Some(Recognised {
        choice,
        offset: field_offset,
        value: value_at(&row, field_offset, linked),
    })
}

/// The choice at an index, if it has no place before it.
#[inline(always)]
fn first_at<N: RecognisedName>(
    choices: &[Choice<N::Kind, N>; CANDIDATES],
    index: usize,
) -> Option<Choice<N::Kind, N>> {
    for earlier in 0..index {
        if choices[earlier] == choices[index] {
            return None;
        }
    }
    Some(choices[index])
}

/// `crate::recognise::recognise`, with more parameters.
///
/// ```
/// use linker_utils::source::recognise::recognise;
/// use linker_utils::riscv64::RiscVRelocation;
/// use linker_utils::x86_64::{RewriteKind, X86_64Relocation};
///
/// // mov x@GOTPCREL(%rip), %rdi became lea x(%rip), %rdi
/// let original = [0x48, 0x8b, 0x3d, 0, 0, 0, 0];
/// let linked = [0x48, 0x8d, 0x3d, 0x10, 0x20, 0, 0];
/// let name = X86_64Relocation::R_X86_64_REX_GOTPCRELX;
/// let mut choices = recognise(name, &original, 3, &[], &linked).into_iter().flatten();
/// let made = choices.next().unwrap();
/// assert_eq!(made.choice.kind, RewriteKind::MovIndirectToLea);
/// assert_eq!(made.value.unwrap().number(), Some(0x2010));
/// assert!(choices.next().is_none());
///
/// // `auipc ra, 0` and `jalr ra, 0(ra)` became `jal ra, 256`
/// let original = [0x97, 0, 0, 0, 0xe7, 0x80, 0, 0];
/// let linked = [0xef, 0, 0, 0x10];
/// let name = RiscVRelocation::R_RISCV_CALL_PLT;
/// let mut choices = recognise(name, &original, 0, &[], &linked).into_iter().flatten();
/// assert_eq!(choices.next().unwrap().choice.relocation, RiscVRelocation::R_RISCV_JAL);
/// ```
#[must_use]
#[cfg_attr(debug_assertions, track_caller)]
pub fn recognise<N: RecognisedName>(
    name: N,
    original: &[u8],
    offset: u64,
    others: &[FieldBits],
    linked: &[u8],
) -> [Option<Recognised<N::Kind, N>>; CANDIDATES] {
    debug_assert!(original.len() <= 64);
    let (choices, count) = name.listed(original, offset);
    let mut found = [None; CANDIDATES];
    for index in 0..count {
        if let Some(choice) = first_at(&choices, index) {
            found[index] = recognise_one(choice, original, offset, others, linked);
        }
    }
    found
}

/// `crate::recognise::recognise_chosen`, with more parameters.
#[must_use]
#[cfg_attr(debug_assertions, track_caller)]
pub fn recognise_chosen<N: RecognisedName>(
    name: N,
    original: &[u8],
    offset: u64,
    others: &[FieldBits],
    linked: &[u8],
    facts: &LinkFacts,
) -> Option<Recognised<N::Kind, N>> {
    debug_assert!(original.len() <= 64);
    let chosen = name.choose(original, offset, facts);
    recognise_one(chosen, original, offset, others, linked)
}
