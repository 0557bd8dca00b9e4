// SPDX-License-Identifier: MIT OR Apache-2.0
// Made by tools/generate of crates/linker_reading/src/recognise/architecture.rt.
//! What a linker made of a relocation, by its architecture and its `r_type`.

use crate::linker_reading::recognise::engine::{self, CANDIDATES, Recognised, RecognisedName};
use crate::linker_reading::recognise::fields::FieldBits;
use crate::linker_reading::windows;
pub use crate::linker_reading::windows::{Destination, destination_of};
use crate::linker_elf::elf::architecture::by_architecture;
use crate::architecture::Relaxation;
use crate::elf::{Architecture, Choice, LinkFacts, RewriteWindow};

/// What is found of the relocation's name that an architecture has for an `r_type`.
macro_rules! found_of {
    ($of:ident $module:ident $names:ident ($r_type:expr, $name:ident => $found:expr)) => {{
        let $name = crate::$module::$names::from_elf($r_type);
        $found
    }};
}

/// The same with the rewrite as one of all architectures', and the relocation's `r_type`.
#[inline(always)]
fn typed<N: RecognisedName>(
    found: Option<Recognised<N::Kind, N>>,
) -> Option<Recognised<Relaxation, u32>> {
    let made = found?;
    Some(Recognised {
        choice: Choice {
            kind: N::relaxation(made.choice.kind),
            relocation: made.choice.relocation.elf_type(),
        },
        offset: made.offset,
        value: made.value,
    })
}

/// The same of each.
fn all_by_type<N: RecognisedName>(
    found: [Option<Recognised<N::Kind, N>>; CANDIDATES],
) -> [Option<Recognised<Relaxation, u32>>; CANDIDATES] {
    let mut by_type = [None; CANDIDATES];
    for index in 0..CANDIDATES {
        if found[index].is_some() {
            by_type[index] = typed(found[index]);
        }
    }
    by_type
}

/// The choice that `choose` makes for a name, as [`recognise_chosen`](crate::recognise::recognise_chosen()) of this crate says, so.
#[inline(always)]
fn chosen_by_type<N: RecognisedName>(
    name: N,
    original: &[u8],
    offset: u64,
    others: &[FieldBits],
    linked: &[u8],
    facts: &LinkFacts,
) -> Option<Recognised<Relaxation, u32>> {
    typed(engine::recognise_chosen(name, original, offset, others, linked, facts))
}

/// `crate::recognise::recognise`, with more parameters.
///
/// ```
/// use linker_utils::source::recognise::architecture::recognise;
/// use linker_utils::architecture::Relaxation;
/// use linker_utils::elf::Architecture;
/// use linker_utils::x86_64::RewriteKind;
///
/// // mov x@GOTPCREL(%rip), %rdi, with R_X86_64_REX_GOTPCRELX, became lea x(%rip), %rdi
/// let original = [0x48, 0x8b, 0x3d, 0, 0, 0, 0];
/// let linked = [0x48, 0x8d, 0x3d, 0x10, 0x20, 0, 0];
/// let found = recognise(Architecture::X86_64, 42, &original, 3, &[], &linked);
/// let made = found.into_iter().flatten().next().unwrap();
/// assert_eq!(made.choice.kind, Relaxation::X86_64(RewriteKind::MovIndirectToLea));
/// assert_eq!(Architecture::X86_64.name(made.choice.relocation), Some("R_X86_64_PC32"));
/// assert_eq!(made.value.unwrap().number(), Some(0x2010));
/// ```
#[must_use]
#[cfg_attr(debug_assertions, track_caller)]
pub fn recognise(
    architecture: Architecture,
    r_type: u32,
    original: &[u8],
    offset: u64,
    others: &[FieldBits],
    linked: &[u8],
) -> [Option<Recognised<Relaxation, u32>>; CANDIDATES] {
    debug_assert!(original.len() <= 64);
    by_architecture!(architecture, found_of(r_type, name => {
        all_by_type(engine::recognise(name, original, offset, others, linked))
    }))
}

/// `crate::recognise::recognise_chosen`, with more parameters.
#[must_use]
#[cfg_attr(debug_assertions, track_caller)]
pub fn recognise_chosen(
    architecture: Architecture,
    r_type: u32,
    original: &[u8],
    offset: u64,
    others: &[FieldBits],
    linked: &[u8],
    facts: &LinkFacts,
) -> Option<Recognised<Relaxation, u32>> {
    debug_assert!(original.len() <= 64);
    by_architecture!(architecture, found_of(r_type, name => {
        chosen_by_type(name, original, offset, others, linked, facts)
    }))
}

/// The window that [`recognise`](crate::recognise::recognise()) wants, in bytes of an object around the relocation with an `r_type`
/// at an offset of them. It begins at the last byte, and ends at the first one, with which
/// [`recognise`](crate::recognise::recognise()) finds each choice that it finds in all of these bytes. So it has the bytes that
/// their rewrites write and delete, those that `matches` reads, and the fields of the relocations
/// after them. What other relocations write there is to be named in `others`. It begins `back`
/// bytes before the offset.
///
/// A choice whose bytes aren't all given isn't counted: give 16 before the offset and 44 from there
/// on, or those that there are. On PowerPC64 the first byte has to be at a multiple of 4 in its
/// section, since `matches` tests where an instruction begins.
///
/// # Requires
///
/// - `original.len() <= 64`
#[must_use]
#[cfg_attr(debug_assertions, track_caller)]
pub fn window_of(
    architecture: Architecture,
    r_type: u32,
    original: &[u8],
    offset: u64,
) -> RewriteWindow {
    debug_assert!(original.len() <= 64);
    by_architecture!(architecture, found_of(r_type, name => {
        let there = windows::those_there(name, original, offset);
        windows::least_window(name, &there, original, offset)
    }))
}
