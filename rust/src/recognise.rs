// SPDX-License-Identifier: MIT OR Apache-2.0
// Made by tools/generate of rust/head/recognise.rs.
//! What a linker made of a relocation, by the bytes before and after: which rewrite, which
//! relocation it then wrote, and what stands in its field.

use crate::elf::LinkFacts;
use crate::linker_reading::recognise as source;
pub use crate::linker_reading::recognise::fields::{
    FieldBits, field_bits, same_but_for, writes_change_fields,
};
pub use crate::linker_reading::recognise::{
    CANDIDATES, MAX_WINDOW, Recognised, RecognisedName, written_choices_are_left,
};

/// Bytes around a relocation in an object and in the linked file. Both windows may begin before it,
/// at the same place. After a rewrite that deletes bytes the linked one has fewer.
#[derive(Debug, Clone, Copy, PartialEq, Eq)]
pub struct Windows<'a> {
    /// The object's bytes, at most [`MAX_WINDOW`].
    pub original: &'a [u8],
    /// The offset of the relocation in them.
    pub offset: u64,
    /// Bits that other relocations write.
    pub others: &'a [FieldBits],
    /// The linked bytes.
    pub linked: &'a [u8],
}

/// Which rewrites, and relocations after them, a linker may have made at the relocation with a
/// name, whose offset in the original bytes is given: those after which the original bytes differ
/// from the linked ones only in the field of the relocation after it and in `others`. They have
/// their places in the table of `choose`, after which is `NoOp` and the same name. A choice that
/// is listed twice has the first one, so that none is returned twice.
///
/// - Both windows may begin before the relocation, at the same place. The original one has at most
///   [`MAX_WINDOW`](crate::recognise::MAX_WINDOW) bytes. After a rewrite that deletes bytes the linked window is shorter by these,
///   and empty if they are all of the original one.
/// - A window that is wider than the rewrite has to name in `others` what else differs in it. The
///   least one has the bytes of each rewrite (`window` of its kind) and the field of the relocation
///   after it. A window without the relocation's field has no choice, and an empty one has none.
/// - `others` are bits of the original window that other relocations write, as
///   [`FieldBits::of_row`](crate::recognise::FieldBits::of_row) gives them, among them those of a relocation that the choice skips. Of an
///   instruction that another relocation rewrites or deletes they are all bits. Where a skipped
///   relocation isn't named, its field is compared with what the rewrite left, since it isn't
///   applied.
/// - Nothing needs to be known of the symbol. So several choices are returned where their bytes are
///   the same, as where only the relocation changes. Each comes with the offset of its field in the
///   linked bytes and with what `reading::read` returns there.
/// - A choice is returned only if its rewrite is meant for what is at the offset, as `matches`
///   says, and the field is in the window. Each that `choose` makes, whatever the linker knows, is
///   one of them if it leaves the linked bytes so.
///
/// ```
/// use linker_utils::recognise::{Windows, recognise};
/// use linker_utils::riscv64::RiscVRelocation;
/// use linker_utils::x86_64::{RewriteKind, X86_64Relocation};
///
/// // mov x@GOTPCREL(%rip), %rdi became lea x(%rip), %rdi
/// let original = &[0x48, 0x8b, 0x3d, 0, 0, 0, 0];
/// let linked = &[0x48, 0x8d, 0x3d, 0x10, 0x20, 0, 0];
/// let windows = Windows { original, offset: 3, others: &[], linked };
/// let name = X86_64Relocation::R_X86_64_REX_GOTPCRELX;
/// let mut choices = recognise(name, &windows).into_iter().flatten();
/// let made = choices.next().unwrap();
/// assert_eq!(made.choice.kind, RewriteKind::MovIndirectToLea);
/// assert_eq!(made.value.unwrap().number(), Some(0x2010));
/// assert!(choices.next().is_none());
///
/// // `auipc ra, 0` and `jalr ra, 0(ra)` became `jal ra, 256`
/// let original = &[0x97, 0, 0, 0, 0xe7, 0x80, 0, 0];
/// let windows = Windows { original, offset: 0, others: &[], linked: &[0xef, 0, 0, 0x10] };
/// let mut choices = recognise(RiscVRelocation::R_RISCV_CALL_PLT, &windows).into_iter().flatten();
/// assert_eq!(choices.next().unwrap().choice.relocation, RiscVRelocation::R_RISCV_JAL);
/// ```
///
/// # Requires
///
/// - `original.len() <= 64`
#[must_use]
#[inline]
#[cfg_attr(debug_assertions, track_caller)]
pub fn recognise<N: RecognisedName>(
    name: N,
    windows: &Windows<'_>,
) -> [Option<Recognised<N::Kind, N>>; CANDIDATES] {
    let Windows { original, offset, others, linked } = *windows;
    source::recognise(name, original, offset, others, linked)
}

/// The choice that `choose` makes by what the linker knows, if it leaves the linked bytes, as
/// [`recognise`](crate::recognise::recognise()) says.
///
/// # Requires
///
/// - `original.len() <= 64`
#[must_use]
#[inline]
#[cfg_attr(debug_assertions, track_caller)]
pub fn recognise_chosen<N: RecognisedName>(
    name: N,
    windows: &Windows<'_>,
    facts: &LinkFacts,
) -> Option<Recognised<N::Kind, N>> {
    let Windows { original, offset, others, linked } = *windows;
    source::recognise_chosen(name, original, offset, others, linked, facts)
}

/// What a linker made of a relocation, by its architecture and its code.
pub mod architecture {
    use super::{CANDIDATES, Recognised, Windows};
    use crate::architecture::Relaxation;
    use crate::elf::{Architecture, LinkFacts};
    use crate::linker_reading::recognise::architecture;
    pub use crate::linker_reading::recognise::architecture::{
        Destination, destination_of, window_of,
    };

    /// Which rewrites, and relocations after them, a linker may have made at the relocation with an
    /// `r_type`, as [`recognise`](crate::recognise::recognise()) of this crate says. `window_of` returns the window that it wants, and
    /// `destination_of` the address that one of them leads to.
    ///
    /// ```
    /// use linker_utils::architecture::Relaxation;
    /// use linker_utils::elf::Architecture;
    /// use linker_utils::recognise::{Windows, architecture::recognise};
    /// use linker_utils::x86_64::RewriteKind;
    ///
    /// // mov x@GOTPCREL(%rip), %rdi, with R_X86_64_REX_GOTPCRELX, became lea x(%rip), %rdi
    /// let original = &[0x48, 0x8b, 0x3d, 0, 0, 0, 0];
    /// let linked = &[0x48, 0x8d, 0x3d, 0x10, 0x20, 0, 0];
    /// let windows = Windows { original, offset: 3, others: &[], linked };
    /// let found = recognise(Architecture::X86_64, 42, &windows);
    /// let made = found.into_iter().flatten().next().unwrap();
    /// assert_eq!(made.choice.kind, Relaxation::X86_64(RewriteKind::MovIndirectToLea));
    /// assert_eq!(Architecture::X86_64.name(made.choice.relocation), Some("R_X86_64_PC32"));
    /// assert_eq!(made.value.unwrap().number(), Some(0x2010));
    /// ```
    ///
    /// # Requires
    ///
    /// - `original.len() <= 64`
    #[must_use]
    #[inline]
    #[cfg_attr(debug_assertions, track_caller)]
    pub fn recognise(
        architecture: Architecture,
        r_type: u32,
        windows: &Windows<'_>,
    ) -> [Option<Recognised<Relaxation, u32>>; CANDIDATES] {
        let Windows { original, offset, others, linked } = *windows;
        architecture::recognise(architecture, r_type, original, offset, others, linked)
    }

    /// The choice that `choose` makes by what the linker knows, if it leaves the linked bytes, as
    /// [`recognise_chosen`](crate::recognise::recognise_chosen()) of this crate says.
    ///
    /// # Requires
    ///
    /// - `original.len() <= 64`
    #[must_use]
    #[inline]
    #[cfg_attr(debug_assertions, track_caller)]
    pub fn recognise_chosen(
        architecture: Architecture,
        r_type: u32,
        windows: &Windows<'_>,
        facts: &LinkFacts,
    ) -> Option<Recognised<Relaxation, u32>> {
        let Windows { original, offset, others, linked } = *windows;
        architecture::recognise_chosen(architecture, r_type, original, offset, others, linked, facts)
    }
}
