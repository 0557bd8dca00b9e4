//! What a linker made of a relocation, by the bytes before and after: which rewrite, which
//! relocation it then wrote, and what stands in its field.

use crate::elf::LinkFacts;
use crate::linker_reading::recognise as source;
pub use crate::linker_reading::recognise::fields::{
    FieldBits, field_bits, same_but_for, writes_change_fields,
};
pub use crate::linker_reading::recognise::{
    CANDIDATES, MAX_WINDOW, Recognised, RecognisedName, written_choices_are_left,
};

/// Bytes around a relocation in an object and in the linked file. Both windows may begin before it,
/// at the same place. After a rewrite that deletes bytes the linked one has fewer.
#[derive(Debug, Clone, Copy, PartialEq, Eq)]
pub struct Windows<'a> {
    /// The object's bytes, at most [`MAX_WINDOW`].
    pub original: &'a [u8],
    /// The offset of the relocation in them.
    pub offset: u64,
    /// Bits that other relocations write.
    pub others: &'a [FieldBits],
    /// The linked bytes.
    pub linked: &'a [u8],
}

//= linker_reading::recognise::engine::recognise
///
/// ```
/// use linker_utils::recognise::{Windows, recognise};
/// use linker_utils::riscv64::RiscVRelocation;
/// use linker_utils::x86_64::{RewriteKind, X86_64Relocation};
///
/// // mov x@GOTPCREL(%rip), %rdi became lea x(%rip), %rdi
/// let original = &[0x48, 0x8b, 0x3d, 0, 0, 0, 0];
/// let linked = &[0x48, 0x8d, 0x3d, 0x10, 0x20, 0, 0];
/// let windows = Windows { original, offset: 3, others: &[], linked };
/// let name = X86_64Relocation::R_X86_64_REX_GOTPCRELX;
/// let mut choices = recognise(name, &windows).into_iter().flatten();
/// let made = choices.next().unwrap();
/// assert_eq!(made.choice.kind, RewriteKind::MovIndirectToLea);
/// assert_eq!(made.value.unwrap().number(), Some(0x2010));
/// assert!(choices.next().is_none());
///
/// // `auipc ra, 0` and `jalr ra, 0(ra)` became `jal ra, 256`
/// let original = &[0x97, 0, 0, 0, 0xe7, 0x80, 0, 0];
/// let windows = Windows { original, offset: 0, others: &[], linked: &[0xef, 0, 0, 0x10] };
/// let mut choices = recognise(RiscVRelocation::R_RISCV_CALL_PLT, &windows).into_iter().flatten();
/// assert_eq!(choices.next().unwrap().choice.relocation, RiscVRelocation::R_RISCV_JAL);
/// ```
#[must_use]
#[inline]
#[cfg_attr(debug_assertions, track_caller)]
pub fn recognise<N: RecognisedName>(
    name: N,
    windows: &Windows<'_>,
) -> [Option<Recognised<N::Kind, N>>; CANDIDATES] {
    let Windows { original, offset, others, linked } = *windows;
    source::recognise(name, original, offset, others, linked)
}

//= linker_reading::recognise::engine::recognise_chosen
#[must_use]
#[inline]
#[cfg_attr(debug_assertions, track_caller)]
pub fn recognise_chosen<N: RecognisedName>(
    name: N,
    windows: &Windows<'_>,
    facts: &LinkFacts,
) -> Option<Recognised<N::Kind, N>> {
    let Windows { original, offset, others, linked } = *windows;
    source::recognise_chosen(name, original, offset, others, linked, facts)
}

/// What a linker made of a relocation, by its architecture and its code.
pub mod architecture {
    use super::{CANDIDATES, Recognised, Windows};
    use crate::architecture::Relaxation;
    use crate::elf::{Architecture, LinkFacts};
    use crate::linker_reading::recognise::architecture;
    pub use crate::linker_reading::recognise::architecture::{
        Destination, destination_of, window_of,
    };

    //= linker_reading::recognise::architecture::recognise
    ///
    /// ```
    /// use linker_utils::architecture::Relaxation;
    /// use linker_utils::elf::Architecture;
    /// use linker_utils::recognise::{Windows, architecture::recognise};
    /// use linker_utils::x86_64::RewriteKind;
    ///
    /// // mov x@GOTPCREL(%rip), %rdi, with R_X86_64_REX_GOTPCRELX, became lea x(%rip), %rdi
    /// let original = &[0x48, 0x8b, 0x3d, 0, 0, 0, 0];
    /// let linked = &[0x48, 0x8d, 0x3d, 0x10, 0x20, 0, 0];
    /// let windows = Windows { original, offset: 3, others: &[], linked };
    /// let found = recognise(Architecture::X86_64, 42, &windows);
    /// let made = found.into_iter().flatten().next().unwrap();
    /// assert_eq!(made.choice.kind, Relaxation::X86_64(RewriteKind::MovIndirectToLea));
    /// assert_eq!(Architecture::X86_64.name(made.choice.relocation), Some("R_X86_64_PC32"));
    /// assert_eq!(made.value.unwrap().number(), Some(0x2010));
    /// ```
    #[must_use]
    #[inline]
    #[cfg_attr(debug_assertions, track_caller)]
    pub fn recognise(
        architecture: Architecture,
        r_type: u32,
        windows: &Windows<'_>,
    ) -> [Option<Recognised<Relaxation, u32>>; CANDIDATES] {
        let Windows { original, offset, others, linked } = *windows;
        architecture::recognise(architecture, r_type, original, offset, others, linked)
    }

    //= linker_reading::recognise::architecture::recognise_chosen
    #[must_use]
    #[inline]
    #[cfg_attr(debug_assertions, track_caller)]
    pub fn recognise_chosen(
        architecture: Architecture,
        r_type: u32,
        windows: &Windows<'_>,
        facts: &LinkFacts,
    ) -> Option<Recognised<Relaxation, u32>> {
        let Windows { original, offset, others, linked } = *windows;
        architecture::recognise_chosen(architecture, r_type, original, offset, others, linked, facts)
    }
}
