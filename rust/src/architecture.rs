// SPDX-License-Identifier: MIT OR Apache-2.0
// Made by tools/generate of crates/linker_utils/src/architecture.rt.
//! A rewrite of any architecture, and which one a linker makes at the relocation with an `r_type`.

use crate::elf::{
    Architecture, Choice, InstructionRewrite, LinkFacts, OtherRelocation, RewriteWindow,
};
#[cfg(feature = "ppc64")]
use crate::ppc64::{self, Ppc64Relocation};
use crate::relaxation::RelocationModifier;
use crate::linker_base::rewrite::DeletedBytes;
#[cfg(feature = "riscv64")]
use crate::riscv64::{self, RiscVRelocation};
#[cfg(feature = "x86_64")]
use crate::x86_64::{self, X86_64Relocation};
#[cfg(feature = "aarch64")]
use crate::aarch64;
#[cfg(feature = "loongarch64")]
use crate::loongarch64;
use crate::linker_elf::elf::architecture::{architectures, by_architecture};

/// A rewrite of one of the architectures.
#[cfg_attr(not(exhaustive), non_exhaustive)]
#[derive(Clone, Copy, PartialEq, Eq, Debug, Hash, PartialOrd, Ord)]
pub enum Relaxation {
    #[cfg(feature = "aarch64")]
    AArch64(aarch64::RewriteKind),
    #[cfg(feature = "riscv64")]
    RiscV(riscv64::RewriteKind),
    #[cfg(feature = "loongarch64")]
    LoongArch64(loongarch64::RewriteKind),
    #[cfg(feature = "ppc64")]
    Ppc64(ppc64::RewriteKind),
    #[cfg(feature = "x86_64")]
    X86_64(x86_64::RewriteKind),
}

/// What is made of a rewrite, whichever architecture it is of.
macro_rules! of_kind {
    (
        ($relaxation:expr, $kind:ident => $made:expr)
        $(#[$gate:meta] $of:ident $module:ident $names:ident $handles:literal,)*
    ) => {
        match $relaxation {
            $(#[$gate] Relaxation::$of($kind) => $made,)*
        }
    };
    ($relaxation:expr, $kind:ident => $made:expr) => {
        architectures!([of_kind] ($relaxation, $kind => $made))
    };
}

macro_rules! chosen {
    ($of:ident $module:ident $names:ident
        ($r_type:expr, $section:expr, $offset:expr, $facts:expr)) => {{
        let name = crate::$module::$names::from_elf($r_type);
        let chosen = crate::$module::choose(name, $section, $offset, $facts);
        Choice {
            kind: Relaxation::$of(chosen.kind),
            relocation: chosen.relocation.r_type(),
        }
    }};
}

macro_rules! rewrite_of {
    (X86_64 $module:ident $names:ident ($number:expr, $opcode_len:expr)) => {
        crate::$module::RewriteKind::from_number($number, $opcode_len).map(Relaxation::X86_64)
    };
    ($of:ident $module:ident $names:ident ($number:expr, $opcode_len:expr)) => {
        crate::$module::RewriteKind::from_number($number).map(Relaxation::$of)
    };
}

impl Relaxation {
    /// The architecture's rewrite with a number, its place in the enum of its rewrites. None above
    /// the last. Those of x86-64 that have a number of bytes before the field take `opcode_len`.
    #[must_use]
    #[inline(always)]
    pub fn from_number(
        architecture: Architecture,
        number: u32,
        opcode_len: u8,
    ) -> Option<Relaxation> {
        by_architecture!(architecture, rewrite_of(number, opcode_len))
    }

    /// The rewrite's number and its count of bytes before the field, which `from_number` takes. The
    /// count is 0 except for the rewrites of x86-64 that have one.
    #[must_use]
    #[inline]
    pub fn number(self) -> (u32, u8) {
        match self {
            #[cfg(feature = "aarch64")]
            Relaxation::AArch64(kind) => (kind.number(), 0),
            #[cfg(feature = "riscv64")]
            Relaxation::RiscV(kind) => (kind.number(), 0),
            #[cfg(feature = "loongarch64")]
            Relaxation::LoongArch64(kind) => (kind.number(), 0),
            #[cfg(feature = "ppc64")]
            Relaxation::Ppc64(kind) => (kind.number(), 0),
            #[cfg(feature = "x86_64")]
            Relaxation::X86_64(kind) => kind.number(),
        }
    }

    /// Whether the bytes at an offset of a section are an instruction, or a sequence of some, that
    /// the rewrite is meant for, as `matches` of the architecture's `RewriteKind` says. Where
    /// they are, the rewrite can be applied.
    #[must_use]
    #[inline(always)]
    pub fn matches(self, section: &[u8], offset: u64) -> bool {
        of_kind!(self, kind => kind.matches(section, offset))
    }

    /// The bytes to be deleted after the rewrite, as `deleted` of the `RewriteKind` of `riscv64`
    /// and `loongarch64` says. `None` where there are none, and for all other architectures.
    #[must_use]
    #[inline]
    pub fn deleted(self) -> Option<DeletedBytes> {
        match self {
            #[cfg(feature = "riscv64")]
            Relaxation::RiscV(kind) => kind.deleted(),
            #[cfg(feature = "loongarch64")]
            Relaxation::LoongArch64(kind) => kind.deleted(),
            _ => None,
        }
    }

    /// The relocation of another instruction that the rewrite changes too, by its `r_type`, as
    /// `other_relocation` of the `RewriteKind` of `aarch64` says. Whatever relocation is there
    /// becomes that one. `None` where the rewrite changes no other instruction that has one, and
    /// for all other architectures: where their rewrites do, the next relocation is skipped
    /// (`next_modifier`).
    #[must_use]
    #[inline]
    pub fn other_relocation(self) -> Option<OtherRelocation<u32>> {
        #[cfg(not(feature = "aarch64"))]
        {
            None
        }
        #[cfg(feature = "aarch64")]
        {
        let Relaxation::AArch64(kind) = self else {
            return None;
        };
        match kind.other_relocation() {
            Some(other) => Some(OtherRelocation {
                offset: other.offset,
                relocation: other.relocation.r_type(),
            }),
            None => None,
        }
        }
    }

    /// Where the relocation is that `next_modifier` skips, in bytes from the offset of the
    /// rewrite's own relocation on, as `skipped_offset` of the `RewriteKind` of `riscv64`,
    /// `ppc64` and `x86_64` says. `None` where none is skipped, and for all other architectures.
    ///
    /// Skip the relocation at that offset, and not whichever is the next. For PowerPC64 and x86-64
    /// it is that of a call: the rewrite needs one there whose type `may_be_skipped`
    /// and whose symbol is `__tls_get_addr`, which a linker tests before it sets `group_fits`.
    ///
    /// ```
    /// use linker_utils::architecture::{choose, may_be_skipped};
    /// use linker_utils::elf::{Architecture, LinkFacts, Operands};
    ///
    /// // lea x@tlsld(%rip), %rdi; call __tls_get_addr@PLT, with R_X86_64_TLSLD and R_X86_64_PLT32
    /// let sequence = [0x48, 0x8d, 0x3d, 0, 0, 0, 0, 0xe8, 0, 0, 0, 0];
    /// let facts = LinkFacts {
    ///     is_executable: true,
    ///     group_fits: true,
    ///     operands: Operands { addend: -4, ..Operands::default() },
    ///     ..LinkFacts::default()
    /// };
    /// let chosen = choose(Architecture::X86_64, 20, &sequence, 3, &facts);
    /// assert_eq!(chosen.kind.skipped_offset(), Some(5));
    /// assert!(may_be_skipped(Architecture::X86_64, 4));
    /// ```
    #[must_use]
    #[inline]
    pub fn skipped_offset(self) -> Option<u64> {
        match self {
            #[cfg(feature = "riscv64")]
            Relaxation::RiscV(kind) => kind.skipped_offset(),
            #[cfg(feature = "ppc64")]
            Relaxation::Ppc64(kind) => kind.skipped_offset(),
            #[cfg(feature = "x86_64")]
            Relaxation::X86_64(kind) => kind.skipped_offset(),
            _ => None,
        }
    }
}

impl InstructionRewrite for Relaxation {
    #[cfg_attr(debug_assertions, track_caller)]
    #[inline(always)]
    fn apply(self, section: &mut [u8], offset: &mut u64, addend: &mut i64) {
        debug_assert!(self.can_apply(section, *offset));
        of_kind!(self, kind => kind.apply(section, offset, addend))
    }

    #[inline(always)]
    fn can_apply(self, section: &[u8], offset: u64) -> bool {
        of_kind!(self, kind => kind.can_apply(section, offset))
    }

    #[inline(always)]
    fn window(self) -> RewriteWindow {
        of_kind!(self, kind => kind.window())
    }

    #[inline(always)]
    fn next_modifier(&self) -> RelocationModifier {
        of_kind!(self, kind => kind.next_modifier())
    }

    #[inline(always)]
    fn is_no_op(self) -> bool {
        of_kind!(self, kind => kind.is_no_op())
    }
}

/// Which rewrite a linker makes at the relocation with an `r_type`, and the `r_type` of the
/// relocation after it, as `choose` of `aarch64`, `riscv64`, `loongarch64`, `ppc64` and `x86_64`
/// says.
///
/// ```
/// use linker_utils::architecture::{Relaxation, choose};
/// use linker_utils::elf::{Architecture, LinkFacts, Operands};
/// use linker_utils::x86_64::RewriteKind;
///
/// // call *x@GOTPCREL(%rip), with R_X86_64_GOTPCRELX
/// let call = [0xff, 0x15, 0, 0, 0, 0];
/// let facts = LinkFacts {
///     is_local: true,
///     is_pcrel_link_time_constant: true,
///     operands: Operands { addend: -4, ..Operands::default() },
///     ..LinkFacts::default()
/// };
/// let chosen = choose(Architecture::X86_64, 41, &call, 2, &facts);
/// assert_eq!(chosen.kind, Relaxation::X86_64(RewriteKind::CallIndirectToRelative));
/// assert_eq!(Architecture::X86_64.name(chosen.relocation), Some("R_X86_64_PC32"));
/// ```
#[must_use]
pub fn choose(
    architecture: Architecture,
    r_type: u32,
    section: &[u8],
    offset: u64,
    facts: &LinkFacts,
) -> Choice<Relaxation, u32> {
    by_architecture!(architecture, chosen(r_type, section, offset, facts))
}

/// Whether the relocation with an `r_type` can be rewritten if each other one of its sequence can:
/// whether `choose` changes something with `group_fits`. A linker calls it for each relocation of
/// the sequence before it chooses, with the facts that it chooses by, and sets `group_fits` for all
/// of them if all fit, as `fits` of `aarch64`, `riscv64`, `loongarch64`, `ppc64` and `x86_64` says.
///
/// ```
/// use linker_utils::architecture::fits;
/// use linker_utils::elf::{Architecture, LinkFacts};
///
/// // ld 9,x@got@tprel@l(9), with R_PPC64_GOT_TPREL16_LO_DS, in an executable that defines x
/// let facts = LinkFacts { is_local: true, is_executable: true, ..LinkFacts::default() };
/// assert!(fits(Architecture::Ppc64, 88, &0xe929_0000_u32.to_le_bytes(), 0, &facts));
/// // lwz 9,x@got@tprel@l(9), which is none of its instructions
/// assert!(!fits(Architecture::Ppc64, 88, &0x8129_0000_u32.to_le_bytes(), 0, &facts));
/// ```
#[must_use]
pub fn fits(
    architecture: Architecture,
    r_type: u32,
    section: &[u8],
    offset: u64,
    facts: &LinkFacts,
) -> bool {
    let facts = LinkFacts {
        group_fits: true,
        ..*facts
    };
    !choose(architecture, r_type, section, offset, &facts).is_unchanged(r_type)
}

/// Whether the relocation with an `r_type` has a type that one skipped after a rewrite has, where
/// `skipped_offset` says: of a call of `__tls_get_addr`, and of RISC-V `R_RISCV_RELAX`. False of
/// architectures whose rewrites skip none.
///
/// ```
/// use linker_utils::architecture::may_be_skipped;
/// use linker_utils::elf::Architecture;
///
/// // R_X86_64_PLT32, and R_X86_64_64
/// assert!(may_be_skipped(Architecture::X86_64, 4));
/// assert!(!may_be_skipped(Architecture::X86_64, 1));
/// ```
#[must_use]
pub fn may_be_skipped(architecture: Architecture, r_type: u32) -> bool {
    match architecture {
        #[cfg(feature = "riscv64")]
        Architecture::RiscV => riscv64::may_be_skipped(RiscVRelocation::from_elf(r_type)),
        #[cfg(feature = "ppc64")]
        Architecture::Ppc64 => ppc64::may_be_skipped(Ppc64Relocation::from_elf(r_type)),
        #[cfg(feature = "x86_64")]
        Architecture::X86_64 => x86_64::may_be_skipped(X86_64Relocation::from_elf(r_type)),
        _ => false,
    }
}
