// SPDX-License-Identifier: MIT OR Apache-2.0
// Made by tools/generate of crates/linker_rewriting/src/sequences.rt.
//! Sequences whose relocations are next to each other, and marks of what may be relaxed.

use crate::linker_rewriting::phases::Phase;
use crate::linker_rewriting::relocations::Site;
use crate::linker_section::relocations::{Rela, relocation_at};
#[cfg(feature = "aarch64")]
use crate::aarch64::AArch64Relocation;
use crate::elf::Architecture;
#[cfg(feature = "loongarch64")]
use crate::loongarch64::LoongArch64Relocation;
#[cfg(feature = "ppc64")]
use crate::ppc64::Ppc64Relocation;
#[cfg(feature = "riscv64")]
use crate::riscv64::RiscVRelocation;

/// The `r_type` of the mark of an instruction that may be relaxed.
#[inline(always)]
fn mark_r_type(architecture: Architecture) -> Option<u32> {
    match architecture {
        #[cfg(feature = "riscv64")]
        Architecture::RiscV => Some(RiscVRelocation::R_RISCV_RELAX.r_type()),
        #[cfg(feature = "loongarch64")]
        Architecture::LoongArch64 => Some(LoongArch64Relocation::R_LARCH_RELAX.r_type()),
        _ => None,
    }
}

#[inline(always)]
fn is_mark_of(r_type: Option<u32>, offset: u64, relocation: Option<Rela>) -> bool {
    match (r_type, relocation) {
        (Some(r_type), Some(mark)) => mark.offset == offset && mark.r_type == r_type,
        _ => false,
    }
}

/// Whether a mark stands after a relocation with an index.
#[inline(always)]
pub(crate) fn is_marked_at(
    architecture: Architecture,
    relocations: &[u8],
    index: usize,
    relocation: &Rela,
) -> bool {
    let next = relocation_at(relocations, index + 1);
    is_mark_of(mark_r_type(architecture), relocation.offset, next)
}

/// The `r_type` of what is marked in a phase: before addresses are known a call of PowerPC64's
/// prefixed `r_type`, whose own relocation stands after its mark.
#[inline(always)]
fn mark_r_type_in(phase: Phase, architecture: Architecture) -> Option<u32> {
    match (phase, architecture) {
        #[cfg(feature = "ppc64")]
        (Phase::PreLayout, Architecture::Ppc64) => {
            #[cfg(feature = "ppc64")]
            {
                Some(Ppc64Relocation::R_PPC64_REL24_NOTOC.r_type())
            }
            #[cfg(not(feature = "ppc64"))]
            {
                None
            }
        }
        (Phase::PreLayout, _) => None,
        _ => mark_r_type(architecture),
    }
}

/// Whether what is marked in a phase stands after a relocation with an index.
#[inline(always)]
pub(crate) fn is_marked_in(phase: Phase, architecture: Architecture, site: &Site<'_>) -> bool {
    let next = relocation_at(site.relocations, site.index + 1);
    let r_type = mark_r_type_in(phase, architecture);
    is_mark_of(r_type, site.relocation.offset, next)
}

/// What ties a relocation to the others of its sequence.
#[derive(Clone, Copy)]
pub(crate) enum Tie {
    /// It is of their symbol and addend.
    Subject,
    /// The same, and the addend is 0.
    Symbol,
    /// It marks that the instruction may be relaxed, whatever it is of.
    Mark,
}

/// A relocation of a sequence.
#[derive(Clone, Copy)]
pub(crate) struct Member {
    pub r_type: u32,
    /// How many bytes it is after the first one.
    pub distance: u64,
    pub tie: Tie,
}

#[inline(always)]
fn is_tied(tie: Tie, relocation: &Rela, found: &Rela) -> bool {
    let is_same = found.symbol == relocation.symbol && found.addend == relocation.addend;
    match tie {
        Tie::Subject => is_same,
        Tie::Symbol => is_same && relocation.addend == 0,
        Tie::Mark => true,
    }
}

/// Whether a relocation is a member of a sequence at an offset, tied to another one.
#[inline(always)]
fn is_member(member: Member, offset: u64, relocation: &Rela, found: Option<Rela>) -> bool {
    let Some(found) = found else {
        return false;
    };
    found.offset.checked_sub(offset) == Some(member.distance)
        && found.r_type == member.r_type
        && is_tied(member.tie, relocation, &found)
}

/// Whether the relocations from an index on are the members of a sequence at an offset.
#[inline(always)]
fn are_members(
    members: &[Member],
    relocations: &[u8],
    first: usize,
    offset: u64,
    relocation: &Rela,
) -> bool {
    for (place, &member) in members.iter().enumerate() {
        let found = relocation_at(relocations, first + place);
        if !is_member(member, offset, relocation, found) {
            return false;
        }
    }
    true
}

/// Whether all of a sequence are there, of which the relocation is at a place, `distance` bytes
/// after the first one.
#[inline(always)]
fn is_among(members: &[Member], place: usize, distance: u64, site: &Site<'_>) -> bool {
    let relocation = &site.relocation;
    if site.index < place || relocation.offset < distance {
        return false;
    }
    let (first, offset) = (site.index - place, relocation.offset - distance);
    are_members(members, site.relocations, first, offset, relocation)
}

/// Whether a relocation with a type may be a member, and isn't its mark.
#[inline(always)]
fn is_place(member: Member, r_type: u32) -> bool {
    member.r_type == r_type && !matches!(member.tie, Tie::Mark)
}

/// Whether the relocation with an index is at no place of a sequence, or all of it are there.
#[inline(always)]
fn is_whole_in(members: &[Member], site: &Site<'_>) -> bool {
    for (place, &member) in members.iter().enumerate() {
        if is_place(member, site.relocation.r_type) {
            return is_among(members, place, member.distance, site);
        }
    }
    true
}

/// Whether a relocation is whole in each of these sequences, whose members are a name, how many
/// bytes it is after the first one, and its tie.
macro_rules! sequences {
    (
        $site:ident: $names:ident
        $([$($name:ident $distance:literal $tie:ident),+])+
    ) => {
        $(is_whole_in(
            &[$(Member {
                r_type: $names::$name.r_type(),
                distance: $distance,
                tie: Tie::$tie,
            }),+],
            $site,
        ))&&+
    };
}

/// Whether a relocation with an index is of no sequence whose relocations are next to each other,
/// or all of its sequence are.
#[inline(always)]
pub(crate) fn is_whole(architecture: Architecture, site: &Site<'_>) -> bool {
    match architecture {
        #[cfg(feature = "aarch64")]
        Architecture::AArch64 => sequences! {
            site: AArch64Relocation
            [R_AARCH64_TLSDESC_ADR_PAGE21 0 Subject, R_AARCH64_TLSDESC_LD64_LO12 4 Subject,
                R_AARCH64_TLSDESC_ADD_LO12 8 Subject, R_AARCH64_TLSDESC_CALL 12 Subject]
            [R_AARCH64_ADR_GOT_PAGE 0 Symbol, R_AARCH64_LD64_GOT_LO12_NC 4 Symbol]
            [R_AARCH64_ADR_PREL_PG_HI21 0 Symbol, R_AARCH64_ADD_ABS_LO12_NC 4 Symbol]
        },
        #[cfg(feature = "loongarch64")]
        Architecture::LoongArch64 => sequences! {
            site: LoongArch64Relocation
            [R_LARCH_GOT_PC_HI20 0 Subject, R_LARCH_RELAX 0 Mark,
                R_LARCH_GOT_PC_LO12 4 Subject, R_LARCH_RELAX 4 Mark]
        },
        _ => true,
    }
}
