// SPDX-License-Identifier: MIT OR Apache-2.0
// Made by tools/generate of crates/linker_utils/src/loongarch64/choices.rt.
//! LoongArch: which rewrite a linker chooses for a relocation.

use super::rewrites::{RewriteKind, test, tests};
use crate::rewrite_rows::WordTest::{AreSame, DifferWhere, Is, IsEitherOrWithin, IsNot};
use crate::rewrite_rows::{are_at, bits, top};
use crate::linker_elf::elf::choice_table::{
    ChoiceTable, Chosen, RewriteSet, SIGNED_12, Table, by_table, choice_by, conditions,
};
use crate::linker_elf::elf::{Choice, LinkFacts, Operands};
use crate::linker_elf::loongarch64::{LoongArch64Relocation, LoongArch64Relocation as Names};

/// The instructions that an entry is for, where its relocation is at the first one, if no other is
/// named.
#[derive(Debug)]
pub enum Pattern {
    /// Those that its rewrite is meant for.
    OfRewrite,
    /// `pcalau12i rd` and `ld.d rd, rd`.
    Load,
    /// The same at the `ld.d`.
    LowOfLoad,
    /// `pcalau12i rd` and `addi.d rd, rd`.
    Sum,
    /// The same at the `addi.d`.
    LowOfSum,
    /// `pcalau12i`.
    Pcalau12i,
    /// `ld.d`.
    Ld,
    /// `pcalau12i a0` of a TLS descriptor.
    PageOfDescriptor,
    /// `addi.d a0, a0` of a TLS descriptor.
    LowOfDescriptor,
    /// `ld.d ra, a0, 0` of a TLS descriptor.
    LoadOfDescriptor,
    /// `jirl ra, ra, 0` of a TLS descriptor.
    CallOfDescriptor,
    /// `lu12i.w`.
    Lu12i,
    /// `add.d rd, rj, tp`.
    AddTp,
    /// What adds an immediate of 12 bits, other than a store of its own base.
    LowOverOther,
}

impl RewriteSet for RewriteKind {
    type Relocation = Names;

    type Originals = Pattern;

    #[inline(always)]
    fn matches_at(self, originals: &Pattern, section: &[u8], offset: u64) -> bool {
        match *originals {
            Pattern::OfRewrite => self.matches(section, offset),
            Pattern::Load => are_at(&tests![pair_with ld_d], section, offset, 8),
            Pattern::LowOfLoad => {
                4 <= offset && are_at(&tests![pair_with ld_d], section, offset - 4, 8)
            }
            Pattern::Sum => are_at(&tests![pair_with addi_d], section, offset, 8),
            Pattern::LowOfSum => {
                4 <= offset && are_at(&tests![pair_with addi_d], section, offset - 4, 8)
            }
            Pattern::Pcalau12i => are_at(&tests![pcalau12i], section, offset, 4),
            Pattern::Ld => are_at(&tests![ld_d], section, offset, 4),
            Pattern::PageOfDescriptor => are_at(&tests![pcalau12i, into 4], section, offset, 4),
            Pattern::LowOfDescriptor => are_at(&tests![addi_d, into 4, from 4], section, offset, 4),
            Pattern::LoadOfDescriptor => are_at(&tests![ld_d_ra_a0_0], section, offset, 4),
            Pattern::CallOfDescriptor => are_at(&tests![jirl_ra_ra_0], section, offset, 4),
            Pattern::Lu12i => are_at(&tests![lu12i_w], section, offset, 4),
            Pattern::AddTp => are_at(&tests![add_d_of_tp], section, offset, 4),
            Pattern::LowOverOther => are_at(&tests![adds_low, stores_other], section, offset, 4),
        }
    }

    #[inline(always)]
    fn operands_after(self, _offset: u64, operands: &Operands) -> Operands {
        *operands
    }
}

/// The numbers of 32 bits in two's complement, and the immediates of `ori`.
const SIGNED_32: (i64, i64) = (-0x8000_0000, 0x8000_0000);

const UNSIGNED_12: (i64, i64) = (0, 0x1000);

/// The conditions of entries, by the names that the definition has for them. After some stands how
/// many bytes before the first instruction is, and after others a further fact that has to hold.
macro_rules! when {
    // by `pcaddi` alone
    (by_pcaddi $back:literal) => {
        conditions!(FIXED_DISTANCE + RELAXABLE, InReach(R_LARCH_PCREL20_S2, $back))
    };
    // the same of the symbol's definition, in place of its GOT entry
    (bound_by_pcaddi $back:literal) => {
        conditions!(
            BOUND + FIXED_DISTANCE + RELAXABLE,
            Some(0),
            InReach(R_LARCH_PCREL20_S2, $back)
        )
    };
    // the GOT entry of general- or local-dynamic by `pcaddi`
    (entry_by_pcaddi $name:ident, $back:literal) => {
        conditions!(RELAXABLE + GROUP_FITS, InReach($name, $back))
    };
    // a TLS descriptor that stays, by `pcaddi`
    (descriptor_by_pcaddi $back:literal) => {
        conditions!(RELAXABLE, InReach(R_LARCH_TLS_DESC_PCREL20_S2, $back))
    };
    // the definition by the distance in pages
    (bound_by_pages $back:literal) => {
        conditions!(
            BOUND + FIXED_DISTANCE,
            Some(0),
            WithinIfKnown(R_LARCH_PCALA_HI20, SIGNED_32, $back)
        )
    };
    // by `b` or `bl`
    (by_branch) => { conditions!(FIXED_DISTANCE + RELAXABLE, InReach(R_LARCH_B26)) };
    // the offset from the thread pointer in the instructions, which may stand apart
    (to_local_exec) => {
        conditions!(
            BOUND + EXECUTABLE + GROUP_FITS,
            Some(0),
            WithinIfKnown(R_LARCH_TLS_LE_HI20, SIGNED_32)
        )
    };
    // that offset by `ori` alone
    (to_short_local_exec $($fact:ident)?) => {
        conditions!(
            BOUND + EXECUTABLE + GROUP_FITS $(+ $fact)?,
            Some(0),
            Within(R_LARCH_TLS_LE_LO12, UNSIGNED_12)
        )
    };
    // the offset in the GOT: of the high half, which has the distance
    (page_to_initial_exec) => {
        conditions!(EXECUTABLE + GROUP_FITS, WithinIfKnown(R_LARCH_TLS_IE_PC_HI20, SIGNED_32))
    };
    // and of the others, which hold for local-exec too
    (to_initial_exec $($fact:ident)?) => { conditions!(EXECUTABLE + GROUP_FITS $(+ $fact)?) };
    // the offset from the thread pointer in 12 signed bits
    (by_low_part) => { conditions!(RELAXABLE, Within(R_LARCH_TLS_LE_LO12_R, SIGNED_12)) };
}

/// The entries of each relocation.
macro_rules! choices {
    ($make:ident $arguments:tt) => {
        $make! {
            $arguments
            R_LARCH_GOT_PC_HI20: [
                PcalaToPcaddi at Load => R_LARCH_PCREL20_S2, bound_by_pcaddi(0);
                NoOp at Load => R_LARCH_PCALA_HI20, bound_by_pages(0);
            ]
            R_LARCH_GOT_PC_LO12: [
                Delete at LowOfLoad => R_LARCH_NONE, bound_by_pcaddi(4);
                LdToAddi at LowOfLoad => R_LARCH_PCALA_LO12, bound_by_pages(4);
                DeleteAddi at LowOfSum => R_LARCH_NONE,
                    entry_by_pcaddi(R_LARCH_TLS_GD_PCREL20_S2, 4);
            ]
            R_LARCH_PCALA_HI20: [PcalaToPcaddi at Sum => R_LARCH_PCREL20_S2, by_pcaddi(0)]
            R_LARCH_PCALA_LO12: [Delete at LowOfSum => R_LARCH_NONE, by_pcaddi(4)]
            R_LARCH_TLS_GD_PC_HI20: [
                PcalaToPcaddi at Sum => R_LARCH_TLS_GD_PCREL20_S2,
                    entry_by_pcaddi(R_LARCH_TLS_GD_PCREL20_S2, 0)
            ]
            R_LARCH_TLS_LD_PC_HI20: [
                PcalaToPcaddi at Sum => R_LARCH_TLS_LD_PCREL20_S2,
                    entry_by_pcaddi(R_LARCH_TLS_LD_PCREL20_S2, 0)
            ]
            R_LARCH_CALL36: [
                CallToB => R_LARCH_B26, by_branch;
                CallToBl => R_LARCH_B26, by_branch;
            ]
            R_LARCH_TLS_IE_PC_HI20: [
                ReplaceWithNop at Pcalau12i => R_LARCH_NONE, to_short_local_exec;
                PcalaToLu12i at Pcalau12i => R_LARCH_TLS_LE_HI20, to_local_exec;
            ]
            R_LARCH_TLS_IE_PC_LO12: [
                LowToOriZero at Ld => R_LARCH_TLS_LE_LO12, to_short_local_exec;
                LowToOri at Ld => R_LARCH_TLS_LE_LO12, to_local_exec;
            ]
            R_LARCH_TLS_DESC_PC_HI20: [
                Delete at PageOfDescriptor => R_LARCH_NONE, to_short_local_exec(RELAXABLE);
                ReplaceWithNop at PageOfDescriptor => R_LARCH_NONE, to_short_local_exec;
                PcalaToLu12i at PageOfDescriptor => R_LARCH_TLS_LE_HI20, to_local_exec;
                NoOp at PageOfDescriptor => R_LARCH_TLS_IE_PC_HI20, page_to_initial_exec;
                PcalaToPcaddi at Sum => R_LARCH_TLS_DESC_PCREL20_S2, descriptor_by_pcaddi(0);
            ]
            R_LARCH_TLS_DESC_PC_LO12: [
                LowToOriZero at LowOfDescriptor => R_LARCH_TLS_LE_LO12, to_short_local_exec;
                LowToOri at LowOfDescriptor => R_LARCH_TLS_LE_LO12, to_local_exec;
                AddiToLd at LowOfDescriptor => R_LARCH_TLS_IE_PC_LO12, to_initial_exec;
                Delete at LowOfSum => R_LARCH_NONE, descriptor_by_pcaddi(4);
            ]
            R_LARCH_TLS_DESC_LD: [
                Delete at LoadOfDescriptor => R_LARCH_NONE, to_initial_exec(RELAXABLE);
                ReplaceWithNop at LoadOfDescriptor => R_LARCH_NONE, to_initial_exec;
            ]
            R_LARCH_TLS_DESC_CALL: [
                Delete at CallOfDescriptor => R_LARCH_NONE, to_initial_exec(RELAXABLE);
                ReplaceWithNop at CallOfDescriptor => R_LARCH_NONE, to_initial_exec;
            ]
            R_LARCH_TLS_LE_HI20_R: [Delete at Lu12i => R_LARCH_NONE, by_low_part]
            R_LARCH_TLS_LE_ADD_R: [Delete at AddTp => R_LARCH_NONE, by_low_part]
            R_LARCH_TLS_LE_LO12_R: [
                BaseToTp at LowOverOther => R_LARCH_TLS_LE_LO12_R, by_low_part;
            ]
        }
    };
}

impl ChoiceTable for RewriteKind {
    #[inline(always)]
    fn entries(name: Names, _section: &[u8], _offset: u64) -> Table<Self> {
        choices!(by_table(when, name, table => table))
    }

    #[inline(never)]
    fn choose_listed(name: Names, section: &[u8], offset: u64, facts: &LinkFacts) -> Chosen<Self> {
        choices!(by_table(when, name, table => choice_by(table, name, section, offset, facts)))
    }
}

/// Which rewrite a linker may make of the instruction or the pair at a relocation's offset, and the
/// relocation whose value is then written (LoongArch ELF psABI, relaxation and the sequences of
/// thread-local storage).
///
/// ```
/// use linker_utils::elf::{LinkFacts, Operands};
/// use linker_utils::loongarch64::{LoongArch64Relocation, RewriteKind, choose};
///
/// // pcaddu18i ra, 0; jirl ra, ra, 0, which calls a function 0x1000 bytes on
/// let call = [0x01, 0x00, 0x00, 0x1e, 0x21, 0x00, 0x00, 0x4c];
/// let facts = LinkFacts {
///     is_pcrel_link_time_constant: true,
///     is_relaxable: true,
///     has_addresses: true,
///     operands: Operands { plt_entry: 0x2000, place: 0x1000, ..Operands::default() },
///     ..LinkFacts::default()
/// };
/// let chosen = choose(LoongArch64Relocation::R_LARCH_CALL36, &call, 0, &facts);
/// assert_eq!(chosen.kind, RewriteKind::CallToBl);
/// assert_eq!(chosen.relocation, LoongArch64Relocation::R_LARCH_B26);
/// ```
#[must_use]
#[inline]
#[doc = include_str!("../../doc/loongarch64/choose.linker.md")]
#[doc = include_str!("../../doc/loongarch64/choose.md")]
pub fn choose(
    name: LoongArch64Relocation,
    section: &[u8],
    offset: u64,
    facts: &LinkFacts,
) -> Choice<RewriteKind, LoongArch64Relocation> {
    RewriteKind::choose(name, section, offset, facts)
}

/// Whether a relocation can be rewritten, if all others of its sequence can: whether `choose` with
/// `group_fits` changes it. `architecture::fits` has an example.
#[must_use]
#[doc = include_str!("../../doc/choices/fits.md")]
pub fn fits(name: LoongArch64Relocation, section: &[u8], offset: u64, facts: &LinkFacts) -> bool {
    RewriteKind::fits(name, section, offset, facts)
}

/// With the same facts, except that each has its own place, both relocations of a pair are
/// rewritten alike or neither is: of a load of a GOT entry, if `group_fits` holds only where the
/// high half fits; of `pcalau12i` and `addi.d` for the entry of general- or local-dynamic; and of
/// an address. And so are, wherever they are, where each is at an instruction that it requires, a
/// high and a low half of initial-exec; the four of a TLS descriptor, all for local-exec, all for
/// initial-exec, or none, if the high half reaches the entry of initial-exec; and the `lu12i.w` of
/// an offset from the thread pointer, its `add.d` and its low parts. Of a descriptor that stays the
/// first two become `pcaddi`, both or neither, where they are next to each other.
#[doc(hidden)]
pub fn relocations_are_chosen_alike() {}
