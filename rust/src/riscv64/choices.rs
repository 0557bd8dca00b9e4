// SPDX-License-Identifier: MIT OR Apache-2.0
// Made by tools/generate of crates/linker_utils/src/riscv64/choices.rt.
//! RISC-V: which rewrite a linker chooses for a relocation.

use super::rewrites::{test, tests};
use super::{RewriteKind, RiscVRelocation, RiscVRelocation as Names};
use crate::rewrite_rows::WordTest::{AddsLow12, DifferWhere, Is};
use crate::rewrite_rows::{are_at, bits};
use crate::linker_elf::elf::choice_table::{
    ChoiceTable, Chosen, RewriteSet, SIGNED_12, Table, by_table, choice_by, conditions,
};
use crate::linker_elf::elf::{Choice, LinkFacts, Operands};

/// The instructions that an entry is for: what its rewrite is meant for, or another one.
#[derive(Debug)]
pub enum Pattern {
    OfRewrite,
    Lui,
    AddTp,
    Auipc,
    Ld,
    AddiToA0,
    LowOverOther,
}

impl RewriteSet for RewriteKind {
    type Relocation = Names;

    type Originals = Pattern;

    #[inline(always)]
    fn matches_at(self, originals: &Pattern, section: &[u8], offset: u64) -> bool {
        match originals {
            Pattern::OfRewrite => self.matches(section, offset),
            Pattern::Lui => are_at(&tests![lui], section, offset, 4),
            Pattern::AddTp => are_at(&tests![add_tp], section, offset, 4),
            Pattern::Auipc => are_at(&tests![auipc], section, offset, 4),
            Pattern::Ld => are_at(&tests![ld], section, offset, 4),
            Pattern::AddiToA0 => are_at(&tests![addi_a0], section, offset, 4),
            Pattern::LowOverOther => are_at(&tests![adds_low12, stores_other], section, offset, 4),
        }
    }

    #[inline(always)]
    fn operands_after(self, _offset: u64, operands: &Operands) -> Operands {
        *operands
    }
}

/// The conditions of entries, by the names that the definition has for them. After some a further
/// fact stands that has to hold.
macro_rules! when {
    // a `jal` reaches the symbol
    (by_jump) => { conditions!(FIXED_DISTANCE + RELAXABLE + WITHOUT_PLT, InReach(R_RISCV_JAL)) };
    // a `c.j` reaches it
    (by_short_jump) => {
        conditions!(
            FIXED_DISTANCE + COMPRESSIBLE + RELAXABLE + WITHOUT_PLT,
            InReach(R_RISCV_RVC_JUMP)
        )
    };
    // a `c.jal` does, which RV32 has
    (by_short_call) => {
        conditions!(
            CLASS32 + FIXED_DISTANCE + COMPRESSIBLE + RELAXABLE + WITHOUT_PLT,
            InReach(R_RISCV_RVC_JUMP)
        )
    };
    // 12 signed bits hold the address
    (with_low_part $($fact:ident)?) => { conditions!(FIXED_ADDRESS $(+ $fact)?, Low12) };
    // a `c.lui` holds the high part
    (by_short_high_part) => {
        conditions!(FIXED_ADDRESS + COMPRESSIBLE + RELAXABLE, InReach(R_RISCV_RVC_LUI))
    };
    // 12 signed bits hold the offset from the thread pointer
    (by_low_offset) => { conditions!(RELAXABLE, Within(R_RISCV_TPREL_LO12_I, SIGNED_12)) };
    // that offset in two instructions in place of a descriptor
    (to_local_exec $($fact:ident)?) => {
        conditions!(BOUND + EXECUTABLE $(+ $fact)?, Some(0), InReachIfKnown(R_RISCV_TPREL_HI20))
    };
    // in one instruction
    (to_short_local_exec $($fact:ident)?) => {
        conditions!(
            BOUND + EXECUTABLE $(+ $fact)?,
            Some(0),
            InReachIfKnown(R_RISCV_TPREL_HI20),
            Within(R_RISCV_TPREL_LO12_I, SIGNED_12)
        )
    };
    // in the GOT
    (to_initial_exec $($fact:ident)?) => {
        conditions!(EXECUTABLE $(+ $fact)?, InReachIfKnown(R_RISCV_TLS_GOT_HI20))
    };
    // the distance to the symbol in place of its GOT entry
    (without_got $($fact:ident)?) => {
        conditions!(
            BOUND + FIXED_DISTANCE + LABEL_RELAXABLE $(+ $fact)?,
            Some(0),
            InReachIfKnown(R_RISCV_PCREL_HI20)
        )
    };
    // the symbol's address in place of its GOT entry
    (without_got_of_fixed $($fact:ident)?) => {
        conditions!(
            BOUND + FIXED_ADDRESS + LABEL_RELAXABLE $(+ $fact)?,
            Some(0),
            InReach(R_RISCV_HI20)
        )
    };
    // 12 signed bits hold it
    (without_got_of_low $($fact:ident)?) => {
        conditions!(
            BOUND + FIXED_ADDRESS + RELAXABLE + LABEL_RELAXABLE $(+ $fact)?,
            Some(0),
            Low12
        )
    };
}

/// The entries of each relocation.
macro_rules! choices {
    ($make:ident $arguments:tt) => {
        $make! {
            $arguments
            R_RISCV_CALL | R_RISCV_CALL_PLT: [
                TailToCJ => R_RISCV_RVC_JUMP, by_short_jump;
                CallToCJal => R_RISCV_RVC_JUMP, by_short_call;
                TailToJal => R_RISCV_JAL, by_jump;
                CallToJal => R_RISCV_JAL, by_jump;
            ]
            R_RISCV_HI20: [
                Hi20Delete => R_RISCV_NONE, with_low_part(RELAXABLE);
                Hi20ToCLui => R_RISCV_RVC_LUI, by_short_high_part;
            ]
            R_RISCV_RVC_LUI: [CLuiToCLi => R_RISCV_NONE, with_low_part]
            R_RISCV_LO12_I: [Lo12Rs1ToZero => R_RISCV_LO12_I, with_low_part(RELAXABLE)]
            R_RISCV_LO12_S: [Lo12Rs1ToZero => R_RISCV_LO12_S, with_low_part(RELAXABLE)]
            R_RISCV_TPREL_HI20: [Delete at Lui => R_RISCV_NONE, by_low_offset]
            R_RISCV_TPREL_ADD: [Delete at AddTp => R_RISCV_NONE, by_low_offset]
            R_RISCV_TPREL_LO12_I: [BaseToTp => R_RISCV_TPREL_LO12_I, by_low_offset]
            R_RISCV_TPREL_LO12_S: [
                BaseToTp at LowOverOther => R_RISCV_TPREL_LO12_S, by_low_offset;
            ]
            R_RISCV_TLSDESC_HI20: [
                Delete at Auipc => R_RISCV_NONE, to_local_exec(RELAXABLE);
                ReplaceWithLongNop at Auipc => R_RISCV_NONE, to_local_exec;
                Delete at Auipc => R_RISCV_NONE, to_initial_exec(RELAXABLE);
                ReplaceWithLongNop at Auipc => R_RISCV_NONE, to_initial_exec;
            ]
            R_RISCV_TLSDESC_LOAD_LO12: [
                Delete at Ld => R_RISCV_NONE, to_local_exec(RELAXABLE);
                ReplaceWithLongNop at Ld => R_RISCV_NONE, to_local_exec;
                Delete at Ld => R_RISCV_NONE, to_initial_exec(RELAXABLE);
                ReplaceWithLongNop at Ld => R_RISCV_NONE, to_initial_exec;
            ]
            R_RISCV_TLSDESC_ADD_LO12: [
                Delete at AddiToA0 => R_RISCV_NONE, to_short_local_exec(RELAXABLE);
                ReplaceWithLongNop at AddiToA0 => R_RISCV_NONE, to_short_local_exec;
                AddiToLui => R_RISCV_TPREL_HI20, to_local_exec;
                AddiToAuipc => R_RISCV_TLS_GOT_HI20, to_initial_exec;
            ]
            R_RISCV_TLSDESC_CALL: [
                CallToAddiZero => R_RISCV_TPREL_LO12_I, to_short_local_exec;
                CallToAddi => R_RISCV_TPREL_LO12_I, to_local_exec;
                CallToLd => R_RISCV_PCREL_LO12_I, to_initial_exec;
            ]
            R_RISCV_GOT_HI20: [
                Delete at Auipc => R_RISCV_NONE, without_got_of_low;
                NoOp at Auipc => R_RISCV_PCREL_HI20, without_got;
                AuipcToLui => R_RISCV_HI20, without_got_of_fixed;
            ]
            R_RISCV_PCREL_LO12_I: [
                LdToAddiZero => R_RISCV_LO12_I, without_got_of_low(GOT_HIGH_PART);
                LdToAddi => R_RISCV_PCREL_LO12_I, without_got(GOT_HIGH_PART);
                LdToAddi => R_RISCV_LO12_I, without_got_of_fixed(GOT_HIGH_PART);
            ]
        }
    };
}

impl ChoiceTable for RewriteKind {
    #[inline(always)]
    fn entries(name: Names, _section: &[u8], _offset: u64) -> Table<Self> {
        choices!(by_table(when, name, table => table))
    }

    #[inline(never)]
    fn choose_listed(name: Names, section: &[u8], offset: u64, facts: &LinkFacts) -> Chosen<Self> {
        choices!(by_table(when, name, table => choice_by(table, name, section, offset, facts)))
    }
}

/// Which rewrite a linker may make of the instruction or the pair at a relocation's offset, and the
/// relocation whose value is then written (RISC-V ELF psABI, "Linker Relaxation").
///
/// ```
/// use linker_utils::elf::{LinkFacts, Operands};
/// use linker_utils::riscv64::{RewriteKind, RiscVRelocation, choose};
///
/// // auipc ra, 0; jalr ra, 0(ra), which calls a function 0x1000 bytes on
/// let call = [0x97, 0x00, 0x00, 0x00, 0xe7, 0x80, 0x00, 0x00];
/// let facts = LinkFacts {
///     is_pcrel_link_time_constant: true,
///     is_relaxable: true,
///     has_addresses: true,
///     operands: Operands {
///         plt_entry: 0x2000,
///         symbol: 0x2000,
///         place: 0x1000,
///         ..Operands::default()
///     },
///     ..LinkFacts::default()
/// };
/// let chosen = choose(RiscVRelocation::R_RISCV_CALL_PLT, &call, 0, &facts);
/// assert_eq!(chosen.kind, RewriteKind::CallToJal);
/// assert_eq!(chosen.relocation, RiscVRelocation::R_RISCV_JAL);
/// ```
#[must_use]
#[inline]
#[doc = include_str!("../../doc/riscv64/choose.linker.md")]
#[doc = include_str!("../../doc/riscv64/choose.md")]
pub fn choose(
    name: RiscVRelocation,
    section: &[u8],
    offset: u64,
    facts: &LinkFacts,
) -> Choice<RewriteKind, RiscVRelocation> {
    RewriteKind::choose(name, section, offset, facts)
}

/// Whether a relocation can be rewritten, if all others of its sequence can: whether `choose` with
/// `group_fits` changes it. `architecture::fits` has an example.
#[must_use]
#[doc = include_str!("../../doc/choices/fits.md")]
pub fn fits(name: RiscVRelocation, section: &[u8], offset: u64, facts: &LinkFacts) -> bool {
    RewriteKind::fits(name, section, offset, facts)
}

/// With the same facts, all four relocations of a TLS descriptor are rewritten for local-exec, all
/// for initial-exec, or none; and the `auipc` and the `ld` of a GOT entry are both rewritten or
/// neither is. With the same facts, except that each has its own place, the `lui` of an address is
/// deleted exactly where a low part of it is rewritten: where it becomes a `c.lui` the low part
/// stays. And the `lui` of an offset from the thread pointer, its `add` and its low parts are all
/// rewritten or none is. This holds where each is at an instruction that it requires, wherever that
/// is.
#[doc(hidden)]
pub fn relocations_are_chosen_alike() {}
