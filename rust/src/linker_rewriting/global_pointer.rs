// SPDX-License-Identifier: MIT OR Apache-2.0
// Made by tools/generate of crates/linker_rewriting/src/global_pointer.rt.
//! RISC-V's addresses within 2 KiB of the global pointer, from 2,048 below it to 2,047 above it, or
//! of 0 (RISC-V ELF psABI, "Global-pointer Relaxation" and "Zero-page Relaxation"). They need no
//! `lui` and no `auipc`: each low part takes x3 or x0 as its base, all of a symbol or none. `gp` is
//! the address of `__global_pointer$`. For other architectures nothing is noted or rewritten.

use crate::linker_rewriting::decisions::{
    Decision, DecisionNumbers, Deletion, RewritingError, decision_in, subject_of,
};
use crate::linker_rewriting::facts::{OutputFacts, RelaxContext, SymbolFacts, address_in, contradiction};
use crate::linker_rewriting::relocations::{Site, relocation_in, site};
use crate::linker_rewriting::riscv_pcrel_groups::{high_at, is_beyond, label_at};
use crate::linker_rewriting::rules::{Rule, decide_by};
use crate::linker_rewriting::sections::list_deletions;
use crate::linker_rewriting::sequences::is_marked_at;
use crate::linker_rewriting::toc_indirection::{keep_word, word_stays};
use crate::linker_base::rewrite::overwrite;
use crate::linker_section::facts::{Addresses, Symbol};
use crate::linker_section::relocations::{Rela, is_ascending, relocations_len, set_relocation};
use crate::architecture::Relaxation;
use crate::elf::{Architecture, Choice};
use crate::riscv64::fields::{base, destination, opcode, stores_base, word_at};
use crate::riscv64::{RewriteKind, RiscVRelocation};
use crate::utils::u32_from_slice;

/// What the instruction of a relocation is of an address.
#[derive(Clone, Copy, PartialEq, Eq, Debug, Hash)]
pub(crate) enum Part {
    /// A high part, with its opcode.
    High(u32),
    /// A low part whose relocation is of the symbol, with the type that it gets.
    Low(u32),
    /// A low part whose relocation is of the label of its high part, with the type that it gets.
    Labelled(u32),
}

/// The type of a low part of the I format until its base is known, `R_RISCV_GPREL_I` of `elf.h`.
pub const GPREL_I: u32 = 47;

/// The same of the S format, `R_RISCV_GPREL_S`.
pub const GPREL_S: u32 = 48;

fn part_of(architecture: Architecture, r_type: u32) -> Option<Part> {
    match architecture {
        Architecture::RiscV => {
            if RiscVRelocation::R_RISCV_HI20.r_type() == r_type {
                Some(Part::High(0x37))
            } else if RiscVRelocation::R_RISCV_PCREL_HI20.r_type() == r_type {
                Some(Part::High(0x17))
            } else if RiscVRelocation::R_RISCV_LO12_I.r_type() == r_type {
                Some(Part::Low(GPREL_I))
            } else if RiscVRelocation::R_RISCV_LO12_S.r_type() == r_type {
                Some(Part::Low(GPREL_S))
            } else if RiscVRelocation::R_RISCV_PCREL_LO12_I.r_type() == r_type {
                Some(Part::Labelled(GPREL_I))
            } else if RiscVRelocation::R_RISCV_PCREL_LO12_S.r_type() == r_type {
                Some(Part::Labelled(GPREL_S))
            } else {
                None
            }
        }
        _ => None,
    }
}

/// The high part at the label of a low part.
fn labelled(context: &RelaxContext<'_>, relocations: &[u8], relocation: &Rela) -> Option<Rela> {
    let at = label_at(context, relocation)?;
    let r_type = RiscVRelocation::R_RISCV_PCREL_HI20.r_type();
    let high = high_at(relocations, r_type, at)?;
    Some(relocation_in(relocations, high))
}

/// What a relocation is of an address, and the relocation whose symbol and addend are its own.
fn member_of(
    context: &RelaxContext<'_>,
    relocations: &[u8],
    relocation: &Rela,
) -> Option<(Part, Rela)> {
    let part = part_of(context.architecture, relocation.r_type)?;
    match part {
        Part::Labelled(_) => Some((part, labelled(context, relocations, relocation)?)),
        Part::High(_) | Part::Low(_) => Some((part, *relocation)),
    }
}

/// Whether 12 signed bits hold the distance of an address from another one.
fn is_near(base: u64, address: u64) -> bool {
    address.wrapping_sub(base).wrapping_add(0x800) < 0x1000
}

/// S + A.
fn address_of(addresses: &Addresses, relocation: &Rela, value: &Symbol) -> u64 {
    let addend = relocation.addend as u64;
    address_in(addresses, value).wrapping_add(addend)
}

/// Whether x3 or x0 reaches what a relocation refers to: data or code, which nothing replaces at
/// run time.
fn is_reached(context: &RelaxContext<'_>, gp: u64, relocation: &Rela) -> bool {
    let index = relocation.symbol as usize;
    match (context.symbols.get(index), context.values.get(index)) {
        (Some(symbol), Some(value)) => {
            let stays_here = symbol.is_local || symbol.is_undefined_weak;
            let is_bound = stays_here && !symbol.is_ifunc && !value.is_thread_local;
            let address = address_of(context.addresses, relocation, value);
            is_bound && (is_near(gp, address) || is_near(0, address))
        }
        _ => false,
    }
}

/// Whether four bytes from an offset on are in the section.
fn has_word(section: &[u8], offset: u64) -> bool {
    let section_len = section.len() as u64;
    4 <= section_len && offset <= section_len - 4
}

/// The instruction at an offset of the section, by its four bytes alone.
fn window_at(section: &[u8], offset: u64) -> u32 {
    u32_from_slice(&section[offset as usize..])
}

/// Whether an instruction adds 12 bits to another register than x0, doesn't store what that holds,
/// and doesn't write x3.
fn is_low_at(section: &[u8], offset: u64) -> bool {
    let word = word_at(section, offset);
    // a store, or a load of a number of floating point
    let writes_none = opcode(word) == 0x23 || opcode(word) == 0x27 || opcode(word) == 0x07;
    RewriteKind::Lo12Rs1ToZero.matches(section, offset)
        && base(word) != 0
        && !stores_base(word)
        && (writes_none || destination(word) != 3)
}

/// Whether the instruction of a relocation is one of such a part. A high part writes another
/// register than x0 and x3.
fn is_expected(section: &[u8], relocation: &Rela, part: Part, subject: &Rela) -> bool {
    let offset = relocation.offset;
    if !has_word(section, offset) {
        return false;
    }
    match part {
        Part::High(expected) => {
            let word = word_at(section, offset);
            opcode(word) == expected && destination(word) != 0 && destination(word) != 3
        }
        Part::Low(_) => is_low_at(section, offset),
        Part::Labelled(_) => {
            is_low_at(section, offset)
                && has_word(section, subject.offset)
                && base(word_at(section, offset)) == destination(word_at(section, subject.offset))
        }
    }
}

/// What parts are chosen by. As a rule all of a symbol are rewritten, or none is.
#[derive(Clone, Copy)]
struct Parts<'a> {
    context: &'a RelaxContext<'a>,
    gp: u64,
    /// Whether the relocations ascend.
    ascends: bool,
    /// Which symbols stay.
    kept: &'a [bool],
}

/// Whether a part can be rewritten, if all of its symbol can.
#[inline(always)]
fn fits(parts: &Parts<'_>, site: &Site<'_>, member: &(Part, Rela)) -> bool {
    let (context, relocation) = (parts.context, &site.relocation);
    let (relocations, index) = (site.relocations, site.index);
    parts.ascends
        && !is_beyond(relocations, relocation.offset, index)
        && context.output.is_executable
        && context.output.is_fixed
        && is_marked_at(context.architecture, relocations, index, relocation)
        && is_reached(context, parts.gp, &member.1)
        && is_expected(site.section, relocation, member.0, &member.1)
}

/// The symbol that a relocation keeps, since it is of an address and doesn't fit.
fn keeping_symbol(parts: &Parts<'_>, site: &Site<'_>) -> Option<usize> {
    let member = member_of(parts.context, site.relocations, &site.relocation)?;
    if fits(parts, site, &member) {
        None
    } else {
        Some(member.1.symbol as usize)
    }
}

/// `crate::link::survey_global_pointer`, with more parameters.
pub fn survey_global_pointer(
    context: &RelaxContext<'_>,
    gp: u64,
    relocations: &[u8],
    section: &[u8],
    kept: &mut [bool],
) -> Result<(), usize> {
    if let Some(symbol) = contradiction(context.symbols, context.values, relocations) {
        return Err(symbol);
    }
    let parts = Parts {
        context,
        gp,
        ascends: is_ascending(relocations),
        kept: &[],
    };
    for index in 0..relocations_len(relocations) {
        let site = site!(relocations, section, index);
        keep_word(kept, keeping_symbol(&parts, &site));
    }
    Ok(())
}

fn part_decision(part: Part, subject: &Rela) -> Decision {
    match part {
        Part::High(_) => Decision::Rewritten(Choice {
            kind: Relaxation::RiscV(RewriteKind::Delete),
            relocation: 0,
        }),
        Part::Low(relocation) | Part::Labelled(relocation) => Decision::RewrittenWithSymbol(
            Choice {
                kind: Relaxation::RiscV(RewriteKind::NoOp),
                relocation,
            },
            subject_of(subject),
        ),
    }
}

impl Rule for Parts<'_> {
    #[inline(always)]
    fn decide(&self, _is_taken: bool, _stays: bool, site: &Site<'_>) -> Option<Decision> {
        let Some(member) = member_of(self.context, site.relocations, &site.relocation) else {
            return Some(Decision::Kept);
        };
        if word_stays(self.kept, member.1.symbol as usize) {
            return Some(Decision::Kept);
        }
        if fits(self, site, &member) {
            Some(part_decision(member.0, &member.1))
        } else {
            None
        }
    }

    /// A part that stays has no bytes here.
    #[inline(always)]
    fn span(&self, decision: &Decision, offset: u64) -> (u64, u64) {
        match decision {
            Decision::Rewritten(_) | Decision::RewrittenWithSymbol(_, _) => (offset, offset + 4),
            Decision::Kept | Decision::Consumed => (offset, offset),
        }
    }
}

/// A relocation after what became of it, where no bytes are rewritten.
fn relocation_by(decision: &Decision, relocation: &Rela) -> Rela {
    match decision {
        Decision::Kept => *relocation,
        Decision::Consumed => Rela {
            r_type: 0,
            ..*relocation
        },
        Decision::Rewritten(choice) => Rela {
            r_type: choice.relocation,
            ..*relocation
        },
        Decision::RewrittenWithSymbol(choice, subject) => Rela {
            offset: relocation.offset,
            r_type: choice.relocation,
            symbol: subject.symbol,
            addend: subject.addend,
        },
    }
}

fn turn_all(decisions: &[DecisionNumbers], relocations: &mut [u8]) {
    for index in 0..relocations_len(relocations) {
        let decision = decision_in(decisions, index);
        let relocation = relocation_by(&decision, &relocation_in(relocations, index));
        set_relocation(relocations, index, &relocation);
    }
}

/// `crate::link::rewrite_global_pointer`, with more parameters.
///
/// ```
/// use linker_utils::source::rewriting::{Decision, DecisionNumbers, Deletion};
/// use linker_utils::source::rewriting::{OutputFacts, RelaxContext, SymbolFacts};
/// use linker_utils::source::rewriting::{GPREL_I, rewrite_global_pointer};
/// use linker_utils::source::rewriting::Phase;
/// use linker_utils::source::section::{Addresses, Symbol};
/// use linker_utils::elf::Architecture;
///
/// // lui a0, %hi(x) and lw a0, %lo(x)(a0), both marked, where x is 2,047 above gp
/// let mut relocations = [0; 96];
/// for (at, offset, r_type) in [(0, 0, 26), (24, 0, 51), (48, 4, 27), (72, 4, 51)] {
///     (relocations[at], relocations[at + 8]) = (offset, r_type);
///     relocations[at + 12] = u8::from(r_type < 51);
/// }
/// let mut deleted = [Deletion { offset: 0, bytes: 0 }];
/// let context = RelaxContext {
///     architecture: Architecture::RiscV,
///     phase: Phase::ShortPcRel,
///     output: &OutputFacts { is_executable: true, is_fixed: true, has_near_symbols: true },
///     symbols: &[SymbolFacts { is_local: true, ..SymbolFacts::default() }; 2],
///     addresses: &Addresses { section: 0x1_0000, ..Addresses::default() },
///     values: &[0, 0x2_0fff].map(|address| Symbol { address, ..Symbol::default() }),
/// };
/// let rewritten = rewrite_global_pointer(
///     &context,
///     0x2_0800,
///     &[false; 2],
///     &mut relocations,
///     &[0x37, 0x05, 0, 0, 0x03, 0x25, 0x05, 0],
///     &mut [DecisionNumbers::from_decision(Decision::Kept); 4],
///     &mut deleted,
/// );
/// assert_eq!((rewritten, deleted[0].bytes), (Ok(1), 4));
/// assert_eq!((relocations[8], u32::from(relocations[56])), (0, GPREL_I));
/// ```
pub fn rewrite_global_pointer(
    context: &RelaxContext<'_>,
    gp: u64,
    kept: &[bool],
    relocations: &mut [u8],
    section: &[u8],
    decisions: &mut [DecisionNumbers],
    deleted: &mut [Deletion],
) -> Result<usize, RewritingError> {
    if let Some(symbol) = contradiction(context.symbols, context.values, relocations) {
        return Err(RewritingError::Contradiction(symbol));
    }
    if decisions.len() < relocations_len(relocations) {
        return Err(RewritingError::TooShort);
    }
    let parts = Parts {
        context,
        gp,
        ascends: is_ascending(relocations),
        kept,
    };
    decide_by(
        &parts,
        context.architecture,
        relocations,
        section,
        decisions,
    )?;
    let Some(len) = list_deletions(true, relocations, decisions, deleted) else {
        return Err(RewritingError::TooShort);
    };
    turn_all(decisions, relocations);
    Ok(len)
}

/// The type that the relocation of a low part without a base gets.
fn low_r_type(r_type: u32) -> Option<u32> {
    if r_type == GPREL_I {
        Some(RiscVRelocation::R_RISCV_LO12_I.r_type())
    } else if r_type == GPREL_S {
        Some(RiscVRelocation::R_RISCV_LO12_S.r_type())
    } else {
        None
    }
}

#[derive(Clone, Copy)]
struct Bases<'a> {
    addresses: &'a Addresses,
    values: &'a [Symbol],
    gp: u64,
}

/// The base register that reaches what a relocation refers to, x0 or x3, and the address that it
/// has.
fn base_of(bases: &Bases<'_>, relocation: &Rela) -> Option<(u32, u64)> {
    let value = bases.values.get(relocation.symbol as usize)?;
    let address = address_of(bases.addresses, relocation, value);
    if is_near(0, address) {
        Some((0, 0))
    } else if is_near(bases.gp, address) {
        Some((3, bases.gp))
    } else {
        None
    }
}

/// Whether a relocation is of no low part without a base, or its instruction is in the section and
/// a base reaches what it refers to.
fn is_placed(bases: &Bases<'_>, section: &[u8], relocation: &Rela) -> bool {
    match low_r_type(relocation.r_type) {
        Some(_) => has_word(section, relocation.offset) && base_of(bases, relocation).is_some(),
        None => true,
    }
}

fn first_unplaced(bases: &Bases<'_>, relocations: &[u8], section: &[u8]) -> Option<usize> {
    for index in 0..relocations_len(relocations) {
        let relocation = relocation_in(relocations, index);
        if !is_placed(bases, section, &relocation) {
            return Some(index);
        }
    }
    None
}

fn with_base(register: u32, word: u32) -> u32 {
    word - base(word) * 0x8000 + register * 0x8000
}

/// Writes the base of a low part. Returns its relocation after it.
fn set_base(bases: &Bases<'_>, section: &mut [u8], relocation: &Rela) -> Rela {
    let Some(r_type) = low_r_type(relocation.r_type) else {
        return *relocation;
    };
    let Some((register, address)) = base_of(bases, relocation) else {
        return *relocation;
    };
    let word = with_base(register, window_at(section, relocation.offset));
    overwrite(section, relocation.offset, &word.to_le_bytes());
    let addend = (relocation.addend as u64).wrapping_sub(address);
    Rela {
        r_type,
        addend: addend as i64,
        ..*relocation
    }
}

fn set_bases(bases: &Bases<'_>, relocations: &mut [u8], section: &mut [u8]) {
    for index in 0..relocations_len(relocations) {
        let relocation = relocation_in(relocations, index);
        let based = set_base(bases, section, &relocation);
        set_relocation(relocations, index, &based);
    }
}

/// `crate::link::finish_gp_relaxation`, with more parameters.
pub fn finish_gp_relaxation(
    addresses: &Addresses,
    values: &[Symbol],
    gp: u64,
    relocations: &mut [u8],
    section: &mut [u8],
) -> Result<(), usize> {
    let bases = Bases {
        addresses,
        values,
        gp,
    };
    if let Some(index) = first_unplaced(&bases, relocations, section) {
        return Err(index);
    }
    set_bases(&bases, relocations, section);
    Ok(())
}
