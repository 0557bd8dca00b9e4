// SPDX-License-Identifier: MIT OR Apache-2.0
// Made by tools/generate of crates/linker_rewriting/src/toc_indirection.rt.
//! Instructions that load addresses from the words of a section, as from those of PowerPC64's
//! `.toc`. Nothing changes such a word, so that once addresses are known the instructions may
//! compute its address: all that load it, or none. Only PowerPC64 has such words: of other
//! architectures nothing is noted or rewritten.
//!
//! A context's phase is `ShortPcRel`, as in the calls from C. `TlsLocalExec` and `GotToPcRel` do
//! the same. In `PreLayout` no load is tested to be in reach, and `has_near_symbols` of the output
//! decides in its place.

use crate::linker_rewriting::candidates::{Chosen, candidate_by};
use crate::linker_rewriting::decisions::{Decision, DecisionNumbers, RewritingError, span_of, subject_of};
use crate::linker_rewriting::facts::{OutputFacts, RelaxContext, SymbolFacts, address_in, contradiction, link_facts};
use crate::linker_rewriting::phases::Phase;
use crate::linker_rewriting::relocations::{Site, relocation_in, site};
use crate::linker_rewriting::riscv_pcrel_groups::high_at;
use crate::linker_rewriting::rules::{Rule, decide_by};
use crate::linker_rewriting::sections::make_all;
use crate::linker_section::facts::{Addresses, Symbol};
use crate::linker_section::relocations::{Rela, relocations_len};
use crate::architecture::Relaxation;
use crate::elf::{Architecture, Choice};
#[cfg(feature = "ppc64")]
use crate::ppc64::Ppc64Relocation;

/// The `r_type` of a relocation for an entry of the GOT in place of one for a word.
#[inline(always)]
fn entry_r_type(architecture: Architecture, r_type: u32) -> Option<u32> {
    match architecture {
        #[cfg(feature = "ppc64")]
        Architecture::Ppc64 => {
            if Ppc64Relocation::R_PPC64_TOC16_HA.r_type() == r_type {
                #[cfg(feature = "ppc64")]
                {
                    Some(Ppc64Relocation::R_PPC64_GOT16_HA.r_type())
                }
                #[cfg(not(feature = "ppc64"))]
                {
                    None
                }
            } else if Ppc64Relocation::R_PPC64_TOC16_LO.r_type() == r_type {
                #[cfg(feature = "ppc64")]
                {
                    Some(Ppc64Relocation::R_PPC64_GOT16_LO.r_type())
                }
                #[cfg(not(feature = "ppc64"))]
                {
                    None
                }
            } else if Ppc64Relocation::R_PPC64_TOC16_LO_DS.r_type() == r_type {
                #[cfg(feature = "ppc64")]
                {
                    Some(Ppc64Relocation::R_PPC64_GOT16_LO_DS.r_type())
                }
                #[cfg(not(feature = "ppc64"))]
                {
                    None
                }
            } else {
                None
            }
        }
        _ => None,
    }
}

/// How far what a relocation refers to is after the start of the section of words.
#[inline(always)]
fn word_offset(context: &RelaxContext<'_>, start: u64, relocation: &Rela) -> Option<u64> {
    let value = context.values.get(relocation.symbol as usize)?;
    let addend = relocation.addend as u64;
    let address = address_in(context.addresses, value).wrapping_add(addend);
    Some(address.wrapping_sub(start))
}

/// The words of an object's section of addresses, and what loads of them are chosen by. As a rule
/// all loads of a word are rewritten, or none is.
#[derive(Clone, Copy)]
struct Words<'a> {
    context: &'a RelaxContext<'a>,
    /// The address of their section.
    start: u64,
    relocations: &'a [u8],
    /// Which of them stay.
    kept: &'a [bool],
}

/// What a relocation loads: the `r_type` for an entry of the GOT, and the index of the word's
/// relocation.
fn load_of(words: &Words<'_>, relocation: &Rela) -> Option<(u32, usize)> {
    #[cfg(not(feature = "ppc64"))]
    {
        None
    }
    #[cfg(feature = "ppc64")]
    {
    let context = words.context;
    let entry = entry_r_type(context.architecture, relocation.r_type)?;
    let at = word_offset(context, words.start, relocation)?;
    let r_type = Ppc64Relocation::R_PPC64_ADDR64.r_type();
    let word = high_at(words.relocations, r_type, at)?;
    Some((entry, word))
    }
}

#[inline(always)]
fn with_r_type(r_type: u32, relocation: &Rela) -> Rela {
    Rela {
        r_type,
        ..*relocation
    }
}

/// The rewrite of a load, if each other one of the word is rewritten.
#[inline(always)]
fn load_candidate(words: &Words<'_>, site: &Site<'_>, load: (u32, usize)) -> Option<Chosen> {
    let (entry, word) = load;
    let word = relocation_in(words.relocations, word);
    let facts = link_facts(words.context, &site.relocation, &word, false);
    let site = Site {
        relocation: with_r_type(entry, &site.relocation),
        ..*site
    };
    candidate_by(words.context, &site, &facts)
}

#[inline(always)]
pub(crate) fn word_stays(kept: &[bool], word: usize) -> bool {
    match kept.get(word) {
        Some(stays) => *stays,
        None => true,
    }
}

#[inline(always)]
pub(crate) fn keep_word(kept: &mut [bool], word: Option<usize>) {
    if let Some(word) = word {
        if word < kept.len() {
            kept[word] = true;
        }
    }
}

/// The word that a relocation keeps, since it loads it and has no rewrite.
#[inline(always)]
fn keeping_word(words: &Words<'_>, site: &Site<'_>) -> Option<usize> {
    let load = load_of(words, &site.relocation)?;
    match load_candidate(words, site, load) {
        Some(_) => None,
        None => Some(load.1),
    }
}

/// `crate::link::survey_toc_loads`, with more parameters.
pub fn survey_toc_loads(
    context: &RelaxContext<'_>,
    words_start: u64,
    words: &[u8],
    relocations: &[u8],
    section: &[u8],
    kept: &mut [bool],
) -> Result<(), usize> {
    if let Some(symbol) = contradiction(context.symbols, context.values, relocations) {
        return Err(symbol);
    }
    let words = Words {
        context,
        start: words_start,
        relocations: words,
        kept: &[],
    };
    for index in 0..relocations_len(relocations) {
        let site = site!(relocations, section, index);
        keep_word(kept, keeping_word(&words, &site));
    }
    Ok(())
}

impl Rule for Words<'_> {
    #[inline(always)]
    fn decide(&self, _is_taken: bool, _stays: bool, site: &Site<'_>) -> Option<Decision> {
        let Some(load) = load_of(self, &site.relocation) else {
            return Some(Decision::Kept);
        };
        if word_stays(self.kept, load.1) {
            return Some(Decision::Kept);
        }
        let chosen = load_candidate(self, site, load)?;
        let subject = subject_of(&relocation_in(self.relocations, load.1));
        Some(Decision::RewrittenWithSymbol(chosen, subject))
    }

    #[inline(always)]
    fn span(&self, decision: &Decision, offset: u64) -> (u64, u64) {
        span_of(decision, offset)
    }
}

/// `crate::link::rewrite_toc_loads`, with more parameters.
///
/// ```
/// use linker_utils::source::rewriting::{Decision, DecisionNumbers};
/// use linker_utils::source::rewriting::{OutputFacts, RelaxContext, SymbolFacts};
/// use linker_utils::source::rewriting::Phase;
/// use linker_utils::source::rewriting::rewrite_toc_loads;
/// use linker_utils::source::section::{Addresses, Symbol};
/// use linker_utils::elf::Architecture;
///
/// // addis 3,2,.toc@toc@ha and ld 3,.toc@toc@l(3), where the word at the start of `.toc` is that
/// // of symbol 2, become addis 3,2,x@toc@ha and addi 3,3,x@toc@l
/// let relocation = |offset: u8, r_type: u8, symbol: u8| {
///     let mut bytes = [0; 24];
///     (bytes[0], bytes[8], bytes[12]) = (offset, r_type, symbol);
///     bytes
/// };
/// let mut section = [0, 0, 0x62, 0x3c, 0, 0, 0x63, 0xe8];
/// let mut relocations = [relocation(0, 50, 1), relocation(4, 64, 1)].concat();
/// let context = RelaxContext {
///     architecture: Architecture::Ppc64,
///     phase: Phase::ShortPcRel,
///     output: &OutputFacts { is_executable: true, is_fixed: true, has_near_symbols: true },
///     symbols: &[SymbolFacts { is_local: true, ..SymbolFacts::default() }; 3],
///     addresses: &Addresses { section: 0x1000, got_base: 0x1_8000, ..Addresses::default() },
///     values: &[0, 0x1_0000, 0x1_2345].map(|address| Symbol { address, ..Symbol::default() }),
/// };
/// rewrite_toc_loads(
///     &context,
///     0x1_0000,
///     &relocation(0, 38, 2),
///     &[false],
///     &mut relocations,
///     &mut section,
///     &mut [DecisionNumbers::from_decision(Decision::Kept); 2],
/// )
/// .unwrap();
/// assert_eq!(section, [0, 0, 0x62, 0x3c, 0, 0, 0x63, 0x38]);
/// // R_PPC64_TOC16_HA and R_PPC64_TOC16_LO, both of symbol 2
/// assert_eq!((relocations[8], relocations[12]), (50, 2));
/// assert_eq!((relocations[32], relocations[36]), (48, 2));
/// ```
pub fn rewrite_toc_loads(
    context: &RelaxContext<'_>,
    words_start: u64,
    words: &[u8],
    kept: &[bool],
    relocations: &mut [u8],
    section: &mut [u8],
    decisions: &mut [DecisionNumbers],
) -> Result<(), RewritingError> {
    if let Some(symbol) = contradiction(context.symbols, context.values, relocations) {
        return Err(RewritingError::Contradiction(symbol));
    }
    if decisions.len() < relocations_len(relocations) {
        return Err(RewritingError::TooShort);
    }
    let words = Words {
        context,
        start: words_start,
        relocations: words,
        kept,
    };
    decide_by(
        &words,
        context.architecture,
        relocations,
        section,
        decisions,
    )?;
    make_all(true, decisions, relocations, section);
    Ok(())
}
