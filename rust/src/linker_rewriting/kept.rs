// SPDX-License-Identifier: MIT OR Apache-2.0
// Made by tools/generate of crates/linker_rewriting/src/kept.rt.
//! What choices of rewrites read of symbols, kept until values are written: then the same has to
//! hold.

use crate::linker_rewriting::facts::{OutputFacts, RelaxContext, SymbolFacts, contradiction};
use crate::linker_rewriting::relocations::relocation_in;
use crate::linker_section::facts::{Addresses, Symbol};
use crate::linker_section::relocations::{Rela, relocations_len};
use crate::linker_section::sections::{SectionError, relocate_section};
use crate::elf::Architecture;
#[cfg(feature = "ppc64")]
use crate::ppc64::Ppc64Relocation;

/// What choices read of a symbol and of the output, a bit for each fact; 0 where nothing is kept. A
/// table of these has those of an object at the indexes that its relocations name (`r_sym`).
#[repr(C)]
#[derive(Default, Clone, Copy, Debug, PartialEq, Eq, Hash)]
pub struct FactsSnapshot {
    /// The bits, as `kept_bits` says.
    pub bits: u16,
}

/// Why the values of a section whose instructions were rewritten aren't written.
#[derive(Clone, Copy, Debug, PartialEq, Eq)]
pub enum WritingError {
    /// The tables of facts and of addresses contradict each other about the symbol with this index,
    /// as [`RewritingError::Contradiction`](crate::rewriting::RewritingError::Contradiction) says.
    Contradiction(usize),
    /// Of the symbol of the relocation with this index other facts hold than those that are kept,
    /// or none are kept.
    Changed(usize),
    /// The relocation with this index is an `R_PPC64_REL24` of a function of another file, which
    /// may return with another TOC pointer, and whose symbol has no stub that keeps the caller's.
    NeedsStub(usize),
    /// A value isn't written, as [`relocate_section`](crate::section::relocate_section()) says.
    Section(SectionError),
}

#[inline(always)]
fn bit_if(worth: u16, is_set: bool) -> u16 {
    if is_set { worth } else { 0 }
}

/// The bits of `st_other` that say what a call does with PowerPC64's TOC pointer.
#[inline(always)]
fn toc_bits(other: u8) -> u16 {
    u16::from(other / 32) * 32
}

#[inline(always)]
fn facts_snapshot(output: &OutputFacts, symbol: &SymbolFacts) -> FactsSnapshot {
    let of_output = bit_if(1 << 10, output.has_near_symbols)
        + bit_if(1 << 9, output.is_fixed)
        + bit_if(1 << 8, output.is_executable);
    let toc = toc_bits(symbol.other);
    let of_symbol = bit_if(16, symbol.is_tls_get_addr)
        + bit_if(8, symbol.is_undefined_weak)
        + bit_if(4, symbol.is_absolute)
        + bit_if(2, symbol.is_ifunc)
        + bit_if(1, symbol.is_local);
    FactsSnapshot {
        bits: (1 << 15) + of_output + toc + of_symbol,
    }
}

/// `crate::link::snapshot_facts`, with more parameters.
#[cfg_attr(debug_assertions, track_caller)]
pub fn snapshot_facts(output: &OutputFacts, symbols: &[SymbolFacts], kept: &mut [FactsSnapshot]) {
    debug_assert!(symbols.len() == kept.len());
    for index in 0..symbols.len() {
        kept[index] = facts_snapshot(output, &symbols[index]);
    }
}

/// Whether what is kept of a relocation's symbol is what holds now.
fn is_as_kept(
    output: &OutputFacts,
    symbols: &[SymbolFacts],
    kept: &[FactsSnapshot],
    relocation: &Rela,
) -> bool {
    let index = relocation.symbol as usize;
    match (kept.get(index), symbols.get(index)) {
        (Some(before), Some(symbol)) => before.bits == facts_snapshot(output, symbol).bits,
        (None, None) => true,
        _ => false,
    }
}

/// `crate::link::first_changed`, with more parameters.
#[must_use]
pub fn first_changed(
    output: &OutputFacts,
    symbols: &[SymbolFacts],
    kept: &[FactsSnapshot],
    relocations: &[u8],
) -> Option<usize> {
    for index in 0..relocations_len(relocations) {
        if !is_as_kept(output, symbols, kept, &relocation_in(relocations, index)) {
            return Some(index);
        }
    }
    None
}

/// Whether a relocation is a call of PowerPC64 of a function of another file, without a stub that
/// keeps its caller's TOC pointer. A call of what is undefined and weak needs none.
fn lacks_stub(context: &RelaxContext<'_>, relocation: &Rela) -> bool {
    #[cfg(not(feature = "ppc64"))]
    {
        false
    }
    #[cfg(feature = "ppc64")]
    {
    let call = Ppc64Relocation::R_PPC64_REL24.r_type();
    if !matches_any!(context.architecture, #[cfg(feature = "ppc64")] Architecture::Ppc64) || relocation.r_type != call {
        return false;
    }
    let index = relocation.symbol as usize;
    match (context.symbols.get(index), context.values.get(index)) {
        (Some(facts), Some(symbol)) => {
            let is_imported = !(facts.is_local || facts.is_undefined_weak);
            is_imported && symbol.stub == 0 && !symbol.is_undefined_weak
        }
        _ => false,
    }
    }
}

/// The index of the first such relocation.
fn first_without_stub(context: &RelaxContext<'_>, relocations: &[u8]) -> Option<usize> {
    for index in 0..relocations_len(relocations) {
        if lacks_stub(context, &relocation_in(relocations, index)) {
            return Some(index);
        }
    }
    None
}

/// `crate::link::relocate_rewritten_section`, with more parameters.
///
/// ```
/// use linker_utils::source::rewriting::{OutputFacts, RelaxContext, SymbolFacts};
/// use linker_utils::source::rewriting::{FactsSnapshot, WritingError};
/// use linker_utils::source::rewriting::{relocate_rewritten_section, snapshot_facts};
/// use linker_utils::source::rewriting::Phase;
/// use linker_utils::source::section::{Addresses, Symbol};
/// use linker_utils::elf::Architecture;
///
/// // addr32 call f, with R_X86_64_PC32 of symbol 1 at 2, which was call *f@GOTPCREL(%rip)
/// let mut section = [0x67, 0xe8, 0, 0, 0, 0];
/// let mut relocations = [0; 24];
/// (relocations[0], relocations[8], relocations[12]) = (2, 2, 1);
/// relocations[16..].copy_from_slice(&(-4i64).to_le_bytes());
/// let output = OutputFacts { is_executable: true, is_fixed: false, has_near_symbols: true };
/// let mut facts = [
///     SymbolFacts::default(),
///     SymbolFacts { is_local: true, ..SymbolFacts::default() },
/// ];
/// let mut kept = [FactsSnapshot::default(); 2];
/// snapshot_facts(&output, &facts, &mut kept);
/// // another definition replaces f
/// facts[1].is_local = false;
/// let context = RelaxContext {
///     architecture: Architecture::X86_64,
///     phase: Phase::PreLayout,
///     output: &output,
///     symbols: &facts,
///     addresses: &Addresses { section: 0x1000, ..Addresses::default() },
///     values: &[0, 0x2000].map(|address| Symbol { address, ..Symbol::default() }),
/// };
/// let written =
///     relocate_rewritten_section(&context, &kept, &relocations, &mut section, &mut [0; 1]);
/// assert_eq!(written, Err(WritingError::Changed(0)));
/// assert_eq!(section, [0x67, 0xe8, 0, 0, 0, 0]);
/// ```
pub fn relocate_rewritten_section(
    context: &RelaxContext<'_>,
    kept: &[FactsSnapshot],
    relocations: &[u8],
    section: &mut [u8],
    memory: &mut [u64],
) -> Result<(), WritingError> {
    let (facts, symbols) = (context.symbols, context.values);
    if let Some(symbol) = contradiction(facts, symbols, relocations) {
        return Err(WritingError::Contradiction(symbol));
    }
    if let Some(index) = first_changed(context.output, facts, kept, relocations) {
        return Err(WritingError::Changed(index));
    }
    if let Some(index) = first_without_stub(context, relocations) {
        return Err(WritingError::NeedsStub(index));
    }
    let (architecture, addresses) = (context.architecture, context.addresses);
    relocate_section(
        architecture,
        addresses,
        relocations,
        symbols,
        section,
        memory,
    )
    .map_err(WritingError::Section)
}
