// SPDX-License-Identifier: MIT OR Apache-2.0
// Made by tools/generate of crates/linker_rewriting/src/surveys.rt.
//! Which groups of an object stay as they are, since one of their instructions can't be rewritten.

use crate::linker_rewriting::candidates::{candidate, is_matched, is_tls_get_addr};
use crate::linker_rewriting::facts::{OutputFacts, RelaxContext, SymbolFacts, contradiction, pre_layout};
use crate::linker_rewriting::groups::{Group, Scope, UnrelaxableGroups, scope_in, symbol_of_group};
use crate::linker_rewriting::phases::Phase;
use crate::linker_rewriting::r_types::{is_surveyed, of_each};
use crate::linker_rewriting::relocations::{Site, relocation_in, site};
use crate::linker_section::relocations::{Rela, relocations_len};
use crate::elf::Architecture;
#[cfg(feature = "ppc64")]
use crate::ppc64::Ppc64Relocation;

#[inline(always)]
fn keep(kept: &mut [UnrelaxableGroups], group: Group, symbol: u32) {
    let index = symbol as usize;
    if index < kept.len() {
        kept[index] = kept[index].with_kept(group);
    }
}

#[inline(always)]
fn keep_group(kept: &mut [UnrelaxableGroups], group: Option<Group>, symbol: u32) {
    if let Some(group) = group {
        keep(kept, group, symbol_of_group(group, symbol));
    }
}

/// Notes that all groups of thread-local storage in the object stay, if `stay`.
#[inline(always)]
fn keep_threads(kept: &mut [UnrelaxableGroups], stay: bool) {
    if stay {
        keep(kept, Group::InitialExec, 0);
        keep(kept, Group::GeneralDynamic, 0);
        keep(kept, Group::LocalDynamic, 0);
    }
}

/// The kind of the groups that a relocation keeps, since it has no rewrite, though it is of one.
#[inline(always)]
fn keeping(context: &RelaxContext<'_>, site: &Site<'_>) -> Option<Group> {
    match scope_in(context.architecture, context.phase, site.relocation.r_type) {
        Scope::Grouped(group) => match candidate(context, site) {
            Some(_) => None,
            None => Some(group),
        },
        Scope::IfGroupMatches(group) => {
            if is_matched(context, site) {
                None
            } else {
                Some(group)
            }
        }
        _ => None,
    }
}

/// Whether the relocation before is a mark of PowerPC64 of the call of `__tls_get_addr` at the same
/// place.
#[cfg(feature = "ppc64")]
#[inline(always)]
fn is_marked(site: &Site<'_>) -> bool {
    if site.index < 1 {
        return false;
    }
    let mark = relocation_in(site.relocations, site.index - 1);
    let is_mark = mark.r_type == Ppc64Relocation::R_PPC64_TLSGD.r_type()
        || mark.r_type == Ppc64Relocation::R_PPC64_TLSLD.r_type();
    is_mark && mark.offset == site.relocation.offset
}

/// Whether a relocation is one whose mark a survey looks for: a use of `__tls_get_addr` on
/// PowerPC64.
#[inline(always)]
fn needs_mark(
    architecture: Architecture,
    phase: Phase,
    symbols: &[SymbolFacts],
    relocation: &Rela,
) -> bool {
    match (phase, architecture) {
        #[cfg(feature = "ppc64")]
        (Phase::PreLayout, Architecture::Ppc64) => is_tls_get_addr(symbols, relocation.symbol),
        _ => false,
    }
}

/// Whether a relocation keeps all thread-local storage of its object: it needs a mark, and has
/// none.
#[inline(always)]
fn is_unmarked(context: &RelaxContext<'_>, site: &Site<'_>) -> bool {
    #[cfg(not(feature = "ppc64"))]
    {
        false
    }
    #[cfg(feature = "ppc64")]
    {
    let (architecture, phase) = (context.architecture, context.phase);
    needs_mark(architecture, phase, context.symbols, &site.relocation) && !is_marked(site)
    }
}

/// The index of the first relocation from an index on that may keep a group, or how many
/// relocations there are.
#[inline(always)]
fn next_in(
    architecture: Architecture,
    phase: Phase,
    context: &RelaxContext<'_>,
    relocations: &[u8],
    from: usize,
) -> usize {
    let len = relocations_len(relocations);
    for index in from..len {
        let relocation = relocation_in(relocations, index);
        if is_surveyed(architecture, phase, relocation.r_type) {
            return index;
        }
        if needs_mark(architecture, phase, context.symbols, &relocation) {
            return index;
        }
    }
    len
}

/// The same, compiled for each architecture and phase.
fn next_keeping(context: &RelaxContext<'_>, relocations: &[u8], from: usize) -> usize {
    of_each!(
        context.architecture,
        context.phase,
        next_in(context, relocations, from)
    )
}

/// Notes which groups stay in a phase, by a section, as [`survey`](crate::rewriting::survey()) and [`survey_placed_section`](crate::rewriting::survey_placed_section()) say.
#[inline(always)]
fn survey_in(
    context: &RelaxContext<'_>,
    relocations: &[u8],
    section: &[u8],
    kept: &mut [UnrelaxableGroups],
) {
    let len = relocations_len(relocations);
    let mut index = next_keeping(context, relocations, 0);
    while index < len {
        let site = site!(relocations, section, index);
        let group = keeping(context, &site);
        keep_group(kept, group, site.relocation.symbol);
        let unmarked = is_unmarked(context, &site);
        keep_threads(kept, unmarked);
        index = next_keeping(context, relocations, index + 1);
    }
}

/// `crate::link::survey`, with more parameters.
///
/// ```
/// use linker_utils::source::rewriting::{OutputFacts, SymbolFacts};
/// use linker_utils::source::rewriting::UnrelaxableGroups;
/// use linker_utils::source::rewriting::survey;
/// use linker_utils::elf::Architecture;
///
/// // nop, with R_X86_64_TLSDESC_CALL of symbol 1: not a call by a descriptor
/// let mut relocations = [0; 24];
/// (relocations[8], relocations[12]) = (35, 1);
/// let output = OutputFacts { is_executable: true, is_fixed: true, has_near_symbols: true };
/// let symbols = [SymbolFacts::default(); 2];
/// let mut kept = [UnrelaxableGroups::default(); 2];
/// survey(Architecture::X86_64, &output, &symbols, &relocations, &[0x90], &mut kept);
/// let none = UnrelaxableGroups::default();
/// assert_eq!(kept, [none, UnrelaxableGroups { descriptor: true, ..none }]);
/// ```
pub fn survey(
    architecture: Architecture,
    output: &OutputFacts,
    symbols: &[SymbolFacts],
    relocations: &[u8],
    section: &[u8],
    kept: &mut [UnrelaxableGroups],
) {
    let context = pre_layout!(architecture, output, symbols);
    survey_in(&context, relocations, section, kept);
}

/// `crate::link::survey_placed_section`, with more parameters.
pub fn survey_placed_section(
    context: &RelaxContext<'_>,
    relocations: &[u8],
    section: &[u8],
    kept: &mut [UnrelaxableGroups],
) -> Result<(), usize> {
    if let Some(symbol) = contradiction(context.symbols, context.values, relocations) {
        return Err(symbol);
    }
    survey_in(context, relocations, section, kept);
    Ok(())
}
