// SPDX-License-Identifier: MIT OR Apache-2.0
// Made by tools/generate of crates/linker_rewriting/src/candidates.rt.
//! Whether the instruction of a relocation can be rewritten, if each other one of its group can.

use crate::linker_rewriting::facts::{OutputFacts, RelaxContext, SymbolFacts, link_facts};
use crate::linker_rewriting::phases::Phase;
use crate::linker_rewriting::relocations::Site;
use crate::linker_rewriting::sequences::{is_marked_in, is_whole};
use crate::linker_base::rewrite::DeletedBytes;
use crate::linker_section::facts::{Addresses, Symbol};
use crate::linker_section::relocations::{Rela, relocation_at};
use crate::architecture::{Relaxation, choose, may_be_skipped};
use crate::elf::{Architecture, Choice, LinkFacts, Operands};

/// A rewrite, and the `r_type` of its relocation after it.
pub(crate) type Chosen = Choice<Relaxation, u32>;

#[inline(always)]
pub(crate) fn is_tls_get_addr(symbols: &[SymbolFacts], symbol: u32) -> bool {
    match symbols.get(symbol as usize) {
        Some(symbol) => symbol.is_tls_get_addr,
        None => false,
    }
}

/// Whether a relocation is that of a call of `__tls_get_addr` `distance` bytes after an offset.
#[inline(always)]
fn is_call(context: &RelaxContext<'_>, offset: u64, distance: u64, next: Option<Rela>) -> bool {
    let Some(next) = next else {
        return false;
    };
    let is_of_call = may_be_skipped(context.architecture, next.r_type);
    let is_there = next.offset.checked_sub(offset) == Some(distance);
    is_there && is_of_call && is_tls_get_addr(context.symbols, next.symbol)
}

/// Whether the relocation that a rewrite takes along, if any, is the next one.
#[inline(always)]
fn finds_next(context: &RelaxContext<'_>, site: &Site<'_>, kind: Relaxation) -> bool {
    match kind.skipped_offset() {
        Some(distance) => {
            let next = relocation_at(site.relocations, site.index + 1);
            is_call(context, site.relocation.offset, distance, next)
        }
        None => true,
    }
}

/// Whether what is deleted after a rewrite at an offset is in the section.
#[inline(always)]
pub(crate) fn deletes_within(section: &[u8], offset: u64, deleted: Option<DeletedBytes>) -> bool {
    let Some(deleted) = deleted else {
        return true;
    };
    let len = section.len() as u64;
    if offset > len {
        return false;
    }
    let room = len - offset;
    deleted.start <= room && u64::from(deleted.count) <= room - deleted.start
}

/// The rewrite of the instruction of the relocation with an index by facts, if each other one of
/// its group is rewritten, and the `r_type` of the relocation after it. None where there are no
/// facts, `choose` has no rewrite for it, the one that it has takes a relocation along that isn't
/// the next one or deletes bytes after the section, or it is of a sequence whose relocations aren't
/// all next to it.
#[inline(always)]
pub(crate) fn candidate_by(
    context: &RelaxContext<'_>,
    site: &Site<'_>,
    facts: &Option<LinkFacts>,
) -> Option<Chosen> {
    let Some(facts) = facts else {
        return None;
    };
    let architecture = context.architecture;
    let (r_type, offset) = (site.relocation.r_type, site.relocation.offset);
    let chosen = choose(architecture, r_type, site.section, offset, facts);
    if chosen.is_unchanged(r_type) {
        return None;
    }
    let kind = chosen.kind;
    if !finds_next(context, site, kind) {
        return None;
    }
    if !is_whole(architecture, site) {
        return None;
    }
    if !deletes_within(site.section, offset, kind.deleted()) {
        return None;
    }
    Some(chosen)
}

#[inline(always)]
fn own_facts(context: &RelaxContext<'_>, site: &Site<'_>) -> Option<LinkFacts> {
    let marked = is_marked_in(context.phase, context.architecture, site);
    link_facts(context, &site.relocation, &site.relocation, marked)
}

/// The rewrite of the instruction of the relocation with an index by its own symbol, as
/// `candidate_by` says.
#[inline(always)]
pub(crate) fn candidate(context: &RelaxContext<'_>, site: &Site<'_>) -> Option<Chosen> {
    candidate_by(context, site, &own_facts(context, site))
}

/// The same facts of what is where the GOT's or the TOC's base is, at the distance 0.
#[inline(always)]
fn at_base(facts: Option<LinkFacts>) -> Option<LinkFacts> {
    let facts = facts?;
    Some(LinkFacts {
        operands: Operands {
            symbol: facts.operands.got_base,
            addend: 0,
            ..facts.operands
        },
        ..facts
    })
}

/// Whether the instruction of the relocation with an index is one that its rewrite is meant for,
/// whatever the distance.
#[inline(always)]
pub(crate) fn is_matched(context: &RelaxContext<'_>, site: &Site<'_>) -> bool {
    candidate_by(context, site, &at_base(own_facts(context, site))).is_some()
}
