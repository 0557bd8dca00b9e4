// SPDX-License-Identifier: MIT OR Apache-2.0
// Made by tools/generate of crates/linker_rewriting/src/facts.rt.
//! What a linker knows of symbols and of the output, and what a rewrite is chosen by; whether the
//! two tables of an object's symbols say the same of a symbol.

use crate::linker_rewriting::phases::Phase;
use crate::linker_rewriting::relocations::relocation_in;
use crate::linker_section::facts::{Addresses, Symbol};
use crate::linker_section::relocations::{Rela, relocations_len};
use crate::elf::{Architecture, LinkFacts, Operands};

/// What a linker knows of a symbol of an object once names are resolved. A table of these has those
/// of an object at the indexes that its relocations name (`r_sym`). By default no fact holds.
#[repr(C)]
#[derive(Default, Clone, Copy, Debug, PartialEq, Eq, Hash)]
pub struct SymbolFacts {
    /// It is defined in this output, and no other definition can replace it at run time.
    pub is_local: bool,
    /// It is an indirect function (`STT_GNU_IFUNC`).
    pub is_ifunc: bool,
    /// It is absolute (`SHN_ABS`).
    pub is_absolute: bool,
    /// It is undefined and weak, and nothing defines it at run time: its address is 0.
    pub is_undefined_weak: bool,
    /// It is `__tls_get_addr`.
    pub is_tls_get_addr: bool,
    /// `st_other`, of which PowerPC64 reads what a call does with the TOC pointer.
    pub other: u8,
}

/// What a linker knows of the output.
#[repr(C)]
#[derive(Default, Clone, Copy, Debug, PartialEq, Eq)]
pub struct OutputFacts {
    /// It is an executable, position-independent or not.
    pub is_executable: bool,
    /// It is always loaded at the address that it is linked for.
    pub is_fixed: bool,
    /// Its code, its GOT and the symbols of its own that its code refers to, except for absolute
    /// ones, lie within 2 GiB less 64 KiB. A linker may know this before it has a layout, from the
    /// lengths of sections and where they are placed. Where the fact doesn't hold, no load from the
    /// GOT becomes a distance before addresses are known.
    pub has_near_symbols: bool,
}

/// No address is known.
pub(crate) const NO_ADDRESSES: Addresses = Addresses {
    section: 0,
    got_base: 0,
    thread_origin: 0,
    module_origin: 0,
    module_entry: 0,
    has_tls: false,
};

/// A context before addresses are known.
macro_rules! pre_layout {
    ($architecture:expr, $output:expr, $symbols:expr) => {
        RelaxContext {
            architecture: $architecture,
            phase: Phase::PreLayout,
            output: $output,
            symbols: $symbols,
            addresses: &crate::linker_rewriting::facts::NO_ADDRESSES,
            values: &[],
        }
    };
}

pub(crate) use pre_layout;

#[inline(always)]
fn has_own_address(symbol: &SymbolFacts) -> bool {
    symbol.is_absolute || symbol.is_undefined_weak
}

#[inline(always)]
pub(crate) fn may_change_toc(symbol: &SymbolFacts) -> bool {
    let is_known = symbol.is_local || symbol.is_undefined_weak;
    symbol.is_ifunc || !is_known || symbol.other >> 5 == 1
}

/// What `choose` reads of a relocation of a symbol before addresses are known, where each other
/// relocation of its group can be rewritten, as `facts_of` says.
#[inline(always)]
pub(crate) fn facts_of(
    output: &OutputFacts,
    symbol: &SymbolFacts,
    addend: i64,
    marked: bool,
) -> LinkFacts {
    let has_own_address = has_own_address(symbol);
    LinkFacts {
        is_local: symbol.is_local,
        is_ifunc: symbol.is_ifunc,
        is_undefined_weak: symbol.is_undefined_weak,
        has_fixed_address: output.is_fixed || has_own_address,
        is_pcrel_link_time_constant: output.has_near_symbols && !has_own_address,
        is_executable: output.is_executable,
        has_local_exec_base: true,
        is_relaxable: marked,
        may_change_toc: may_change_toc(symbol),
        group_fits: true,
        operands: Operands {
            addend,
            ..Operands::default()
        },
        ..LinkFacts::default()
    }
}

/// What the rewrites of a section are chosen by in a phase. Before addresses are known those are 0,
/// and there are no values.
#[derive(Clone, Copy)]
pub struct RelaxContext<'a> {
    /// The architecture.
    pub architecture: Architecture,
    /// The phase. A rewrite by the global pointer doesn't read it, nor does
    /// [`relocate_rewritten_section`](crate::rewriting::relocate_rewritten_section()).
    pub phase: Phase,
    /// What is known of the output.
    pub output: &'a OutputFacts,
    /// What is known of the object's symbols, at the indexes that its relocations name (`r_sym`).
    pub symbols: &'a [SymbolFacts],
    /// The section's address, and those that values are counted from.
    pub addresses: &'a Addresses,
    /// The addresses of the object's symbols, at the same indexes.
    pub values: &'a [Symbol],
}

/// S, which counts as the thread pointer's address of a thread-local symbol that nothing defines.
#[inline(always)]
pub(crate) fn address_in(addresses: &Addresses, value: &Symbol) -> u64 {
    if !value.is_undefined_weak {
        value.address
    } else if value.is_thread_local {
        addresses.thread_origin
    } else {
        0
    }
}

/// Whether the output is an executable, whose definition of the symbol is used where one to
/// local-exec is rewritten.
#[inline(always)]
fn is_executable_in(phase: Phase, output: &OutputFacts, symbol: &SymbolFacts) -> bool {
    match phase {
        Phase::TlsLocalExec => output.is_executable && symbol.is_local && !symbol.is_ifunc,
        _ => output.is_executable,
    }
}

#[inline(always)]
fn may_delete(phase: Phase) -> bool {
    matches!(phase, Phase::TlsLocalExec)
}

/// What `choose` reads of a relocation of a symbol once addresses are known, where each other
/// relocation of its group can be rewritten, as `placed_facts` says.
#[inline(always)]
fn placed_facts(
    context: &RelaxContext<'_>,
    symbol: &SymbolFacts,
    value: &Symbol,
    offset: u64,
    addend: i64,
    marked: bool,
) -> LinkFacts {
    let (phase, output, addresses) = (context.phase, context.output, context.addresses);
    let is_near = output.is_fixed || !has_own_address(symbol);
    let facts = facts_of(output, symbol, addend, marked);
    LinkFacts {
        is_pcrel_link_time_constant: is_near && !symbol.is_undefined_weak,
        is_executable: is_executable_in(phase, output, symbol),
        is_relaxable: marked && may_delete(phase),
        has_got_high_part: true,
        is_label_relaxable: marked,
        toc_base_is_exclusive: true,
        has_addresses: true,
        operands: Operands {
            symbol: address_in(addresses, value),
            place: addresses.section.wrapping_add(offset),
            got_base: addresses.got_base,
            tls_base: addresses.thread_origin,
            has_tls_base: addresses.has_tls,
            ..facts.operands
        },
        ..facts
    }
}

/// The facts that a relocation's rewrite is chosen by. Its subject is another relocation or itself:
/// that whose symbol and addend count. None where a table has no entry for the symbol.
#[inline(always)]
pub(crate) fn link_facts(
    context: &RelaxContext<'_>,
    relocation: &Rela,
    subject: &Rela,
    marked: bool,
) -> Option<LinkFacts> {
    let symbol = context.symbols.get(subject.symbol as usize)?;
    match context.phase {
        Phase::PreLayout => Some(facts_of(context.output, symbol, subject.addend, marked)),
        _ => {
            let value = context.values.get(subject.symbol as usize)?;
            let (offset, addend) = (relocation.offset, subject.addend);
            Some(placed_facts(context, symbol, value, offset, addend, marked))
        }
    }
}

/// Whether a relocation's symbol is defined in the output and nothing defines it, or has two
/// `st_other`. One that is thread-local is at the thread pointer where nothing defines it.
#[inline(always)]
fn contradict_at(facts: &[SymbolFacts], symbols: &[Symbol], relocation: &Rela) -> bool {
    let index = relocation.symbol as usize;
    match (facts.get(index), symbols.get(index)) {
        (Some(facts), Some(symbol)) => {
            let is_absent = facts.is_undefined_weak
                || symbol.is_undefined_weak && !symbol.is_thread_local;
            facts.is_local && is_absent || facts.other != symbol.other
        }
        _ => false,
    }
}

/// The index of the symbol of the first relocation about which two tables contradict each other.
pub(crate) fn contradiction(
    facts: &[SymbolFacts],
    symbols: &[Symbol],
    relocations: &[u8],
) -> Option<usize> {
    for index in 0..relocations_len(relocations) {
        let relocation = relocation_in(relocations, index);
        if contradict_at(facts, symbols, &relocation) {
            return Some(relocation.symbol as usize);
        }
    }
    None
}
