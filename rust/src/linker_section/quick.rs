// SPDX-License-Identifier: MIT OR Apache-2.0
// Made by tools/generate of crates/linker_section/src/quick.rt.
//! The values of most relocations, by the facts of their rows.
//!
//! Few tests find them, so that a section's values take little more time than the formulas. Where
//! these return nothing, `value_of` says what the value is, and why there is none.

use crate::linker_section::conditions::{lacks_stub, needs_upper};
use crate::linker_section::facts::{Addresses, Symbol};
use crate::linker_section::needed::entry_by;
use crate::linker_section::relocations::Rela;
use crate::linker_section::symbols::{Known, Symbols};
use crate::linker_section::values::{entry_address, is_of_got, local_entry, target_of};
use crate::linker_elf::elf::{Architecture, EntryUse, Operands, Row, RowFacts, Way};

/// A high part of RISC-V, whose value low parts take.
#[derive(Clone, Copy)]
pub(crate) struct HighPart {
    /// Its offset.
    pub(crate) offset: u64,
    /// Its value.
    pub(crate) value: i64,
}

/// The address of a symbol's entry that a row requires. By itself, since most relocations have
/// none.
#[inline(never)]
fn address_of_entry(
    addresses: &Addresses,
    symbol: &Symbol,
    facts: &RowFacts,
    addend: i64,
) -> Option<u64> {
    entry_address(
        addresses,
        symbol,
        entry_by(facts, addend, symbol.is_thread_local),
    )
}

/// The address of the entry that a relocation requires; 0 where it requires none.
#[inline(always)]
pub(crate) fn required_address(
    addresses: &Addresses,
    symbol: &Symbol,
    row: &Row,
    relocation: &Rela,
) -> Option<u64> {
    if matches!(row.facts().entry, EntryUse::Without) {
        Some(0)
    } else {
        address_of_entry(addresses, symbol, row.facts(), relocation.addend)
    }
}

/// A symbol's address, or where PowerPC64's branches go.
#[inline(always)]
fn own_address(architecture: Architecture, row: &Row, symbol: &Symbol) -> u64 {
    if matches_any!(architecture, #[cfg(feature = "ppc64")] Architecture::Ppc64) && row.facts().is_branch {
        symbol.address.wrapping_add(local_entry(symbol.other))
    } else {
        symbol.address
    }
}

/// `target_of`, where a symbol has a stub or may be undefined. By itself, since most have none.
#[inline(never)]
fn other_target<K: Known>(
    architecture: Architecture,
    addresses: &Addresses,
    row: &Row,
    known: &K,
    place: u64,
) -> u64 {
    target_of(architecture, addresses, row, &known.symbol(), place)
}

/// The same of any symbol.
#[inline(always)]
fn quick_target<K: Known>(
    architecture: Architecture,
    addresses: &Addresses,
    row: &Row,
    known: &K,
    place: u64,
) -> u64 {
    let symbol = known.symbol();
    if symbol.stub != 0 || symbol.is_undefined_weak {
        other_target(architecture, addresses, row, known, place)
    } else {
        own_address(architecture, row, &symbol)
    }
}

/// The operands of a plain relocation's formula, with the address of the entry that it requires.
#[inline(always)]
fn plain_operands<K: Known>(
    architecture: Architecture,
    addresses: &Addresses,
    row: &Row,
    known: &K,
    relocation: &Rela,
    entry: u64,
) -> Operands {
    let place = addresses.section.wrapping_add(relocation.offset);
    let target = quick_target(architecture, addresses, row, known, place);
    Operands {
        symbol: target,
        addend: relocation.addend,
        place,
        got_entry: entry,
        got_base: addresses.got_base,
        plt_entry: target,
        symbol_size: known.symbol().size,
        tls_base: addresses.module_origin,
        has_got_entry: true,
        has_plt_entry: true,
        has_tls_base: addresses.has_tls,
    }
}

/// The value of a plain relocation. None where its entry is missing or its formula has no value.
#[inline(always)]
fn plain_value<K: Known>(
    architecture: Architecture,
    addresses: &Addresses,
    row: &Row,
    relocation: &Rela,
    known: &K,
) -> Option<i64> {
    let Some(entry) = known.entry(addresses, row, relocation) else {
        return None;
    };
    let operands = plain_operands(architecture, addresses, row, known, relocation, entry);
    row.formula_value(&operands)
}

/// The value of a high part, if it is at an offset.
#[inline(always)]
fn value_at(at: u64, high: Option<HighPart>) -> Option<i64> {
    let Some(high) = high else {
        return None;
    };
    if at == high.offset {
        Some(high.value)
    } else {
        None
    }
}

/// Whether the value is that of the row's own formula: of a high part only on RISC-V, and of an
/// offset in a TLS block only where the output has one.
#[inline(always)]
fn has_plain_way(architecture: Architecture, addresses: &Addresses, way: Way) -> bool {
    match way {
        Way::Plain => true,
        Way::ModuleOffset => addresses.has_tls,
        Way::High => matches_any!(architecture, #[cfg(feature = "riscv64")] Architecture::RiscV),
        Way::Low | Way::Other => false,
    }
}

/// The value of a relocation of whose symbol something is known. None where it has no plain way,
/// its entry is missing or its formula has no value.
/// Only the contract uses `_relocations`, `_symbols` and `_index`.
#[inline(always)]
fn found_value<S: Symbols>(
    architecture: Architecture,
    addresses: &Addresses,
    _relocations: &[u8],
    _symbols: S,
    row: &Row,
    _index: usize,
    relocation: &Rela,
    known: &S::Found,
    high: Option<HighPart>,
) -> Option<i64> {
    if known.is_left_out()
        || lacks_stub(architecture, relocation, Some(*known))
        || is_of_got(architecture, relocation.r_type)
    {
        return None;
    }
    let way = row.facts().way;
    if has_plain_way(architecture, addresses, way) {
        return plain_value(architecture, addresses, row, relocation, known);
    }
    match way {
        #[cfg(feature = "riscv64")]
        Way::Low if matches_any!(architecture, #[cfg(feature = "riscv64")] Architecture::RiscV) => {
            let label = known.symbol().address;
            value_at(label.wrapping_sub(addresses.section), high)
        }
        _ => None,
    }
}

/// The value of a relocation, if it is found with few tests, and its own instructions reach it.
#[inline(always)]
pub(crate) fn quick_value<S: Symbols>(
    architecture: Architecture,
    addresses: &Addresses,
    relocations: &[u8],
    symbols: S,
    row: &Row,
    index: usize,
    relocation: &Rela,
    high: Option<HighPart>,
) -> Option<i64> {
    let Some(known) = symbols.find(index, relocation) else {
        return None;
    };
    let Some(value) = found_value(
        architecture,
        addresses,
        relocations,
        symbols,
        row,
        index,
        relocation,
        &known,
        high,
    ) else {
        return None;
    };
    if needs_upper(architecture, relocation, value) {
        return None;
    }
    Some(value)
}

/// A high part. By itself, so that nothing is copied where there is none.
#[inline(never)]
fn new_high(offset: u64, value: i64) -> HighPart {
    HighPart { offset, value }
}

/// The last high part after a relocation with a value.
#[inline(always)]
pub(crate) fn high_after(
    architecture: Architecture,
    row: &Row,
    offset: u64,
    value: i64,
    high: Option<HighPart>,
) -> Option<HighPart> {
    if matches!(row.facts().way, Way::High) && matches_any!(architecture, #[cfg(feature = "riscv64")] Architecture::RiscV) {
        Some(new_high(offset, value))
    } else {
        high
    }
}
