// SPDX-License-Identifier: MIT OR Apache-2.0
// Made by tools/generate of crates/linker_section/src/values.rt.
//! The value of a relocation, by what a linker knows of symbols and of the output.

use crate::linker_section::facts::{Addresses, Symbol};
use crate::linker_section::needed::{Entry, EntryClass, entry_by};
use crate::linker_section::relocations::{Rela, first_from, offset_at, relocation_in, relocations_len};
use crate::linker_section::symbols::{ByIndex, Known, Symbols};
use crate::linker_elf::elf::{
    AnyForm, Architecture, Operands, RelocationKind, Row, RowInfo, RowSize,
};
#[cfg(feature = "riscv64")]
use crate::linker_elf::elf::RiscVInstruction;
#[cfg(feature = "x86_64")]
use crate::linker_elf::x86_64::X86_64Relocation;

/// Why a relocation has no value.
#[cfg_attr(not(exhaustive), non_exhaustive)]
#[derive(Clone, Copy, Debug, PartialEq, Eq, Hash)]
pub enum ValueError {
    /// Its `r_type` has no row: no object's relocation has it.
    UnknownType,
    /// Its symbol, or that of its high part, isn't in the table.
    NoSymbol,
    /// It requires an entry of the GOT, and there is none of its class with its addend.
    NoEntry,
    /// It is an offset of a thread-local symbol, and the output has no TLS segment, from whose
    /// origins it would count.
    NoTlsBase,
    /// It is a low part of RISC-V, and no high part is at the label that its symbol is.
    NoHighPart,
    /// `R_RISCV_ALIGN` or `R_LARCH_ALIGN`: what is after its nops isn't aligned, since the section
    /// wasn't packed. Only of [`relocate_section`](crate::section::relocate_section()).
    NotAligned,
    /// `R_PPC64_REL24` of a function that may return with another TOC pointer (the high three bits
    /// of `st_other` are 1), and that has no stub, which would keep the caller's. Only of
    /// [`relocate_section`](crate::section::relocate_section()).
    NeedsStub,
    /// A `*_HI20` of LoongArch whose value isn't a number of 32 signed bits, and that has no
    /// `*64*_LO20` of its symbol and addend: 8 bytes after it where it is relative to the place,
    /// and else anywhere in the section. Only of [`relocate_section`](crate::section::relocate_section()).
    OutOfReach,
}

/// The address of a symbol's entry of a class; 0 for none.
#[inline(always)]
fn entry_in(addresses: &Addresses, symbol: &Symbol, class: EntryClass) -> u64 {
    match class {
        EntryClass::Address => symbol.address_entry,
        EntryClass::ThreadOffset => symbol.thread_entry,
        EntryClass::ModuleOffset => symbol.module_entry,
        EntryClass::Module => addresses.module_entry,
        EntryClass::Descriptor => symbol.descriptor,
    }
}

/// Whether a symbol's entry of a class has an addend.
#[inline(always)]
fn has_addend(symbol: &Symbol, class: EntryClass, addend: i64) -> bool {
    match class {
        EntryClass::Module => true,
        _ => symbol.entry_addend == addend,
    }
}

/// Whether there is such an entry.
#[inline(always)]
fn is_there(addresses: &Addresses, symbol: &Symbol, entry: Entry) -> bool {
    entry_in(addresses, symbol, entry.class) != 0 && has_addend(symbol, entry.class, entry.addend)
}

/// The address of the entry that is required; 0 where none is, and none where there isn't one.
#[inline(always)]
pub(crate) fn entry_address(
    addresses: &Addresses,
    symbol: &Symbol,
    entry: Option<Entry>,
) -> Option<u64> {
    match entry {
        None => Some(0),
        Some(entry) => {
            if is_there(addresses, symbol, entry) {
                Some(entry_in(addresses, symbol, entry.class))
            } else {
                None
            }
        }
    }
}

/// Whether the formula has the GOT's address in place of the symbol's.
#[inline(always)]
pub(crate) fn is_of_got(architecture: Architecture, r_type: u32) -> bool {
    #[cfg(not(feature = "x86_64"))]
    {
        false
    }
    #[cfg(feature = "x86_64")]
    {
    matches_any!(architecture, #[cfg(feature = "x86_64")] Architecture::X86_64)
        && (r_type == X86_64Relocation::R_X86_64_GOTPC64.r_type()
            || r_type == X86_64Relocation::R_X86_64_GOTPC32.r_type())
    }
}

/// How far after a function's global entry point its local one is.
#[inline(always)]
pub(crate) fn local_entry(other: u8) -> u64 {
    let logarithm = other / 32;
    if logarithm < 2 { 0 } else { 1 << logarithm }
}

/// Whether it is a branch of PowerPC64.
#[cfg(feature = "ppc64")]
#[inline(always)]
fn is_ppc64_branch(size: RowSize) -> bool {
    matches_any!(
        size,
        #[cfg(feature = "ppc64")]
        RowSize::BitMasking { insn: AnyForm::Ppc64(_), .. }
    ) && size.is_branch()
}

/// A symbol's address, or where PowerPC64's branches go.
#[inline(always)]
fn address_of(row: &Row, symbol: &Symbol) -> u64 {
    #[cfg(not(feature = "ppc64"))]
    {
        symbol.address
    }
    #[cfg(feature = "ppc64")]
    {
    if is_ppc64_branch(row.info().size) {
        symbol.address.wrapping_add(local_entry(symbol.other))
    } else {
        symbol.address
    }
    }
}

/// Whether the formula is relative to the place.
#[inline(always)]
fn is_relative(kind: RelocationKind) -> bool {
    matches!(kind, RelocationKind::Relative | RelocationKind::PltRelative)
}

/// Whether a stub may serve as the target of a relocation.
#[inline(always)]
fn serves_stub(row: &Row) -> bool {
    row.facts().may_use_stub
}

/// What an undefined weak symbol counts for.
#[inline(always)]
fn weak_address(architecture: Architecture, row: &Row, place: u64) -> u64 {
    let is_branch = row.facts().is_branch;
    match architecture {
        #[cfg(feature = "aarch64")]
        Architecture::AArch64 if is_branch => place.wrapping_add(4),
        #[cfg(feature = "aarch64")]
        Architecture::AArch64 if is_relative(row.kind()) => place,
        #[cfg(feature = "riscv64")]
        Architecture::RiscV if serves_stub(row) => place,
        #[cfg(feature = "ppc64")]
        Architecture::Ppc64 if is_branch => place,
        _ => 0,
    }
}

/// What offsets of thread-local symbols count from.
#[inline(always)]
fn origin_of(addresses: &Addresses, kind: RelocationKind) -> u64 {
    match kind {
        RelocationKind::TpOff => addresses.thread_origin,
        _ => addresses.module_origin,
    }
}

/// S.
#[inline(always)]
fn defined_or_weak(
    architecture: Architecture,
    addresses: &Addresses,
    row: &Row,
    symbol: &Symbol,
    place: u64,
) -> u64 {
    if !symbol.is_undefined_weak {
        address_of(row, symbol)
    } else if row.kind().is_offset() {
        origin_of(addresses, row.kind())
    } else {
        weak_address(architecture, row, place)
    }
}

/// S, or the stub by which a branch goes.
#[inline(always)]
pub(crate) fn target_of(
    architecture: Architecture,
    addresses: &Addresses,
    row: &Row,
    symbol: &Symbol,
    place: u64,
) -> u64 {
    if serves_stub(row) && symbol.stub != 0 {
        symbol.stub
    } else {
        defined_or_weak(architecture, addresses, row, symbol, place)
    }
}

/// The operands of a relocation's formula, with the address of the entry that it requires.
#[inline(always)]
fn operands_with(
    architecture: Architecture,
    addresses: &Addresses,
    row: &Row,
    symbol: &Symbol,
    relocation: &Rela,
    entry: u64,
) -> Operands {
    let info = row.info();
    let place = addresses.section.wrapping_add(relocation.offset);
    let target = target_of(architecture, addresses, row, symbol, place);
    let loads = info.size.loads_plt_word(info.kind);
    Operands {
        symbol: if is_of_got(architecture, relocation.r_type) {
            addresses.got_base
        } else {
            target
        },
        addend: if loads { 0 } else { relocation.addend },
        place,
        got_entry: entry,
        got_base: addresses.got_base,
        plt_entry: if loads { entry } else { target },
        symbol_size: symbol.size,
        tls_base: origin_of(addresses, info.kind),
        has_got_entry: true,
        has_plt_entry: true,
        has_tls_base: addresses.has_tls,
    }
}

/// The entry that a relocation of a symbol requires.
#[inline(always)]
pub(crate) fn required(row: &Row, relocation: &Rela, symbol: &Symbol) -> Option<Entry> {
    entry_by(row.facts(), relocation.addend, symbol.is_thread_local)
}

/// The operands of a relocation's formula, by what is known of its symbol.
#[inline(always)]
fn operands_of<K: Known>(
    architecture: Architecture,
    addresses: &Addresses,
    row: &Row,
    relocation: &Rela,
    known: &K,
) -> Result<Operands, ValueError> {
    match known.entry(addresses, row, relocation) {
        Some(entry) => {
            let symbol = known.symbol();
            Ok(operands_with(architecture, addresses, row, &symbol, relocation, entry))
        }
        None => Err(ValueError::NoEntry),
    }
}

/// Whether a relocation of a kind has a value.
#[inline(always)]
pub(crate) fn has_value(kind: RelocationKind) -> bool {
    !matches!(
        kind,
        RelocationKind::None | RelocationKind::Alignment | RelocationKind::TlsDescCall
    )
}

/// The value of a relocation that stands alone.
#[inline(always)]
pub(crate) fn own_value<K: Known>(
    architecture: Architecture,
    addresses: &Addresses,
    row: &Row,
    relocation: &Rela,
    known: Option<K>,
) -> Result<Option<i64>, ValueError> {
    if !has_value(row.kind()) {
        return Ok(None);
    }
    let Some(known) = &known else {
        return Err(ValueError::NoSymbol);
    };
    match operands_of(architecture, addresses, row, relocation, known) {
        Ok(operands) => {
            let is_undefined = known.symbol().is_undefined_weak;
            if row.kind().is_offset() && !addresses.has_tls && !is_undefined {
                Err(ValueError::NoTlsBase)
            } else {
                Ok(row.formula_value(&operands))
            }
        }
        Err(error) => Err(error),
    }
}

/// Whether it is a low part of RISC-V.
#[inline(always)]
fn is_low_part(size: RowSize) -> bool {
    matches_any!(
        size,
        #[cfg(feature = "riscv64")]
        RowSize::BitMasking { insn: AnyForm::RiscV(RiscVInstruction::IType | RiscVInstruction::SType), .. }
    )
}

/// Whether the symbol labels a high part.
#[inline(always)]
pub(crate) fn names_label(size: RowSize, kind: RelocationKind) -> bool {
    match kind {
        RelocationKind::RelativeRiscVLow12 => true,
        RelocationKind::TlsDesc => is_low_part(size),
        _ => false,
    }
}

/// Whether it is an `auipc` of RISC-V.
#[inline(always)]
fn is_auipc(size: RowSize) -> bool {
    matches_any!(
        size,
        #[cfg(feature = "riscv64")]
        RowSize::BitMasking { insn: AnyForm::RiscV(RiscVInstruction::UType), .. }
    )
}

/// Whether low parts of a kind have high parts of another.
#[inline(always)]
fn is_high_kind(low: RelocationKind, kind: RelocationKind) -> bool {
    match low {
        RelocationKind::TlsDesc => matches!(kind, RelocationKind::TlsDesc),
        _ => matches!(
            kind,
            RelocationKind::Relative
                | RelocationKind::GotRelative
                | RelocationKind::GotTpOff
                | RelocationKind::TlsGd
        ),
    }
}

/// Whether a row is that of a high part of low parts of a kind.
#[inline(always)]
fn is_high_part(low: RelocationKind, info: &RowInfo) -> bool {
    is_auipc(info.size) && is_high_kind(low, info.kind)
}

/// The relocation at an index, if it is a high part at an offset of low parts of a kind.
#[inline(always)]
fn high_part_in(
    architecture: Architecture,
    relocations: &[u8],
    low: RelocationKind,
    at: u64,
    index: usize,
) -> Option<(usize, Rela, Row)> {
    let relocation = relocation_in(relocations, index);
    if relocation.offset != at {
        return None;
    }
    let Some(row) = architecture.row(relocation.r_type) else {
        return None;
    };
    if is_high_part(low, &row.info()) {
        Some((index, relocation, row))
    } else {
        None
    }
}

/// The high part at an offset, where relocations ascend by offset.
fn ascending_high_part(
    architecture: Architecture,
    relocations: &[u8],
    low: RelocationKind,
    at: u64,
) -> Option<(usize, Rela, Row)> {
    for index in first_from(relocations, at)..relocations_len(relocations) {
        if offset_at(relocations, index) != at {
            return None;
        }
        if let Some(high) = high_part_in(architecture, relocations, low, at, index) {
            return Some(high);
        }
    }
    None
}

/// The same in any order: where the search doesn't find it, all relocations are looked at.
fn high_part(
    architecture: Architecture,
    relocations: &[u8],
    low: RelocationKind,
    at: u64,
) -> Option<(usize, Rela, Row)> {
    if let Some(high) = ascending_high_part(architecture, relocations, low, at) {
        return Some(high);
    }
    for index in 0..relocations_len(relocations) {
        if let Some(high) = high_part_in(architecture, relocations, low, at, index) {
            return Some(high);
        }
    }
    None
}

/// The operands of a low part, of those of its high part.
#[inline(always)]
fn low_operands(high: &Row, operands: Operands) -> Operands {
    if high.kind().names_got_entry() {
        Operands {
            symbol: operands.got_entry,
            ..operands
        }
    } else {
        operands
    }
}

/// The value of a relocation among those of its section, by what is known of its symbol. None of a
/// type without a value.
#[inline(always)]
pub(crate) fn value_of<S: Symbols>(
    architecture: Architecture,
    addresses: &Addresses,
    relocations: &[u8],
    symbols: S,
    row: &Row,
    relocation: &Rela,
    known: Option<S::Found>,
) -> Result<Option<i64>, ValueError> {
    if !names_label(row.info().size, row.kind()) {
        return own_value(architecture, addresses, row, relocation, known);
    }
    let Some(label) = known else {
        return Err(ValueError::NoSymbol);
    };
    let at = label.symbol().address.wrapping_sub(addresses.section);
    let Some((index, high, high_row)) = high_part(architecture, relocations, row.kind(), at) else {
        return Err(ValueError::NoHighPart);
    };
    let Some(known) = symbols.find(index, &high) else {
        return Err(ValueError::NoSymbol);
    };
    match operands_of(architecture, addresses, &high_row, &high, &known) {
        Ok(operands) => Ok(row.formula_value(&low_operands(&high_row, operands))),
        Err(error) => Err(error),
    }
}

/// The value of a relocation among those of its section, which [`relocation_at`](crate::section::relocation_at()) reads. None of a
/// type without a value, as an alignment.
///
/// It is that of the psABI's formula, with the operands that its relocation takes:
///
/// - A branch goes to the symbol's stub, if it has one. On PowerPC64 a branch to the symbol itself
///   goes to the local entry point. A linker has a stub for an `R_PPC64_REL24_NOTOC` of a function
///   that takes the TOC pointer as given, and for each branch that doesn't reach.
/// - A low part of RISC-V takes the operands of the high part at the label that its symbol is. It
///   is found by a search where the relocations ascend by offset, and else among all of them. Its
///   own addend isn't read.
/// - A branch to an undefined weak symbol goes to the next instruction on AArch64, and on RISC-V
///   and PowerPC64 to itself. What else is relative to the place is then 0 on AArch64. The offset
///   of such a thread-local symbol is the addend, also without a TLS segment.
/// - Each of a pair at a ULEB128 number, and of `R_RISCV_ADD32` and its like, has a value of its
///   own.
///
/// # Errors
///
/// `UnknownType`, `NoSymbol`, `NoEntry`, `NoTlsBase` and `NoHighPart`, as [`ValueError`](crate::section::ValueError) says.
///
/// ```
/// use linker_utils::section::{Addresses, Symbol};
/// use linker_utils::section::Rela;
/// use linker_utils::section::value;
/// use linker_utils::elf::Architecture;
///
/// // R_AARCH64_CALL26 at offset 4, of symbol 1
/// let call = Rela { offset: 4, r_type: 283, symbol: 1, addend: 0 };
/// let addresses = Addresses { section: 0x1000, ..Addresses::default() };
/// let function = Symbol { address: 0x2000, ..Symbol::default() };
/// let symbols = [Symbol::default(), function];
/// let distance = value(Architecture::AArch64, &addresses, &[], &symbols, &call);
/// assert_eq!(distance, Ok(Some(0xffc)));
/// ```
#[inline]
pub fn value(
    architecture: Architecture,
    addresses: &Addresses,
    relocations: &[u8],
    symbols: &[Symbol],
    relocation: &Rela,
) -> Result<Option<i64>, ValueError> {
    let Some(row) = architecture.row(relocation.r_type) else {
        return Err(ValueError::UnknownType);
    };
    let symbols = ByIndex { symbols };
    let known = symbols.find(0, relocation);
    value_of(
        architecture,
        addresses,
        relocations,
        symbols,
        &row,
        relocation,
        known,
    )
}
