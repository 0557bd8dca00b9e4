// SPDX-License-Identifier: MIT OR Apache-2.0
// Made by tools/generate of crates/linker_elf/src/elf/value.rt.
//! The value of a relocation, from the addresses that a linker knows.

use crate::linker_elf::elf::entries::names_plt_entry;
use crate::linker_elf::elf::{AnyForm, RelocationKind, RowInfo, RowSize};
#[cfg(feature = "loongarch64")]
use crate::linker_elf::loongarch64::highest_relocation_with_bias;

/// What the value of a relocation is computed from. All but the addend and the flags are addresses
/// or sizes in bytes. A value is computed modulo 2^64. What the relocation's formula doesn't name
/// isn't read. Where it names an entry or an origin that there isn't, by its flag, it has no value.
#[repr(C)]
#[derive(Default, Clone, Copy, Debug, PartialEq, Eq, Hash)]
pub struct Operands {
    /// S: the symbol's address, and of a TLS symbol its address in the TLS segment's image. Of
    /// `R_RISCV_PCREL_LO12_*` it is the address that the high part at the label refers to: that of
    /// the symbol or, of `R_RISCV_GOT_HI20`, `R_RISCV_TLS_GOT_HI20` and `R_RISCV_TLS_GD_HI20`, of
    /// the GOT entry. Of `R_X86_64_GOTPC32` and `R_X86_64_GOTPC64` it is the GOT's address.
    pub symbol: u64,
    /// A: the addend. Of `R_RISCV_PCREL_LO12_*` it is that of the high part.
    pub addend: i64,
    /// P: the place, which is the address of the field. Of `R_RISCV_PCREL_LO12_*`,
    /// `R_RISCV_TLSDESC_LOAD_LO12` and `R_RISCV_TLSDESC_ADD_LO12` it is that of the high part.
    pub place: u64,
    /// The address of the GOT entry that the relocation requires: the symbol's (GOT + G), or its
    /// entries for general-dynamic, local-dynamic and initial-exec TLS, or its TLS descriptor. For
    /// an instruction of AArch64 or PowerPC64 it is the entry of S + A, and A isn't added to its
    /// address. `R_LARCH_GOT_PC_LO12` of a TLS symbol whose high half is `R_LARCH_TLS_GD_PC_HI20`
    /// or `R_LARCH_TLS_LD_PC_HI20` takes the entry of that high half.
    pub got_entry: u64,
    /// The address that offsets from the GOT count from: that of `_GLOBAL_OFFSET_TABLE_`, and on
    /// PowerPC64 that of `.TOC.`, which is the GOT's address plus 0x8000.
    pub got_base: u64,
    /// L: the address of the symbol's PLT entry. Without one L is S. Of the calls of PowerPC64 that
    /// load the function's address themselves, as `R_PPC64_PLT16_LO_DS`, it is that of the word
    /// that holds it. `choose` reads this field as it is: it has to be S where there is no entry.
    pub plt_entry: u64,
    /// Z: the symbol's size.
    pub symbol_size: u64,
    /// The origin of offsets of TLS symbols, as an address in the TLS segment's image. For an
    /// offset from the thread pointer it is the thread pointer's. On AArch64 that is the image's
    /// address less 16, rounded down to the segment's alignment. On RISC-V and LoongArch it is the
    /// image's address rounded down so, on PowerPC64 that plus 0x7000, and on x86-64 the image's
    /// end rounded up. For an offset in the module's TLS block it is the image's address, aligned
    /// or not; plus 0x8000 on PowerPC64, and plus 0x800 on RISC-V.
    pub tls_base: u64,
    /// Whether there is `got_entry`.
    pub has_got_entry: bool,
    /// Whether there is `plt_entry`.
    pub has_plt_entry: bool,
    /// Whether there is `tls_base`.
    pub has_tls_base: bool,
}

/// Why a relocation's formula has no value.
#[cfg_attr(not(exhaustive), non_exhaustive)]
#[derive(Clone, Copy, PartialEq, Eq, Debug, Hash)]
pub enum FormulaError {
    /// It has the address of an entry of the GOT, or of the word that PowerPC64's calls load, and
    /// there is none.
    NoEntry,
    /// It counts from the origin of offsets of TLS symbols, and there is none.
    NoTlsBase,
    /// The relocation has no formula: its kind is `None`, `Alignment` or `TlsDescCall`.
    NoValue,
}

impl Operands {
    /// S, A and P, of a symbol without any entry: L is S, and the other addresses are 0.
    ///
    /// ```
    /// use linker_utils::elf::Operands;
    /// use linker_utils::x86_64::{X86_64Relocation, row};
    ///
    /// // call f, whose field is at 0x401131, with f at 0x401200
    /// let operands = Operands::new(0x401200, -4, 0x401131);
    /// let row = row(X86_64Relocation::R_X86_64_PLT32).unwrap();
    /// assert_eq!(row.value(&operands), Ok(0xcb));
    /// ```
    #[must_use]
    pub fn new(symbol: u64, addend: i64, place: u64) -> Operands {
        Operands {
            symbol,
            addend,
            place,
            plt_entry: symbol,
            ..Operands::default()
        }
    }

    /// The same, with S as L where there is no entry of the PLT.
    #[doc(hidden)]
    #[must_use]
    #[inline(always)]
    pub fn completed(&self) -> Operands {
        let plt_entry = if self.has_plt_entry {
            self.plt_entry
        } else {
            self.symbol
        };
        Operands { plt_entry, ..*self }
    }

    /// The same, with every entry and origin that a formula names.
    #[inline(always)]
    pub(crate) fn as_given(&self) -> Operands {
        Operands {
            has_got_entry: true,
            has_plt_entry: true,
            has_tls_base: true,
            ..*self
        }
    }
}

impl RowSize {
    /// Whether it is that of PowerPC64's calls that load the function's address themselves, of a
    /// kind.
    #[doc(hidden)]
    #[must_use]
    #[inline(always)]
    pub fn loads_plt_word(self, kind: RelocationKind) -> bool {
        matches_any!(
            self,
            #[cfg(feature = "ppc64")]
            RowSize::BitMasking { insn: AnyForm::Ppc64(_), .. }
        ) && names_plt_entry(kind)
    }
}

impl RelocationKind {
    /// Whether the value is an offset of a thread-local symbol.
    #[doc(hidden)]
    #[must_use]
    #[inline(always)]
    pub fn is_offset(self) -> bool {
        matches!(self, RelocationKind::TpOff | RelocationKind::DtpOff)
    }
}

/// What [`highest_relocation_with_bias`](crate::loongarch64::highest_relocation_with_bias()) takes as `pc`.
#[inline(always)]
fn pc_of_sequence(size: RowSize, place: u64) -> u64 {
    match size {
        RowSize::BitMasking { range, .. } if range.start == 52 => place.wrapping_sub(4),
        _ => place,
    }
}

/// The terms of a kind's formula: S + A, the entry, L + A or the size, and what is subtracted.
#[derive(Clone, Copy)]
pub(crate) enum Formula {
    Without,
    Symbol,
    SymbolLessPlace,
    /// [`highest_relocation_with_bias`](crate::loongarch64::highest_relocation_with_bias()) of S + A, and below of the entry.
    #[cfg(feature = "loongarch64")]
    LoongArchHigh,
    EntryLessPlace,
    #[cfg(feature = "loongarch64")]
    LoongArchEntry,
    EntryLessGot,
    Entry,
    SymbolLessGot,
    PltLessGot,
    PltLessPlace,
    Size,
    /// S + A less the origin of offsets of TLS symbols.
    Offset,
}

/// A row's formula, what is added to its first term, and which bits of its terms count.
#[derive(Clone, Copy)]
pub(crate) struct FormulaTerms {
    pub(crate) formula: Formula,
    /// Whether L is the word that PowerPC64's calls load.
    pub(crate) is_word: bool,
    /// The bias.
    pub(crate) bias: u64,
    /// The bits of S + A.
    pub(crate) symbol: u64,
    /// The bits of the address of an entry of the GOT.
    pub(crate) entry: u64,
    /// The bits of the addend that are added to that: all or none.
    pub(crate) entry_addend: u64,
    /// The bits of P.
    pub(crate) place: u64,
    /// The bits of the GOT's address.
    pub(crate) got: u64,
}

impl FormulaTerms {
    /// A base with the addend and the bias.
    #[inline(always)]
    fn sum(&self, base: u64, addend: u64) -> u64 {
        base.wrapping_add(addend).wrapping_add(self.bias)
    }

    /// S + A.
    #[inline(always)]
    fn symbol(&self, operands: &Operands) -> u64 {
        self.sum(operands.symbol, operands.addend as u64) & self.symbol
    }

    /// GOT + G + A, or the same of an entry of TLS.
    #[inline(always)]
    fn entry(&self, operands: &Operands) -> Result<u64, FormulaError> {
        if !operands.has_got_entry {
            return Err(FormulaError::NoEntry);
        }
        let addend = operands.addend as u64 & self.entry_addend;
        Ok(self.sum(operands.got_entry, addend) & self.entry)
    }

    /// L + A. Without an entry of the PLT L is S, except for a call that loads a word.
    #[inline(always)]
    fn plt(&self, operands: &Operands) -> Result<u64, FormulaError> {
        let plt_entry = if operands.has_plt_entry {
            operands.plt_entry
        } else if self.is_word {
            return Err(FormulaError::NoEntry);
        } else {
            operands.symbol
        };
        Ok(self.sum(plt_entry, operands.addend as u64))
    }
}

/// An entry less a number.
#[inline(always)]
fn less(entry: Result<u64, FormulaError>, number: u64) -> Result<u64, FormulaError> {
    match entry {
        Ok(entry) => Ok(entry.wrapping_sub(number)),
        Err(error) => Err(error),
    }
}

/// [`highest_relocation_with_bias`](crate::loongarch64::highest_relocation_with_bias()) of an entry.
#[cfg(feature = "loongarch64")]
#[inline(always)]
fn high(entry: Result<u64, FormulaError>, pc: u64) -> Result<u64, FormulaError> {
    match entry {
        Ok(entry) => Ok(highest_relocation_with_bias(entry, pc)),
        Err(error) => Err(error),
    }
}

impl RowInfo {
    /// The value modulo 2^64.
    #[inline(always)]
    fn value_modulo(&self, terms: &FormulaTerms, operands: &Operands) -> Result<u64, FormulaError> {
        let o = operands;
        match terms.formula {
            Formula::Without => Err(FormulaError::NoValue),
            Formula::Symbol => Ok(terms.symbol(o)),
            Formula::SymbolLessPlace => Ok(terms.symbol(o).wrapping_sub(o.place & terms.place)),
            #[cfg(feature = "loongarch64")]
            Formula::LoongArchHigh => Ok(highest_relocation_with_bias(
                terms.symbol(o),
                pc_of_sequence(self.size, o.place),
            )),
            Formula::EntryLessPlace => less(terms.entry(o), o.place & terms.place),
            #[cfg(feature = "loongarch64")]
            Formula::LoongArchEntry => high(terms.entry(o), pc_of_sequence(self.size, o.place)),
            Formula::EntryLessGot => less(terms.entry(o), o.got_base & terms.got),
            Formula::Entry => terms.entry(o),
            Formula::SymbolLessGot => Ok(terms.symbol(o).wrapping_sub(o.got_base & terms.got)),
            Formula::PltLessGot => less(terms.plt(o), o.got_base & terms.got),
            Formula::PltLessPlace => less(terms.plt(o), o.place & terms.place),
            Formula::Size => Ok(terms.sum(o.symbol_size, o.addend as u64)),
            Formula::Offset => {
                if !o.has_tls_base {
                    return Err(FormulaError::NoTlsBase);
                }
                Ok(terms.symbol(o).wrapping_sub(o.tls_base))
            }
        }
    }

    /// `Row::value`, by the row's terms.
    #[inline(always)]
    pub(crate) fn value_by(
        &self,
        terms: &FormulaTerms,
        operands: &Operands,
    ) -> Result<i64, FormulaError> {
        match self.value_modulo(terms, operands) {
            Ok(value) => Ok(value as i64),
            Err(error) => Err(error),
        }
    }
}
