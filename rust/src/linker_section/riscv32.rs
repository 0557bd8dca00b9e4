// SPDX-License-Identifier: MIT OR Apache-2.0
// Made by tools/generate of crates/linker_section/src/riscv32.rt.
//! Relocations of RV32, as those of RV64 that write the same.
//!
//! They have the same types, formulas and forms (RISC-V ELF psABI, "Relocations"). A file has each
//! in the 12 bytes of an `Elf32_Rela`: [`read_rela32`](crate::section::read_rela32()) copies them to the 24 bytes that all other
//! calls read. Addresses and distances are modulo 2^32, so that a pair of instructions reaches
//! every address. `wrap_addends` adds a multiple of 2^32 to an addend, so that the value is the one
//! that the relocation can hold. With these two calls and 32-bit addresses, [`Architecture::RiscV`](crate::elf::Architecture::RiscV)
//! is RV32.

use crate::linker_section::facts::{Addresses, Symbol};
use crate::linker_section::relocations::{RELA_LEN, Rela, relocation_in, relocations_len, set_relocation, u32_at};
use crate::linker_section::symbols::{ByIndex, Symbols};
use crate::linker_section::values::{names_label, own_value};
use crate::linker_base::utils::u32_from_slice;
use crate::linker_elf::elf::{Architecture, Row};

/// The length of a relocation in a file of ELFCLASS32, of an `Elf32_Rela`.
pub const RELA32_LEN: usize = 12;

/// A word, read in two's complement.
fn signed(word: u32) -> i64 {
    if word < 0x8000_0000 {
        i64::from(word)
    } else {
        i64::from(word) - 0x1_0000_0000
    }
}

/// The relocation that 12 bytes are.
fn relocation32_of(entry: &[u8]) -> Rela {
    let info = u32_at(entry, 4);
    Rela {
        offset: u64::from(u32_from_slice(entry)),
        r_type: info % 256,
        symbol: info / 256,
        addend: signed(u32_at(entry, 8)),
    }
}

/// The relocation at an index below [`relocations32_len`](crate::section::relocations32_len()).
fn relocation32_in(entries: &[u8], index: usize) -> Rela {
    relocation32_of(&entries[index * RELA32_LEN..][..RELA32_LEN])
}

/// How many relocations there are in the bytes of a section of relocations of ELFCLASS32. Bytes
/// after the last whole one count for nothing.
#[must_use]
#[inline(always)]
pub fn relocations32_len(entries: &[u8]) -> usize {
    entries.len() / RELA32_LEN
}

/// Copies relocations of a file of ELFCLASS32, each an `Elf32_Rela` of 12 bytes, to the first
/// relocations of a slice, each an `Elf64_Rela` of 24 bytes, as other calls read them.
///
/// ```
/// use linker_utils::section::relocation_at;
/// use linker_utils::section::read_rela32;
///
/// // R_RISCV_HI20 at 0x10, of symbol 5, with the addend -4
/// let mut relocations = [0; 24];
/// read_rela32(&[0x10, 0, 0, 0, 26, 5, 0, 0, 0xfc, 0xff, 0xff, 0xff], &mut relocations);
/// let relocation = relocation_at(&relocations, 0).unwrap();
/// assert_eq!((relocation.offset, relocation.r_type), (0x10, 26));
/// assert_eq!((relocation.symbol, relocation.addend), (5, -4));
/// ```
///
/// # Requires
///
/// - `(relocations32_len(entries) as u128) * 24 <= (relocations.len() as u128)`
#[cfg_attr(debug_assertions, track_caller)]
pub fn read_rela32(entries: &[u8], relocations: &mut [u8]) {
    debug_assert!((relocations32_len(entries) as u128) * 24 <= (relocations.len() as u128));
    let len = relocations32_len(entries);
    let copied = &mut relocations[..len * RELA_LEN];
    for index in 0..len {
        set_relocation(copied, index, &relocation32_in(entries, index));
    }
}

/// The least number from `least` on that is the value modulo 2^32.
fn wrapped(least: i64, value: i64) -> i64 {
    let above = (value as u64).wrapping_sub(least as u64) % (1 << 32);
    least + above as i64
}

/// The least value that a row can hold, if it can't hold all, and its value is the relocation's
/// own: a low part of RISC-V has that of its high part.
fn held_from(row: &Row) -> Option<i64> {
    if names_label(row.info().size, row.kind()) {
        return None;
    }
    match row.reach().bounds {
        Some((least, _)) => Some(least),
        None => None,
    }
}

/// A relocation with another addend, by which a value becomes another one.
fn with_value(relocation: &Rela, value: i64, wanted: i64) -> Rela {
    let more = (wanted as u64).wrapping_sub(value as u64);
    let addend = (relocation.addend as u64).wrapping_add(more);
    Rela {
        addend: addend as i64,
        ..*relocation
    }
}

/// A relocation with the addend by which its value is within its reach, if a multiple of 2^32 makes
/// it so.
#[cfg(feature = "riscv64")]
fn wrap_addend(addresses: &Addresses, symbols: &[Symbol], relocation: &Rela) -> Rela {
    let Some(row) = Architecture::RiscV.row(relocation.r_type) else {
        return *relocation;
    };
    let Some(least) = held_from(&row) else {
        return *relocation;
    };
    let known = ByIndex { symbols }.find(0, relocation);
    match own_value(Architecture::RiscV, addresses, &row, relocation, known) {
        Ok(Some(value)) => with_value(relocation, value, wrapped(least, value)),
        _ => *relocation,
    }
}

/// Adds a multiple of 2^32 to the addend of each relocation of a section whose value is tested. It
/// is called once addresses are known. Each value, as `values::value` returns it, then is the least
/// number from [`Row::reach`](crate::elf::Row::reach)'s least on that is the value modulo 2^32. So [`relocate_section`](crate::section::relocate_section()) writes
/// each pair of instructions, and each branch that reaches its target modulo 2^32. All else is
/// unchanged, as a relocation without a value, and one that takes bits of any value.
///
/// Addresses are below 2^32. A second call changes nothing.
///
/// ```
/// use linker_utils::section::{Addresses, Symbol};
/// use linker_utils::section::relocation_at;
/// use linker_utils::section::{read_rela32, wrap_addends};
/// use linker_utils::section::value;
/// use linker_utils::elf::Architecture;
///
/// // R_RISCV_HI20 at 0, of symbol 1, a variable at 0x8000_1000
/// let mut relocations = [0; 24];
/// read_rela32(&[0, 0, 0, 0, 26, 1, 0, 0, 0, 0, 0, 0], &mut relocations);
/// let variable = Symbol { address: 0x8000_1000, ..Symbol::default() };
/// let (addresses, symbols) = (Addresses::default(), [Symbol::default(), variable]);
/// wrap_addends(&addresses, &symbols, &mut relocations);
/// let high = relocation_at(&relocations, 0).unwrap();
/// let address = value(Architecture::RiscV, &addresses, &relocations, &symbols, &high);
/// assert_eq!(address, Ok(Some(0x8000_1000 - (1 << 32))));
/// ```
#[cfg(feature = "riscv64")]
pub fn wrap_addends(addresses: &Addresses, symbols: &[Symbol], relocations: &mut [u8]) {
    let len = relocations_len(relocations);
    let whole = &mut relocations[..len * RELA_LEN];
    for index in 0..len {
        let relocation = wrap_addend(addresses, symbols, &relocation_in(whole, index));
        set_relocation(whole, index, &relocation);
    }
}
