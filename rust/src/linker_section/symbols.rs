// SPDX-License-Identifier: MIT OR Apache-2.0
// Made by tools/generate of crates/linker_section/src/symbols.rt.
//! What is known of the symbols that a section's relocations name, by a table or by a look-up.

use crate::linker_section::facts::{Addresses, Symbol};
use crate::linker_section::quick::required_address;
use crate::linker_section::relocations::Rela;
use crate::linker_elf::elf::Row;

/// What is known of the symbol of a relocation.
pub(crate) trait Known: Copy {
    /// The symbol. Its entries aren't read.
    fn symbol(&self) -> Symbol;

    /// The address of the entry that a relocation of a row requires; 0 where it requires none, and
    /// none where there isn't one.
    fn entry(&self, addresses: &Addresses, row: &Row, relocation: &Rela) -> Option<u64>;

    /// Whether the value isn't written.
    fn is_left_out(&self) -> bool;
}

/// What finds the symbol of each of a section's relocations.
pub(crate) trait Symbols: Copy {
    /// What is known of a relocation's symbol.
    type Found: Known;

    /// What is known of the symbol of the relocation with an index. None if there is no such
    /// symbol.
    fn find(self, index: usize, relocation: &Rela) -> Option<Self::Found>;
}

/// A symbol of a table.
#[derive(Clone, Copy)]
pub(crate) struct Listed<'a> {
    /// The symbol.
    pub(crate) symbol: &'a Symbol,
}

impl Known for Listed<'_> {
    #[inline(always)]
    fn symbol(&self) -> Symbol {
        *self.symbol
    }

    #[inline(always)]
    fn entry(&self, addresses: &Addresses, row: &Row, relocation: &Rela) -> Option<u64> {
        required_address(addresses, self.symbol, row, relocation)
    }

    #[inline(always)]
    fn is_left_out(&self) -> bool {
        false
    }
}

/// A table of symbols at the indexes that relocations name.
#[derive(Clone, Copy)]
pub(crate) struct ByIndex<'a> {
    /// The table.
    pub(crate) symbols: &'a [Symbol],
}

impl<'a> Symbols for ByIndex<'a> {
    type Found = Listed<'a>;

    #[inline(always)]
    fn find(self, _index: usize, relocation: &Rela) -> Option<Listed<'a>> {
        match self.symbols.get(relocation.symbol as usize) {
            Some(symbol) => Some(Listed { symbol }),
            None => None,
        }
    }
}
