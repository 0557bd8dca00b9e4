// SPDX-License-Identifier: MIT OR Apache-2.0
// Made by tools/generate of crates/linker_section/src/resolved.rt.
//! Symbols by look-up: what a linker knows of each relocation's symbol. No table of an object's
//! symbols has to exist.

use crate::linker_section::facts::{Addresses, Symbol};
use crate::linker_section::relocations::Rela;
use crate::linker_section::sections::{SectionError, relocate_values};
use crate::linker_section::symbols::{Known, Symbols};
use crate::linker_section::values::required;
use crate::linker_elf::elf::{Architecture, Row};

/// What a linker knows of the symbol of one relocation, once addresses are known: what its psABI's
/// formula takes, with the stub and the entry of the GOT that serve this relocation.
#[repr(C)]
#[derive(Default, Clone, Copy)]
pub struct Resolved {
    /// S: the symbol's address, and of a thread-local symbol its address in the TLS segment's
    /// image. Of `R_X86_64_SIZE32` and `R_X86_64_SIZE64` Z, the symbol's size. Of a merged string
    /// the string's address less the relocation's addend.
    pub address: u64,
    /// The address of the entry of the GOT that the relocation requires, as [`needs`](crate::section::needs()) says: of S, of
    /// S + A, or of the module (local-dynamic). 0 if there is none. Not read where it requires
    /// none.
    pub entry: u64,
    /// The address of the entry of the PLT, or of another stub, by which the relocation's branch
    /// goes; 0 if it goes to `address`.
    pub stub: u64,
    /// `st_other`, of which PowerPC64's branches take the local entry point.
    pub other: u8,
    /// Whether the symbol is weak and nothing defines it. Then `address` is read of a symbol's size
    /// and of a label alone.
    pub is_undefined_weak: bool,
    /// Whether the value isn't written, as where a dynamic relocation takes its place. The bytes
    /// stay. Of a high part of RISC-V the rest is still read for its low parts. Not read of a
    /// relocation of a pair at a ULEB128 number.
    pub is_left_out: bool,
}

/// What a linker knows of the symbol of each of a section's relocations: a pure function of the
/// relocation and of its index.
pub trait Lookup: Copy {
    /// What is known of the symbol of a relocation with an index. None if there is no such symbol.
    #[must_use]
    fn resolved(self, index: usize, relocation: &Rela) -> Option<Resolved>;
}

/// An array of what is known for each relocation, at the relocation's index.
#[derive(Clone, Copy)]
pub struct ByRelocation<'a> {
    /// The array.
    pub resolved: &'a [Resolved],
}

impl Lookup for ByRelocation<'_> {
    #[inline(always)]
    fn resolved(self, index: usize, _relocation: &Rela) -> Option<Resolved> {
        match self.resolved.get(index) {
            Some(resolved) => Some(*resolved),
            None => None,
        }
    }
}

/// What is known, as of a symbol in a table. Its entries aren't read.
#[inline(always)]
fn symbol_of(resolved: &Resolved) -> Symbol {
    Symbol {
        address: resolved.address,
        size: resolved.address,
        stub: resolved.stub,
        address_entry: 0,
        thread_entry: 0,
        module_entry: 0,
        descriptor: 0,
        entry_addend: 0,
        other: resolved.other,
        is_thread_local: false,
        is_undefined_weak: resolved.is_undefined_weak,
    }
}

impl Known for Resolved {
    #[inline(always)]
    fn symbol(&self) -> Symbol {
        symbol_of(self)
    }

    #[inline(always)]
    fn entry(&self, _addresses: &Addresses, row: &Row, relocation: &Rela) -> Option<u64> {
        match required(row, relocation, &self.symbol()) {
            None => Some(0),
            Some(_) => {
                if self.entry == 0 {
                    None
                } else {
                    Some(self.entry)
                }
            }
        }
    }

    #[inline(always)]
    fn is_left_out(&self) -> bool {
        self.is_left_out
    }
}

/// The symbols that a look-up knows.
#[derive(Clone, Copy)]
pub(crate) struct ByLookup<L> {
    /// The look-up.
    pub(crate) lookup: L,
}

impl<L: Lookup> Symbols for ByLookup<L> {
    type Found = Resolved;

    #[inline(always)]
    fn find(self, index: usize, relocation: &Rela) -> Option<Resolved> {
        self.lookup.resolved(index, relocation)
    }
}

/// `crate::link::relocate_resolved`, with more parameters.
///
/// ```
/// use linker_utils::source::section::Addresses;
/// use linker_utils::source::section::{ByRelocation, Resolved, relocate_resolved};
/// use linker_utils::elf::Architecture;
///
/// // two words, each with R_X86_64_64 of symbol 1 (1), the second also of a dynamic linker
/// let mut relocations = [0; 48];
/// (relocations[8], relocations[12]) = (1, 1);
/// (relocations[24], relocations[32], relocations[36]) = (8, 1, 1);
/// let first = Resolved { address: 0x402000, ..Resolved::default() };
/// let resolved = [first, Resolved { is_left_out: true, ..first }];
/// let (mut section, mut memory) = ([0; 16], [0; 2]);
/// relocate_resolved(
///     Architecture::X86_64,
///     &Addresses::default(),
///     &relocations,
///     ByRelocation { resolved: &resolved },
///     &mut section,
///     &mut memory,
/// )
/// .unwrap();
/// assert_eq!(section, [0, 0x20, 0x40, 0, 0, 0, 0, 0, 0, 0, 0, 0, 0, 0, 0, 0]);
/// ```
pub fn relocate_resolved<L: Lookup>(
    architecture: Architecture,
    addresses: &Addresses,
    relocations: &[u8],
    lookup: L,
    section: &mut [u8],
    memory: &mut [u64],
) -> Result<(), SectionError> {
    relocate_values(
        architecture,
        addresses,
        relocations,
        ByLookup { lookup },
        section,
        memory,
    )
}
