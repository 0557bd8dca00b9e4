// SPDX-License-Identifier: MIT OR Apache-2.0
// Made by tools/generate of rust/head/link.rs.
//! What many calls take, in three structs: the link, an object, and a section of it. The calls are
//! inlined over functions of the proved source, which have a parameter for each fact.

use crate::elf::{Architecture, RelocateError, WriteError};
use crate::linker_base::relaxation::{AsDeletion, DeltaSlice, RelaxDelta};
use crate::linker_output::got::Origins;
use crate::linker_rewriting::decisions::{
    DecisionError, DecisionNumbers, Deletion, RewritingError,
};
use crate::linker_rewriting::facts::{OutputFacts, RelaxContext, SymbolFacts};
use crate::linker_rewriting::groups::UnrelaxableGroups;
use crate::linker_rewriting::kept::{self, FactsSnapshot};
use crate::linker_rewriting::phases::Phase;
use crate::linker_rewriting::{surveys, toc_indirection};
use crate::linker_runs::items::{
    self, AsRelocation, ItemNumbers, ItemsError, Relocation, RewrittenItemsError, SectionItems,
};
use crate::linker_runs::packing::{self, Machine, RejectedItem};
use crate::linker_runs::relaxation::Alignment;
use crate::linker_section::facts::{Addresses, Symbol};
use crate::linker_section::relocations::{RELA_LEN, Rela, relocation_at, relocation_of};
use crate::linker_section::resolved::{self, ByLookup, Lookup};
use crate::linker_section::sections::{self, RelocationError};
use crate::linker_section::symbols::{ByIndex, Symbols};

/// What a linker knows of an output. [`Link::new`] has no fact; addresses are known once sections
/// are placed.
#[derive(Debug, Clone, Copy, PartialEq, Eq, Hash)]
pub struct Link {
    /// The architecture of the link's files.
    pub architecture: Architecture,
    /// It is an executable, position-independent or not.
    pub is_executable: bool,
    /// It is always loaded at the address that it is linked for.
    pub is_fixed: bool,
    /// Its code, its GOT and the symbols of its own that its code refers to, except for absolute
    /// ones, lie within 2 GiB less 64 KiB. A linker may know this before it has a layout, from the
    /// lengths of sections and where they are placed. Where the fact doesn't hold, no load from the
    /// GOT becomes a distance before addresses are known.
    pub has_near_symbols: bool,
    /// What offsets from the GOT count from, as [`Operands::got_base`](crate::elf::Operands::got_base) says.
    pub got_base: u64,
    /// What offsets of thread-local storage count from, as
    /// [`Target::origins`](crate::output::Target::origins) returns it. None without a TLS segment.
    pub origins: Option<Origins>,
    /// The address of the output's entry of the class [`Module`](crate::section::EntryClass::Module),
    /// if there is one.
    pub module_entry: Option<u64>,
    /// The address of RISC-V's `__global_pointer$`, which the calls read that are named for it.
    pub global_pointer: u64,
}

impl Link {
    /// A link of which nothing is known.
    #[must_use]
    #[inline]
    pub const fn new(architecture: Architecture) -> Link {
        Link {
            architecture,
            is_executable: false,
            is_fixed: false,
            has_near_symbols: false,
            got_base: 0,
            origins: None,
            module_entry: None,
            global_pointer: 0,
        }
    }

    /// What calls of one relocation take of the link and of a section at an address:
    /// [`value`](crate::section::value) and [`Target::route`](crate::output::Target::route).
    #[must_use]
    #[inline]
    pub const fn addresses(&self, section: u64) -> Addresses {
        let (thread_origin, module_origin, has_tls) = match self.origins {
            Some(origins) => (origins.thread_pointer, origins.module_block, true),
            None => (0, 0, false),
        };
        let module_entry = match self.module_entry {
            Some(address) => address,
            None => 0,
        };
        Addresses {
            section,
            got_base: self.got_base,
            thread_origin,
            module_origin,
            module_entry,
            has_tls,
        }
    }

    /// What the proved functions take of the output.
    #[inline]
    const fn output(&self) -> OutputFacts {
        OutputFacts {
            is_executable: self.is_executable,
            is_fixed: self.is_fixed,
            has_near_symbols: self.has_near_symbols,
        }
    }
}

/// What a linker knows of an object's symbols: arrays by the indexes that its relocations name
/// (`r_sym`). One that a call doesn't read may be empty.
#[derive(Debug, Clone, Copy, Default, PartialEq, Eq, Hash)]
pub struct Object<'a> {
    /// What is known once names are resolved: calls that survey, rewrite or keep facts read it.
    pub facts: &'a [SymbolFacts],
    /// What is known once addresses are: calls that come then read it.
    pub values: &'a [Symbol],
    /// Which groups stay, by [`survey`](crate::rewriting::survey), or for a phase by
    /// [`survey_placed_section`](crate::rewriting::survey_placed_section).
    pub unrelaxable_groups: &'a [UnrelaxableGroups],
    /// What choices read, by [`snapshot_facts`](crate::rewriting::snapshot_facts).
    pub facts_snapshot: &'a [FactsSnapshot],
    /// Which symbols keep their high parts, by
    /// [`survey_global_pointer`](crate::rewriting::survey_global_pointer).
    pub kept_high_parts: &'a [bool],
}

/// A section of an object. Its bytes and relocations are any containers of bytes; calls that write
/// them want `&mut` of an array or a slice, or a `Vec`.
#[derive(Debug, Clone, Copy, Default, PartialEq, Eq, Hash)]
pub struct Section<B, R> {
    /// Its bytes.
    pub bytes: B,
    /// Its relocations as they stand in the file: of 24 bytes each, `Elf64_Rela`, little-endian, at
    /// any alignment. Further bytes than whole relocations have are ignored.
    pub relocations: R,
    /// The address of its first byte, from which offsets of relocations count.
    pub address: u64,
    /// Its input offset in a run that is relaxed.
    pub base: u64,
}

impl<B, R> Section<B, R> {
    /// A section at address 0, and at the begin of its run.
    #[must_use]
    #[inline]
    pub const fn new(bytes: B, relocations: R) -> Section<B, R> {
        Section {
            bytes,
            relocations,
            address: 0,
            base: 0,
        }
    }
}

/// The relocations of a section as they stand in the file, one by one: [`relocation_at`] of each
/// index.
///
/// ```
/// use linker_utils::section::{relocation_at, relocations};
///
/// let mut entries = [0; 48];
/// (entries[24], entries[32]) = (4, 24);
/// assert_eq!(relocations(&entries).map(|it| it.r_type).collect::<Vec<_>>(), [0, 24]);
/// assert_eq!(relocations(&entries).nth(1), relocation_at(&entries, 1));
/// ```
#[inline]
pub fn relocations(
    entries: &[u8],
) -> impl DoubleEndedIterator<Item = Rela> + ExactSizeIterator + Clone {
    entries.chunks_exact(RELA_LEN).map(relocation_of)
}

impl Symbol {
    /// What a file's table of symbols says of a symbol, by the fields of `Elf64_Sym`. The address is
    /// `st_value`, which in an object counts from the start of the section `st_shndx`.
    ///
    /// ```
    /// use linker_utils::section::Symbol;
    ///
    /// // STB_WEAK and STT_NOTYPE, of SHN_UNDEF
    /// assert!(Symbol::from_elf(0x20, 0, 0, 0, 0).is_undefined_weak);
    /// // STB_GLOBAL and STT_TLS
    /// let variable = Symbol::from_elf(0x16, 0, 3, 0x40, 8);
    /// assert_eq!((variable.address, variable.size, variable.is_thread_local), (0x40, 8, true));
    /// ```
    #[must_use]
    #[inline]
    pub const fn from_elf(
        st_info: u8,
        st_other: u8,
        st_shndx: u16,
        st_value: u64,
        st_size: u64,
    ) -> Symbol {
        Symbol {
            address: st_value,
            size: st_size,
            stub: 0,
            address_entry: 0,
            thread_entry: 0,
            module_entry: 0,
            descriptor: 0,
            entry_addend: 0,
            other: st_other,
            is_thread_local: st_info & 15 == 6,
            is_undefined_weak: st_info >> 4 == 2 && st_shndx == 0,
        }
    }
}

impl Relocation {
    /// A relocation of a section, which refers to an input offset of the run, as the fields `target`
    /// and `may_compress` say.
    #[must_use]
    #[inline]
    pub const fn new(relocation: Rela, target: Option<u64>, may_compress: bool) -> Relocation {
        Relocation {
            offset: relocation.offset,
            r_type: relocation.r_type,
            has_symbol: relocation.symbol != 0,
            addend: relocation.addend,
            target,
            may_compress,
        }
    }
}

impl Alignment {
    /// The alignment before a section of a run, from the end of what is before it on: with so many nops
    /// that the section is aligned wherever that ends. The section begins `nops` bytes above `offset`.
    ///
    /// # Requires
    ///
    /// - `alignment` is a power of two, at most `1 << 31`.
    ///
    /// ```
    /// use linker_utils::runs::Alignment;
    ///
    /// assert_eq!(Alignment::before(0x1006, 16).nops, 26);
    /// ```
    #[must_use]
    #[inline]
    pub const fn before(offset: u64, alignment: u64) -> Alignment {
        debug_assert!(alignment.is_power_of_two() && alignment <= 1 << 31);
        let nops = (offset.wrapping_neg() & (alignment - 1)) + alignment;
        Alignment { offset, nops: nops as u32, alignment, max_skip: None }
    }
}

/// A section of addresses of an object, as
/// [`Target::address_section`](crate::output::Target::address_section) names it.
#[derive(Debug, Clone, Copy, Default, PartialEq, Eq, Hash)]
pub struct Words<'a> {
    /// Its address.
    pub address: u64,
    /// Its relocations, as a section's, ascending by offset.
    pub relocations: &'a [u8],
    /// Which words stay, by [`survey_toc_loads`](crate::rewriting::survey_toc_loads): an
    /// element for each relocation.
    pub kept: &'a [bool],
}

/// A run of code that is relaxed, or what lies in one section of it.
#[derive(Debug, Clone, Copy, PartialEq, Eq, Hash)]
pub struct Run<'a> {
    /// The run's address.
    pub start: u64,
    /// Its items.
    pub items: &'a [ItemNumbers],
    /// What the run loses.
    pub deltas: &'a [RelaxDelta],
}

/// The first relocation of a section whose value isn't written.
#[derive(Debug, Clone, Copy, PartialEq, Eq, Hash)]
pub struct SectionError {
    /// Its index.
    pub index: usize,
    /// Why it isn't.
    pub error: RelocationError,
    /// The value, and those that can be written, where the value is out of the relocation's reach
    /// or isn't aligned.
    pub rejected: Option<WriteError>,
}

/// Why the values of a section whose instructions were rewritten aren't written.
#[cfg_attr(not(exhaustive), non_exhaustive)]
#[derive(Debug, Clone, Copy, PartialEq, Eq, Hash)]
pub enum WritingError {
    /// The tables of facts and of addresses contradict each other about the symbol with this index,
    /// as [`RewritingError::Contradiction`](crate::rewriting::RewritingError::Contradiction) says.
    Contradiction(usize),
    /// Of the symbol of the relocation with this index other facts hold than those that are kept,
    /// or none are kept.
    Changed(usize),
    /// The relocation with this index is an `R_PPC64_REL24` of a function of another file, which
    /// may return with another TOC pointer, and whose symbol has no stub that keeps the caller's.
    NeedsStub(usize),
    /// A value isn't written, as [`relocate_section`](crate::section::relocate_section()) says.
    Section(SectionError),
}

/// An error of a section that is as before, with the value that isn't written.
#[cold]
fn explained<S: Symbols>(
    architecture: Architecture,
    addresses: &Addresses,
    relocations: &[u8],
    symbols: S,
    found: sections::SectionError,
) -> SectionError {
    let rejected = || {
        let RelocationError::Write(error) = found.error else {
            return None;
        };
        let (index, relocation) = (found.index, relocation_at(relocations, found.index)?);
        let valued =
            sections::row_value(architecture, addresses, relocations, symbols, index, &relocation);
        let (row, value) = valued.ok()??;
        let is_told = match error {
            RelocateError::Misaligned => true,
            RelocateError::OutOfReach => !row.reach().contains(value),
            _ => false,
        };
        // a value that composes with others is another one
        let is_rejected = row.write(value, [0; 16].get_mut(..row.window())?) == Err(error);
        (is_told && is_rejected).then(|| WriteError::new(&row, value, error))
    };
    SectionError {
        index: found.index,
        error: found.error,
        rejected: rejected(),
    }
}

/// Writes the values of a section's relocations, `value`'s. Bytes that are in no relocation's field
/// stay. `memory` is for its work: as many elements as [`memory_len`](crate::section::memory_len()) says, with any numbers.
///
/// The bytes that a relocation writes are its field. Relocations whose fields overlap have to
/// compose: to be at one offset and, in their order,
///
/// - to change the number that those before them set or change, in as many bytes (`R_RISCV_SET8`,
///   `R_RISCV_ADD8`, `R_RISCV_SUB8` and those of 16, 32 and 64 bits, LoongArch's of these names and
///   of 24 bits; and `R_RISCV_SET6`, `R_RISCV_SUB6`, `R_LARCH_ADD6` and `R_LARCH_SUB6`), or
/// - to be a pair at a ULEB128 number, next to each other.
///
/// A relocation without a value, as `R_RISCV_RELAX`, has no field. Where code would be wrong with
/// its value, it isn't written (`NotAligned`, `NeedsStub`, `OtherLength`, `OutOfReach`). A linker
/// that removes the nops of an alignment itself sets the relocation's `r_type` to 0. n relocations
/// that ascend by offset take time in proportion to n, also most that are two such lists, one after
/// the other. In any other order their indexes are sorted in `memory` first, and the time is in
/// proportion to n log n; each low part of RISC-V then takes up to n more.
///
/// # Errors
///
/// Nothing is written, and the error has the least index of a relocation that has no value, whose
/// field overlaps that of an earlier one with which it doesn't compose, whose instruction has
/// another length, or whose value can't be written, and the first of these that applies.
///
/// ```
/// use linker_utils::elf::Architecture;
/// use linker_utils::section::{Link, Object, Section, Symbol, memory_len, relocate_section};
///
/// // call f, with R_X86_64_PLT32 of symbol 1 at offset 1, whose addend is -4
/// let mut relocations = [0; 24];
/// (relocations[0], relocations[8], relocations[12]) = (1, 4, 1);
/// relocations[16..].copy_from_slice(&(-4i64).to_le_bytes());
/// let mut call = [0xe8, 0, 0, 0, 0];
/// let link = Link::new(Architecture::X86_64);
/// let mut values = [Symbol::default(), Symbol { address: 0x402005, ..Symbol::default() }];
/// let object = Object { values: &values, ..Object::default() };
/// let section = Section::new(&mut call, &relocations);
/// let mut section = Section { address: 0x401000, ..section };
/// let mut memory = [0; 1];
/// assert_eq!(memory_len(&relocations), 1);
/// relocate_section(&link, &object, &mut section, &mut memory).unwrap();
/// assert_eq!(section.bytes, &[0xe8, 0x00, 0x10, 0, 0]);
///
/// // the error says which value isn't written
/// values[1].address = 1 << 40;
/// let object = Object { values: &values, ..Object::default() };
/// let error = relocate_section(&link, &object, &mut section, &mut memory).unwrap_err();
/// assert_eq!((error.index, error.rejected.unwrap().value), (0, (1 << 40) - 0x401005));
/// ```
///
/// # Requires
///
/// - memory: `memory_len(section.relocations) <= memory.len()`
#[inline]
#[cfg_attr(debug_assertions, track_caller)]
pub fn relocate_section<B: AsMut<[u8]>, R: AsRef<[u8]>>(
    link: &Link,
    object: &Object<'_>,
    section: &mut Section<B, R>,
    memory: &mut [u64],
) -> Result<(), SectionError> {
    let (architecture, addresses) = (link.architecture, link.addresses(section.address));
    let (relocations, bytes) = (section.relocations.as_ref(), section.bytes.as_mut());
    let symbols = object.values;
    sections::relocate_section(architecture, &addresses, relocations, symbols, bytes, memory)
        .map_err(|found| {
            let symbols = ByIndex { symbols };
            explained(architecture, &addresses, relocations, symbols, found)
        })
}

/// Writes the values of a section's relocations as [`relocate_section`](crate::section::relocate_section()), with what a look-up returns
/// for each relocation in place of a table of symbols. So a symbol may have several stubs, each for
/// the branches near it, S may depend on the addend, as of merged strings, and a relocation may be
/// left out.
///
/// A low part of RISC-V takes what is known of its own symbol, the label, and with it what is known
/// of the high part's relocation. The field of a relocation that is left out counts as that of any
/// other: one that overlaps it is an error.
///
/// # Errors
///
/// Those of [`relocate_section`](crate::section::relocate_section()). `NoSymbol` is a relocation of which the look-up knows nothing.
///
/// ```
/// use linker_utils::elf::Architecture;
/// use linker_utils::section::{Link, Lookup, Rela, Resolved, Section, relocate_resolved};
///
/// /// Two functions, one with a stub that is used from offset 4 on.
/// #[derive(Clone, Copy)]
/// struct Functions<'a> {
///     addresses: &'a [u64],
/// }
///
/// impl Lookup for Functions<'_> {
///     fn resolved(self, _: usize, relocation: &Rela) -> Option<Resolved> {
///         let address = *self.addresses.get(relocation.symbol as usize)?;
///         let stub = if relocation.offset < 4 { 0 } else { 0x400800 };
///         Some(Resolved { address, stub, ..Resolved::default() })
///     }
/// }
///
/// // bl f; bl f, with R_AARCH64_CALL26 (283) of symbol 1
/// let mut relocations = [0; 48];
/// (relocations[8], relocations[9], relocations[12]) = (27, 1, 1);
/// (relocations[24], relocations[32], relocations[33], relocations[36]) = (4, 27, 1, 1);
/// let mut code = [0, 0, 0, 0x94, 0, 0, 0, 0x94];
/// let section = Section::new(&mut code, &relocations);
/// let mut section = Section { address: 0x400000, ..section };
/// let functions = Functions { addresses: &[0, 0x401000] };
/// let link = Link::new(Architecture::AArch64);
/// relocate_resolved(&link, functions, &mut section, &mut [0; 2]).unwrap();
/// assert_eq!(code, [0, 4, 0, 0x94, 0xff, 1, 0, 0x94]);
/// ```
///
/// # Requires
///
/// - memory: `memory` has at least `memory_len(section.relocations)` words
#[inline]
#[cfg_attr(debug_assertions, track_caller)]
pub fn relocate_resolved<L: Lookup, B: AsMut<[u8]>, R: AsRef<[u8]>>(
    link: &Link,
    lookup: L,
    section: &mut Section<B, R>,
    memory: &mut [u64],
) -> Result<(), SectionError> {
    let (architecture, addresses) = (link.architecture, link.addresses(section.address));
    let (relocations, bytes) = (section.relocations.as_ref(), section.bytes.as_mut());
    resolved::relocate_resolved(architecture, &addresses, relocations, lookup, bytes, memory)
        .map_err(|found| {
            let symbols = ByLookup { lookup };
            explained(architecture, &addresses, relocations, symbols, found)
        })
}

/// What the proved functions choose rewrites by in a phase.
macro_rules! context {
    ($link:ident, $object:ident, $section:ident, $phase:expr) => {
        &RelaxContext {
            architecture: $link.architecture,
            phase: $phase,
            output: &$link.output(),
            symbols: $object.facts,
            addresses: &$link.addresses($section.address),
            values: $object.values,
        }
    };
}

/// Notes which groups of an object stay as they are, since a relocation of this section is of them
/// and has no rewrite: its instruction is none that a rewrite is meant for, its symbol may be of
/// another file, or what the rewrite takes along isn't there. [`rewrite_section`](crate::rewriting::rewrite_section()) rewrites all of a
/// group or none by these notes, so survey each section of code of an object before one of them is
/// rewritten, with one table for the object, whose entries are `UnrelaxableGroups::default()` at
/// first. What is noted there already is kept. A group is unrelaxable too where the table has no
/// entry for its symbol.
///
/// An offset in the module's TLS block that stands in data counts from the block, also where code
/// no longer does. Where data of the object has one that is loaded, as `R_X86_64_DTPOFF64`, note
/// `local_dynamic` at index 0.
///
/// ```
/// use linker_utils::elf::Architecture;
/// use linker_utils::rewriting::{UnrelaxableGroups, SymbolFacts, survey};
/// use linker_utils::section::{Link, Object, Section};
///
/// // nop, with R_X86_64_TLSDESC_CALL of symbol 1: not a call by a descriptor
/// let mut relocations = [0; 24];
/// (relocations[8], relocations[12]) = (35, 1);
/// let link = Link { is_executable: true, is_fixed: true, ..Link::new(Architecture::X86_64) };
/// let object = Object { facts: &[SymbolFacts::default(); 2], ..Object::default() };
/// let mut kept = [UnrelaxableGroups::default(); 2];
/// survey(&link, &object, &Section::new([0x90], relocations), &mut kept);
/// let none = UnrelaxableGroups::default();
/// assert_eq!(kept, [none, UnrelaxableGroups { descriptor: true, ..none }]);
/// ```
#[inline]
pub fn survey<B: AsRef<[u8]>, R: AsRef<[u8]>>(
    link: &Link,
    object: &Object<'_>,
    section: &Section<B, R>,
    kept: &mut [UnrelaxableGroups],
) {
    surveys::survey(
        link.architecture,
        &link.output(),
        object.facts,
        section.relocations.as_ref(),
        section.bytes.as_ref(),
        kept,
    );
}

/// Rewrites the instructions of a section of code as `choose` says before addresses are known, and
/// turns its relocations into those after it. It decides by all of the section's bytes before it
/// rewrites one.
///
/// An instruction whose relocation is [`Scope::Independent`](crate::rewriting::Scope::Independent) is rewritten where it can be. Those of a
/// group are all rewritten, or none is where the group stays by `unrelaxable_groups`, which [`survey`](crate::rewriting::survey()) made of all
/// sections of code of the object with the same facts. One whose relocation's symbol isn't in the
/// table isn't rewritten. Nothing is deleted.
///
/// Since no address is known, a value after a rewrite may turn out to be out of reach. What this
/// call doesn't rewrite, a linker may rewrite by `choose`.
///
/// A value out of reach is an error of [`relocate_section`](crate::section::relocate_section()), with two exceptions, both of LoongArch.
/// What its load from the GOT becomes takes any distance (`R_LARCH_PCALA_HI20`), and what its
/// initial-exec TLS and descriptors become takes any offset from the thread pointer
/// (`R_LARCH_TLS_LE_HI20`). Nothing tests that 32 signed bits hold these. So a load from the GOT
/// becomes a distance only by `has_near_symbols` of the output, and that of an absolute symbol
/// never does. Where 32 bits may not hold the offset of a thread-local symbol, note its
/// `initial_exec`, `general_dynamic` and `descriptor` in `unrelaxable_groups` before the rewrite.
///
/// # Errors
///
/// Relocations of instructions that can be rewritten have to ascend by offset (`Overlaps`). All
/// others may be in any order.
///
/// ```
/// use linker_utils::elf::Architecture;
/// use linker_utils::rewriting::{DecisionNumbers, UnrelaxableGroups, SymbolFacts, rewrite_section};
/// use linker_utils::section::{Link, Object, Section};
///
/// // call *f@GOTPCREL(%rip), with R_X86_64_GOTPCRELX of symbol 1 at 2, becomes addr32 call f
/// let mut relocations = [0; 24];
/// (relocations[0], relocations[8], relocations[12]) = (2, 41, 1);
/// relocations[16..].copy_from_slice(&(-4i64).to_le_bytes());
/// let mut section = Section::new([0xff, 0x15, 0, 0, 0, 0], relocations);
/// let link = Link {
///     is_executable: true,
///     has_near_symbols: true,
///     ..Link::new(Architecture::X86_64)
/// };
/// let object = Object {
///     facts: &[SymbolFacts::default(), SymbolFacts { is_local: true, ..SymbolFacts::default() }],
///     unrelaxable_groups: &[UnrelaxableGroups::default(); 2],
///     ..Object::default()
/// };
/// rewrite_section(&link, &object, &mut section, &mut [DecisionNumbers::default()]).unwrap();
/// assert_eq!(section.bytes, [0x67, 0xe8, 0, 0, 0, 0]);
/// // R_X86_64_PC32
/// assert_eq!(section.relocations[8], 2);
/// ```
#[inline]
pub fn rewrite_section<B: AsMut<[u8]>, R: AsMut<[u8]>>(
    link: &Link,
    object: &Object<'_>,
    section: &mut Section<B, R>,
    decisions: &mut [DecisionNumbers],
) -> Result<(), RewritingError> {
    crate::linker_rewriting::sections::rewrite_section(
        link.architecture,
        &link.output(),
        object.facts,
        object.unrelaxable_groups,
        section.relocations.as_mut(),
        section.bytes.as_mut(),
        decisions,
    )
}

/// Decides what [`rewrite_section`](crate::rewriting::rewrite_section()) would do, and writes nothing but `decisions`. So a linker can
/// decide while it scans inputs that it maps read-only, once all sections of code of the object are
/// surveyed, and other sections may be decided by other threads at the same time. [`make_rewrites`](crate::rewriting::make_rewrites())
/// makes the decisions, once the section is copied to the output.
///
/// What a relocation still requires is that of its type afterwards: the choice's `relocation`, and
/// nothing of one that is [`Decision::Consumed`](crate::rewriting::Decision::Consumed). None is [`Decision::RewrittenWithSymbol`](crate::rewriting::Decision::RewrittenWithSymbol).
///
/// No decision depends on an address. A branch is rewritten by its symbol's facts alone: AArch64's
/// to an undefined weak symbol becomes a `nop`. The `nop` after PowerPC64's call restores the TOC
/// pointer where its function may change it. So a linker may still choose a stub as the target of a
/// branch that keeps its relocation.
///
/// # Errors
///
/// Those of [`rewrite_section`](crate::rewriting::rewrite_section()).
///
/// ```
/// use linker_utils::elf::Architecture;
/// use linker_utils::rewriting::{DecisionError, DecisionNumbers};
/// use linker_utils::rewriting::{UnrelaxableGroups, SymbolFacts, decide_rewrites, make_rewrites};
/// use linker_utils::section::{Link, Object, Section};
///
/// // call *f@GOTPCREL(%rip), with R_X86_64_GOTPCRELX of symbol 1 at 2, becomes addr32 call f
/// let mut relocations = [0; 24];
/// (relocations[0], relocations[8], relocations[12]) = (2, 41, 1);
/// relocations[16..].copy_from_slice(&(-4i64).to_le_bytes());
/// let input = Section::new([0xff, 0x15, 0, 0, 0, 0], relocations);
/// let link = Link {
///     is_executable: true,
///     has_near_symbols: true,
///     ..Link::new(Architecture::X86_64)
/// };
/// let object = Object {
///     facts: &[SymbolFacts::default(), SymbolFacts { is_local: true, ..SymbolFacts::default() }],
///     unrelaxable_groups: &[UnrelaxableGroups::default(); 2],
///     ..Object::default()
/// };
/// let mut decisions = [DecisionNumbers::default()];
/// decide_rewrites(&link, &object, &input, &mut decisions).unwrap();
///
/// let mut output = Section::new(input.bytes, input.relocations);
/// assert_eq!(make_rewrites(&mut output, &decisions), Ok(()));
/// assert_eq!(output.bytes, [0x67, 0xe8, 0, 0, 0, 0]);
/// // R_X86_64_PC32
/// assert_eq!(output.relocations[8], 2);
/// // the instruction isn't the one that was decided on
/// assert_eq!(make_rewrites(&mut output, &decisions), Err(DecisionError::Changed(0)));
/// ```
#[inline]
pub fn decide_rewrites<B: AsRef<[u8]>, R: AsRef<[u8]>>(
    link: &Link,
    object: &Object<'_>,
    section: &Section<B, R>,
    decisions: &mut [DecisionNumbers],
) -> Result<(), RewritingError> {
    crate::linker_rewriting::sections::decide_rewrites(
        link.architecture,
        &link.output(),
        object.facts,
        object.unrelaxable_groups,
        section.relocations.as_ref(),
        section.bytes.as_ref(),
        decisions,
    )
}

/// Makes decisions of [`decide_rewrites`](crate::rewriting::decide_rewrites()): rewrites the instructions of a section, or of a copy, and
/// turns its relocations into those after it. Section and relocations then are what
/// [`rewrite_section`](crate::rewriting::rewrite_section()) leaves.
///
/// The relocations have to be those that were decided on, with their offsets in this section: it is
/// called before values are written, and before the section is packed. Where these and the section
/// are unchanged, it returns no error. Each byte that a rewrite overwrites is tested, by a number
/// of 32 bits that is kept with the decision. It is another one where one of the bytes is, and of
/// up to four bytes it is those bytes (`laws::decisions_are_made`).
///
/// Any decisions are accepted that pass the tests below, whoever made them. With
/// [`Decision::RewrittenWithSymbol`](crate::rewriting::Decision::RewrittenWithSymbol), which [`decide_rewrites`](crate::rewriting::decide_rewrites()) never decides, no number is kept. What
/// isn't tested is what is decided by other relocations: that a group is whole, and that no rewrite
/// changes another relocation's field.
///
/// # Errors
///
/// `TooShort`, or else the error of the first relocation that has one.
#[inline]
pub fn make_rewrites<B: AsMut<[u8]>, R: AsMut<[u8]>>(
    section: &mut Section<B, R>,
    decisions: &[DecisionNumbers],
) -> Result<(), DecisionError> {
    crate::linker_rewriting::sections::make_rewrites(
        section.relocations.as_mut(),
        section.bytes.as_mut(),
        decisions,
    )
}

/// Notes which groups of an object stay in a phase once addresses are known, by a section, as
/// [`survey`](crate::rewriting::survey()) does before, for [`rewrite_placed_section`](crate::rewriting::rewrite_placed_section()): there is one table for the object and the
/// phase. A group stays too where `facts` or `values` has no entry for its symbol. Relocations of
/// a label of RISC-V aren't surveyed: all of a label are in one section.
///
/// # Errors
///
/// `kept` is as before. The index of the first symbol that is a [`RewritingError::Contradiction`](crate::rewriting::RewritingError::Contradiction).
///
/// ```
/// use linker_utils::elf::Architecture;
/// use linker_utils::rewriting::{UnrelaxableGroups, Phase, SymbolFacts, survey_placed_section};
/// use linker_utils::section::{Link, Object, Section, Symbol};
///
/// // lui a0, 0, with R_RISCV_TPREL_HI20 of symbol 1, which no mark follows
/// let mut relocations = [0; 24];
/// (relocations[8], relocations[12]) = (29, 1);
/// let section = Section::new([0x37, 0x05, 0, 0], relocations);
/// let link = Link { is_executable: true, is_fixed: true, ..Link::new(Architecture::RiscV) };
/// let object = Object {
///     facts: &[SymbolFacts { is_local: true, ..SymbolFacts::default() }; 2],
///     values: &[Symbol::default(); 2],
///     ..Object::default()
/// };
/// let mut kept = [UnrelaxableGroups::default(); 2];
/// survey_placed_section(&link, &object, &section, Phase::TlsLocalExec, &mut kept).unwrap();
/// assert!(kept[1].initial_exec);
/// ```
#[inline]
pub fn survey_placed_section<B: AsRef<[u8]>, R: AsRef<[u8]>>(
    link: &Link,
    object: &Object<'_>,
    section: &Section<B, R>,
    phase: Phase,
    kept: &mut [UnrelaxableGroups],
) -> Result<(), usize> {
    surveys::survey_placed_section(
        context!(link, object, section, phase),
        section.relocations.as_ref(),
        section.bytes.as_ref(),
        kept,
    )
}

/// Rewrites the instructions of a section of code in a phase, once addresses are known, and turns
/// its relocations into those after it, as [`rewrite_section`](crate::rewriting::rewrite_section()) does before. What is in the way of a
/// group, as a distance out of reach or a missing mark, keeps all of it, by the table that
/// [`survey_placed_section`](crate::rewriting::survey_placed_section()) made of all sections of code of the object for the phase with the same
/// facts and addresses.
///
/// Each address has to be that by which values are written later, or differ from it by less than
/// the reach that is left: a linker that deletes bytes afterwards makes distances shorter, never
/// longer.
///
/// Bytes that are to be deleted are listed in `deleted`, ascending, as [`SectionRelaxDeltas::new`](crate::relaxation::SectionRelaxDeltas::new) of
/// `relaxation` takes their pairs. They are in the section, apart from each other and
/// from all that is rewritten, and still there. [`Phase::TlsLocalExec`](crate::rewriting::Phase::TlsLocalExec) alone has any. Returns how
/// many there are.
///
/// - `TlsLocalExec`: where an offset from the thread pointer has 12 bits, RISC-V's and LoongArch's
///   `lui` and `add` of it are deleted, and loads and stores are over the thread pointer; where it
///   has 16 bits, PowerPC64's `addis` becomes a `nop`. An instruction of RISC-V and LoongArch has
///   to be marked for that. RISC-V's TLS descriptors become such offsets too, all of a label or
///   none: what is left out is deleted where the high part is marked, and a `nop` elsewhere. Their
///   relocations are then of the symbol and the addend of the high part
///   ([`Decision::RewrittenWithSymbol`](crate::rewriting::Decision::RewrittenWithSymbol)).
/// - `GotToPcRel`: AArch64's loads of an address from the GOT become `adrp` and `add`, where both
///   relocations are next to each other and have no addend. RISC-V's become `auipc` and `addi`,
///   where all of a label are marked, or of an address that is fixed while the distance isn't `lui`
///   and `addi`, whose low parts are then of the symbol and the addend of the high part.
/// - `ShortPcRel`: AArch64's `adrp` and `add` next to each other become `nop` and `adr`. Where a
///   distance from the TOC pointer has 16 bits, PowerPC64's `addis` becomes a `nop`, and what reads
///   it is over the TOC pointer.
///
/// # Errors
///
/// Those of [`rewrite_section`](crate::rewriting::rewrite_section()), and before them `Contradiction`, of the first such symbol; an
/// undefined weak symbol that the dynamic linker may define is none.
///
/// ```
/// use linker_utils::elf::Architecture;
/// use linker_utils::rewriting::{
///     DecisionNumbers, Deletion, Phase, SymbolFacts, UnrelaxableGroups, rewrite_placed_section,
/// };
/// use linker_utils::section::{Link, Object, Section, Symbol};
///
/// // adrp x0, x and add x0, x0, :lo12:x, at 0x1000, where x is at 0x2004, become nop and adr x0, x
/// let mut relocations = [0; 48];
/// for (index, offset, code) in [(0, 0, 275u32), (1, 4, 277)] {
///     relocations[24 * index] = offset;
///     relocations[24 * index + 8..][..4].copy_from_slice(&code.to_le_bytes());
///     relocations[24 * index + 12] = 1;
/// }
/// let section = Section::new([0, 0, 0, 0x90, 0, 0, 0, 0x91], relocations);
/// let mut section = Section { address: 0x1000, ..section };
/// let link = Link { is_executable: true, is_fixed: true, ..Link::new(Architecture::AArch64) };
/// let object = Object {
///     facts: &[SymbolFacts { is_local: true, ..SymbolFacts::default() }; 2],
///     values: &[Symbol::default(), Symbol { address: 0x2004, ..Symbol::default() }],
///     unrelaxable_groups: &[UnrelaxableGroups::default(); 2],
///     ..Object::default()
/// };
/// let (decisions, deleted) = (&mut [DecisionNumbers::default(); 2], &mut [Deletion::default(); 0]);
/// let phase = Phase::ShortPcRel;
/// let count = rewrite_placed_section(&link, &object, &mut section, phase, decisions, deleted);
/// assert_eq!(count, Ok(0));
/// assert_eq!(section.bytes, [0x1f, 0x20, 0x03, 0xd5, 0, 0, 0, 0x10]);
/// // R_AARCH64_ADR_PREL_LO21, and no relocation of the nop
/// assert_eq!((section.relocations[8], section.relocations[9]), (0, 0));
/// assert_eq!((section.relocations[32], section.relocations[33]), (0x12, 1));
/// ```
#[inline]
pub fn rewrite_placed_section<B: AsMut<[u8]>, R: AsMut<[u8]>>(
    link: &Link,
    object: &Object<'_>,
    section: &mut Section<B, R>,
    phase: Phase,
    decisions: &mut [DecisionNumbers],
    deleted: &mut [Deletion],
) -> Result<usize, RewritingError> {
    crate::linker_rewriting::sections::rewrite_placed_section(
        context!(link, object, section, phase),
        object.unrelaxable_groups,
        section.relocations.as_mut(),
        section.bytes.as_mut(),
        decisions,
        deleted,
    )
}

/// Notes which words of an object's section of addresses stay, since a relocation of this section
/// of code is of an instruction that loads one and can't compute its address: it is none that the
/// rewrite is meant for, the address may be of another file or in another place each time, or it is
/// out of reach. As with [`survey`](crate::rewriting::survey()) there is one table, for the section of addresses, all of whose
/// elements are false at first. A word without an element stays.
///
/// `words.relocations` are the relocations of the section of addresses, as `output`'s description names
/// it, and have to ascend by offset; `kept` has an element for each. `words.address` is its address.
/// A relocation is of a word where it refers to its address, whichever its symbol.
///
/// # Errors
///
/// `kept` is as before. The index of the first symbol that is a [`RewritingError::Contradiction`](crate::rewriting::RewritingError::Contradiction).
/// Those of words are compared by the call that writes the words' values by both tables.
///
/// ```
/// use linker_utils::elf::Architecture;
/// use linker_utils::rewriting::{SymbolFacts, Words, survey_toc_loads};
/// use linker_utils::section::{Link, Object, Section, Symbol};
///
/// // lwz 3,.toc@toc@l(3), with R_PPC64_TOC16_LO_DS of `.toc`, whose word is that of symbol 2: no
/// // load of an address
/// let relocation = |code: u8, symbol: u8| {
///     let mut bytes = [0; 24];
///     (bytes[8], bytes[12]) = (code, symbol);
///     bytes
/// };
/// let section = Section::new([0, 0, 0x63, 0x80], relocation(64, 1));
/// let link = Link { is_executable: true, is_fixed: true, ..Link::new(Architecture::Ppc64) };
/// let link = Link { got_base: 0x1_8000, ..link };
/// let object = Object {
///     facts: &[SymbolFacts { is_local: true, ..SymbolFacts::default() }; 3],
///     values: &[0, 0x1_0000, 0x1_2345].map(|address| Symbol { address, ..Symbol::default() }),
///     ..Object::default()
/// };
/// let words = Words { address: 0x1_0000, relocations: &relocation(38, 2), kept: &[] };
/// let mut kept = [false];
/// survey_toc_loads(&link, &object, &section, &words, &mut kept).unwrap();
/// assert_eq!(kept, [true]);
/// ```
#[inline]
pub fn survey_toc_loads<B: AsRef<[u8]>, R: AsRef<[u8]>>(
    link: &Link,
    object: &Object<'_>,
    section: &Section<B, R>,
    words: &Words<'_>,
    kept: &mut [bool],
) -> Result<(), usize> {
    toc_indirection::survey_toc_loads(
        context!(link, object, section, Phase::ShortPcRel),
        words.address,
        words.relocations,
        section.relocations.as_ref(),
        section.bytes.as_ref(),
        kept,
    )
}

/// Has the instructions of a section of code compute the addresses that they load from the words of
/// an object's section of addresses, and turns their relocations into those after it, once
/// addresses are known. They are then of the symbol and the addend of the word's relocation
/// ([`Decision::RewrittenWithSymbol`](crate::rewriting::Decision::RewrittenWithSymbol)). All loads of a word are rewritten, or none is where the word
/// stays by `words.kept`, which [`survey_toc_loads`](crate::rewriting::survey_toc_loads()) made of all sections of code of the object with the
/// same context and `words`. It decides by all of the section's bytes before it rewrites one.
/// Nothing is deleted, and `decisions` are as [`rewrite_section`](crate::rewriting::rewrite_section()) has them.
///
/// # Errors
///
/// The section and its relocations are as before. `Contradiction` comes first.
///
/// ```
/// use linker_utils::elf::Architecture;
/// use linker_utils::rewriting::{DecisionNumbers, SymbolFacts, Words, rewrite_toc_loads};
/// use linker_utils::section::{Link, Object, Section, Symbol};
///
/// // addis 3,2,.toc@toc@ha and ld 3,.toc@toc@l(3), where the word at the start of `.toc` is that
/// // of symbol 2, become addis 3,2,x@toc@ha and addi 3,3,x@toc@l
/// let relocation = |offset: u8, code: u8, symbol: u8| {
///     let mut bytes = [0; 24];
///     (bytes[0], bytes[8], bytes[12]) = (offset, code, symbol);
///     bytes
/// };
/// let relocations = [relocation(0, 50, 1), relocation(4, 64, 1)].concat();
/// let mut section = Section::new([0, 0, 0x62, 0x3c, 0, 0, 0x63, 0xe8], relocations);
/// let link = Link { is_executable: true, is_fixed: true, ..Link::new(Architecture::Ppc64) };
/// let link = Link { got_base: 0x1_8000, ..link };
/// let object = Object {
///     facts: &[SymbolFacts { is_local: true, ..SymbolFacts::default() }; 3],
///     values: &[0, 0x1_0000, 0x1_2345].map(|address| Symbol { address, ..Symbol::default() }),
///     ..Object::default()
/// };
/// let words = Words { address: 0x1_0000, relocations: &relocation(0, 38, 2), kept: &[false] };
/// let mut decisions = [DecisionNumbers::default(); 2];
/// rewrite_toc_loads(&link, &object, &mut section, &words, &mut decisions).unwrap();
/// assert_eq!(section.bytes, [0, 0, 0x62, 0x3c, 0, 0, 0x63, 0x38]);
/// // R_PPC64_TOC16_HA and R_PPC64_TOC16_LO, both of symbol 2
/// assert_eq!((section.relocations[8], section.relocations[12]), (50, 2));
/// assert_eq!((section.relocations[32], section.relocations[36]), (48, 2));
/// ```
#[inline]
pub fn rewrite_toc_loads<B: AsMut<[u8]>, R: AsMut<[u8]>>(
    link: &Link,
    object: &Object<'_>,
    section: &mut Section<B, R>,
    words: &Words<'_>,
    decisions: &mut [DecisionNumbers],
) -> Result<(), RewritingError> {
    toc_indirection::rewrite_toc_loads(
        context!(link, object, section, Phase::ShortPcRel),
        words.address,
        words.relocations,
        words.kept,
        section.relocations.as_mut(),
        section.bytes.as_mut(),
        decisions,
    )
}

/// Notes which symbols of an object keep the `lui` and `auipc` of their address, since a relocation
/// of this section of code is of such an instruction, or of a low part, and can't be rewritten: it
/// isn't marked by `R_RISCV_RELAX`, its instruction is another one, or S + A is near neither the
/// global pointer nor 0. All symbols of a section stay whose relocations don't ascend, and all
/// where the output isn't an executable that is always loaded at the address that it is linked for.
///
/// As with [`survey`](crate::rewriting::survey()) there is one table, with an element for each symbol of the object, all of which
/// are false at first. A symbol without an element stays.
///
/// # Errors
///
/// `kept` is as before. The index of the first symbol that is a [`RewritingError::Contradiction`](crate::rewriting::RewritingError::Contradiction).
///
/// ```
/// use linker_utils::elf::Architecture;
/// use linker_utils::rewriting::{SymbolFacts, survey_global_pointer};
/// use linker_utils::section::{Link, Object, Section, Symbol};
///
/// // lui a0, %hi(x), with R_RISCV_HI20 of symbol 1 and R_RISCV_RELAX, where x is 2,048 above gp
/// let mut relocations = [0; 48];
/// (relocations[8], relocations[12], relocations[32]) = (26, 1, 51);
/// let section = Section::new([0x37, 0x05, 0, 0], relocations);
/// let link = Link { is_executable: true, is_fixed: true, ..Link::new(Architecture::RiscV) };
/// let link = Link { global_pointer: 0x2_0800, ..link };
/// let object = Object {
///     facts: &[SymbolFacts { is_local: true, ..SymbolFacts::default() }; 2],
///     values: &[0, 0x2_1000].map(|address| Symbol { address, ..Symbol::default() }),
///     ..Object::default()
/// };
/// let mut kept = [false; 2];
/// survey_global_pointer(&link, &object, &section, &mut kept).unwrap();
/// assert_eq!(kept, [false, true]);
/// ```
#[cfg(feature = "riscv64")]
#[inline]
pub fn survey_global_pointer<B: AsRef<[u8]>, R: AsRef<[u8]>>(
    link: &Link,
    object: &Object<'_>,
    section: &Section<B, R>,
    kept: &mut [bool],
) -> Result<(), usize> {
    crate::linker_rewriting::global_pointer::survey_global_pointer(
        context!(link, object, section, Phase::ShortPcRel),
        link.global_pointer,
        section.relocations.as_ref(),
        section.bytes.as_ref(),
        kept,
    )
}

/// Has each `lui` and `auipc` of an address go whose symbol doesn't stay by `kept_high_parts`, once addresses
/// are known and before code gets shorter: [`survey_global_pointer`](crate::rewriting::survey_global_pointer()) made it of all sections of code
/// of the object with the same facts and addresses. The bytes stay as they are until what is listed
/// in `deleted`, each instruction of four bytes, is deleted: by their offset in the section and how
/// many they are, in the order of their relocations, which ascend. Returns how many there are.
///
/// The relocation of such an instruction gets the type 0. Those of the low parts of these symbols
/// get the symbol and the addend of the address and the type [`GPREL_I`](crate::rewriting::GPREL_I) or [`GPREL_S`](crate::rewriting::GPREL_S), which no other
/// call knows: [`finish_gp_relaxation`](crate::rewriting::finish_gp_relaxation()) writes the base of their instruction once all addresses are
/// final, and gives them the type whose value is then written. The `decisions` are as
/// [`rewrite_section`](crate::rewriting::rewrite_section()) has them.
///
/// The premise is that x3 is the address of `__global_pointer$` wherever the code of the section
/// runs, and never changes: what sets it isn't marked. An instruction that is deleted leaves its
/// register as it was, so that only low parts of the same symbol may read what it wrote.
///
/// # Errors
///
/// The relocations are as before. `Contradiction` comes first. `Overlaps`: low parts count as four
/// bytes that are rewritten, too.
///
/// ```
/// use linker_utils::elf::Architecture;
/// use linker_utils::rewriting::{DecisionNumbers, Deletion, GPREL_I};
/// use linker_utils::rewriting::{SymbolFacts, rewrite_global_pointer};
/// use linker_utils::section::{Link, Object, Section, Symbol};
///
/// // lui a0, %hi(x) and lw a0, %lo(x)(a0), both marked, where x is 2,047 above gp
/// let mut relocations = [0; 96];
/// for (at, offset, code) in [(0, 0, 26), (24, 0, 51), (48, 4, 27), (72, 4, 51)] {
///     (relocations[at], relocations[at + 8]) = (offset, code);
///     relocations[at + 12] = u8::from(code < 51);
/// }
/// let mut section = Section::new([0x37, 0x05, 0, 0, 0x03, 0x25, 0x05, 0], relocations);
/// let link = Link { is_executable: true, is_fixed: true, ..Link::new(Architecture::RiscV) };
/// let link = Link { global_pointer: 0x2_0800, ..link };
/// let object = Object {
///     facts: &[SymbolFacts { is_local: true, ..SymbolFacts::default() }; 2],
///     values: &[0, 0x2_0fff].map(|address| Symbol { address, ..Symbol::default() }),
///     kept_high_parts: &[false; 2],
///     ..Object::default()
/// };
/// let (mut decisions, mut deleted) = ([DecisionNumbers::default(); 4], [Deletion::default()]);
/// let count =
///     rewrite_global_pointer(&link, &object, &mut section, &mut decisions, &mut deleted);
/// assert_eq!((count, deleted), (Ok(1), [Deletion { offset: 0, bytes: 4 }]));
/// let codes = (section.relocations[8], u32::from(section.relocations[56]));
/// assert_eq!(codes, (0, GPREL_I));
/// ```
#[cfg(feature = "riscv64")]
#[inline]
pub fn rewrite_global_pointer<B: AsRef<[u8]>, R: AsMut<[u8]>>(
    link: &Link,
    object: &Object<'_>,
    section: &mut Section<B, R>,
    decisions: &mut [DecisionNumbers],
    deleted: &mut [Deletion],
) -> Result<usize, RewritingError> {
    crate::linker_rewriting::global_pointer::rewrite_global_pointer(
        context!(link, object, section, Phase::ShortPcRel),
        link.global_pointer,
        object.kept_high_parts,
        section.relocations.as_mut(),
        section.bytes.as_ref(),
        decisions,
        deleted,
    )
}

/// Writes the base of each low part that [`rewrite_global_pointer`](crate::rewriting::rewrite_global_pointer()) left without one, once all
/// addresses are final and nothing else of the section will be deleted, and before its values are
/// written: x0 where 12 bits hold S + A, and else x3. The relocation gets the type `R_RISCV_LO12_I`
/// or `R_RISCV_LO12_S`, and an addend that is less by what the base has, so that its value is the
/// distance from the base. Other relocations and other bytes stay.
///
/// # Errors
///
/// The section and its relocations are as before. The index of the first relocation whose S + A is
/// near neither `global_pointer` nor 0, whose symbol isn't in the table, or whose instruction isn't in the
/// section.
///
/// ```
/// use linker_utils::elf::Architecture;
/// use linker_utils::rewriting::{GPREL_I, finish_gp_relaxation};
/// use linker_utils::section::{Link, Object, Section, Symbol};
///
/// // lw a0, %lo(x)(a0), whose lui was deleted, becomes lw a0, 5(gp), where x is 5 above gp
/// let mut relocations = [0; 24];
/// relocations[8] = u8::try_from(GPREL_I).unwrap();
/// let mut section = Section::new([0x03, 0x25, 0x05, 0], relocations);
/// let link = Link { global_pointer: 0x2_0800, ..Link::new(Architecture::RiscV) };
/// let values = [Symbol { address: 0x2_0805, ..Symbol::default() }];
/// let object = Object { values: &values, ..Object::default() };
/// finish_gp_relaxation(&link, &object, &mut section).unwrap();
/// assert_eq!(section.bytes, [0x03, 0xa5, 0x01, 0]);
/// // R_RISCV_LO12_I, whose value is x - 0x20800
/// assert_eq!(section.relocations[8], 27);
/// assert_eq!(section.relocations[16..], (-0x2_0800i64).to_le_bytes());
/// ```
#[cfg(feature = "riscv64")]
#[inline]
pub fn finish_gp_relaxation<B: AsMut<[u8]>, R: AsMut<[u8]>>(
    link: &Link,
    object: &Object<'_>,
    section: &mut Section<B, R>,
) -> Result<(), usize> {
    crate::linker_rewriting::global_pointer::finish_gp_relaxation(
        &link.addresses(section.address),
        object.values,
        link.global_pointer,
        section.relocations.as_mut(),
        section.bytes.as_mut(),
    )
}

/// Keeps what choices read of an object's symbols and of the output. A linker calls this when it
/// chooses rewrites, with the facts that it passes to [`survey`](crate::rewriting::survey()) and [`rewrite_section`](crate::rewriting::rewrite_section()), and passes
/// what is kept to [`relocate_rewritten_section`](crate::rewriting::relocate_rewritten_section()).
///
/// # Requires
///
/// - room: `object.facts.len() == kept.len()`
#[inline]
#[cfg_attr(debug_assertions, track_caller)]
pub fn snapshot_facts(link: &Link, object: &Object<'_>, kept: &mut [FactsSnapshot]) {
    kept::snapshot_facts(&link.output(), object.facts, kept);
}

/// The index of the first relocation of whose symbol other facts hold than those that are kept;
/// none where all are the same. A relocation that a rewrite took along counts too: the facts of its
/// symbol were read.
#[must_use]
#[inline]
pub fn first_changed<B: AsRef<[u8]>, R: AsRef<[u8]>>(
    link: &Link,
    object: &Object<'_>,
    section: &Section<B, R>,
) -> Option<usize> {
    let (output, relocations) = (link.output(), section.relocations.as_ref());
    kept::first_changed(&output, object.facts, object.facts_snapshot, relocations)
}

/// Writes the values of a section whose instructions were rewritten, as [`relocate_section`](crate::section::relocate_section()) does,
/// where choices would still read the same facts: those of `link` hold now, and `facts_snapshot` are those
/// of [`snapshot_facts`](crate::rewriting::snapshot_facts()) when rewrites were chosen. So a symbol that was bound then and isn't any
/// more doesn't get code that bypasses its GOT entry. A relocation that needs an entry which the
/// linker hasn't made is an error of [`relocate_section`](crate::section::relocate_section()) (`NoEntry`). `memory` is that call's, and
/// the phase isn't read.
///
/// # Errors
///
/// The section is as before. The first of the list that applies, with the first such index.
///
/// ```
/// use linker_utils::elf::Architecture;
/// use linker_utils::rewriting::{
///     FactsSnapshot, SymbolFacts, WritingError, snapshot_facts, relocate_rewritten_section,
/// };
/// use linker_utils::section::{Link, Object, Section, Symbol};
///
/// // addr32 call f, with R_X86_64_PC32 of symbol 1 at 2, which was call *f@GOTPCREL(%rip)
/// let mut relocations = [0; 24];
/// (relocations[0], relocations[8], relocations[12]) = (2, 2, 1);
/// relocations[16..].copy_from_slice(&(-4i64).to_le_bytes());
/// let section = Section::new([0x67, 0xe8, 0, 0, 0, 0], relocations);
/// let mut section = Section { address: 0x1000, ..section };
/// let link = Link { is_executable: true, ..Link::new(Architecture::X86_64) };
/// let mut facts = [SymbolFacts::default(); 2];
/// facts[1].is_local = true;
/// let mut kept = [FactsSnapshot::default(); 2];
/// snapshot_facts(&link, &Object { facts: &facts, ..Object::default() }, &mut kept);
/// // another definition replaces f
/// facts[1].is_local = false;
/// let values = [Symbol::default(), Symbol { address: 0x2000, ..Symbol::default() }];
/// let object =
///     Object { facts: &facts, values: &values, facts_snapshot: &kept, ..Object::default() };
/// let written = relocate_rewritten_section(&link, &object, &mut section, &mut [0; 1]);
/// assert_eq!(written, Err(WritingError::Changed(0)));
/// assert_eq!(section.bytes, [0x67, 0xe8, 0, 0, 0, 0]);
/// ```
///
/// # Requires
///
/// - memory: `memory` has at least `memory_len(section.relocations)` words
#[inline]
#[cfg_attr(debug_assertions, track_caller)]
pub fn relocate_rewritten_section<B: AsMut<[u8]>, R: AsRef<[u8]>>(
    link: &Link,
    object: &Object<'_>,
    section: &mut Section<B, R>,
    memory: &mut [u64],
) -> Result<(), WritingError> {
    let (relocations, bytes) = (section.relocations.as_ref(), section.bytes.as_mut());
    kept::relocate_rewritten_section(
        context!(link, object, section, Phase::PreLayout),
        object.facts_snapshot,
        relocations,
        bytes,
        memory,
    )
    .map_err(|error| match error {
        kept::WritingError::Contradiction(symbol) => WritingError::Contradiction(symbol),
        kept::WritingError::Changed(index) => WritingError::Changed(index),
        kept::WritingError::NeedsStub(index) => WritingError::NeedsStub(index),
        kept::WritingError::Section(found) => WritingError::Section(explained(
            link.architecture,
            &link.addresses(section.address),
            relocations,
            ByIndex { symbols: object.values },
            found,
        )),
    })
}

/// The items that the relocations of a section make, in the relocations' order, and the index of
/// the relocation that makes each. The section begins at the input offset `section.base` of the run. The
/// other relocations make none.
///
/// **RISC-V.** `R_RISCV_CALL` and `R_RISCV_CALL_PLT` make a site where `R_RISCV_RELAX` is the next
/// relocation, at the same offset, the target is in the run, and the bytes are `auipc` and `jalr`
/// of one register. Its shapes are `TAIL_C` where the `jalr` links x0, or x1 on RV32, and the
/// relocation's `may_compress` is set, and else `CALL`. `R_RISCV_ALIGN` makes an alignment without
/// a limit, if there are nops: the addend is how many bytes they have, and the next power of two
/// above it what they align to (RISC-V ELF psABI, "Linker Relaxation").
///
/// Where fewer nops stand before an alignment than it may need at any even address, as the 12 bytes
/// that assemblers write for `.balign 16` in code without the C extension, the calls between it and
/// the alignment before it free only multiples of what has to divide its address: then no call
/// there has `TAIL_C`, and none is a site if that is more than 4.
///
/// **LoongArch.** Where `R_LARCH_RELAX` is the next relocation, at the same offset, and the target
/// is in the run, `R_LARCH_CALL36` makes a `CALL36` if the bytes are `pcaddu18i` and `jirl` of one
/// register and the `jirl` links `ra` or none. `R_LARCH_PCALA_HI20` makes a `PCALA` if after its
/// `R_LARCH_RELAX` are `R_LARCH_PCALA_LO12` of the next instruction, with the same target, and an
/// `R_LARCH_RELAX` there, and the bytes are `pcalau12i` and `addi.d` of one register.
///
/// `R_LARCH_ALIGN` makes an alignment, if there are nops. Without a symbol its addend is how many
/// bytes the nops have, and what they align to is the next power of two above it. With a symbol the
/// addend's lowest 8 bits are the exponent of two of what they align to, whose nops are 4 bytes
/// fewer. The other bits are its limit, the most bytes that may stay, if they are above 0 and below
/// the nops (LoongArch ELF psABI, "Relocations").
///
/// `Malformed` names the relocation that [`first_malformed`](crate::runs::first_malformed()) returns. The vectors grow as items are
/// added. [`are_items`](crate::runs::are_items()) returns whether the run can be relaxed.
///
/// # Requires
///
/// - `(section.base as u128) + (section.bytes.len() as u128) < 1 << 64`
#[inline]
#[cfg_attr(debug_assertions, track_caller)]
pub fn section_items<B: AsRef<[u8]>, S: AsRef<[u8]>, R: AsRelocation>(
    machine: Machine,
    section: &Section<B, S>,
    relocations: &[R],
) -> Result<SectionItems, ItemsError> {
    items::section_items(machine, section.bytes.as_ref(), section.base, relocations)
}

/// [`section_items`](crate::runs::section_items()) into memory of the caller's, which has an element of `items` and of `makers` for
/// each relocation, since each makes one item at most. It returns how many items there are; the
/// elements from there on are unchanged.
///
/// The error is the index that [`first_malformed`](crate::runs::first_malformed()) returns, and nothing is written then. It doesn't
/// allocate.
///
/// # Requires
///
/// - base: `(section.base as u128) + (section.bytes.len() as u128) < 1 << 64`
/// - one_each: `items.len() == relocations.len()`
/// - makers: `makers.len() == relocations.len()`
#[inline]
#[cfg_attr(debug_assertions, track_caller)]
pub fn section_items_into<B: AsRef<[u8]>, S: AsRef<[u8]>, R: AsRelocation>(
    machine: Machine,
    section: &Section<B, S>,
    relocations: &[R],
    items: &mut [ItemNumbers],
    makers: &mut [usize],
) -> Result<usize, usize> {
    let (bytes, base) = (section.bytes.as_ref(), section.base);
    items::section_items_into(machine, bytes, base, relocations, items, makers)
}

/// The items of a section that was rewritten, into memory of the caller's: those that its
/// relocations make, as [`section_items`](crate::runs::section_items()), and what rewrites delete. The section begins at the input
/// offset `section.base` of the run. Its bytes and relocations are as [`rewrite_section`](crate::rewriting::rewrite_section()) and
/// [`rewrite_placed_section`](crate::rewriting::rewrite_placed_section()) of `rewriting` left them; a relocation that has gone
/// has the type 0 and makes no item. `deleted` is what the latter lists: offsets in the section,
/// ascending, whose bytes are still there.
///
/// Each deletion is a site of which no byte stays (`fixed`). So [`relax`](crate::runs::relax()) counts distances over it,
/// `deletions` lists it, and [`pack_run`](crate::runs::pack_run()) leaves its bytes out.
///
/// The items ascend, and none begins below the end of the one before it. `items` and `makers` have an
/// element for each relocation and each deletion. The maker of an item is the index of its
/// relocation, or that of its deletion and as many more as there are relocations. Returns how many
/// items there are; the elements from there on are unchanged.
///
/// Whether code may be compressed is taken from `may_compress`, so from the `e_flags` of the
/// relocation's object: those of an output say that of all code.
///
/// # Errors
///
/// The first that applies. `Malformed` names the relocation that [`first_malformed`](crate::runs::first_malformed()) returns.
/// `Misplaced` names the first deletion that begins below the end of the one before it, or
/// doesn't lie in the section. Nothing is written then. `Overlaps` names a relocation whose
/// item begins below the end of that of an earlier relocation, or has deleted bytes: what is
/// written then isn't specified.
///
/// A target inside deleted bytes is no error here, since it may be another section's: [`relax`](crate::runs::relax()) says
/// `TargetInside` of the item. It doesn't allocate.
///
/// # Requires
///
/// - base: `(section.base as u128) + (section.bytes.len() as u128) < 1 << 64`
/// - room: `(items.len() as u128) == (relocations.len() as u128) + (deleted.len() as u128)`
/// - makers: `(makers.len() as u128) == (relocations.len() as u128) + (deleted.len() as u128)`
#[inline]
#[cfg_attr(debug_assertions, track_caller)]
pub fn rewritten_items_into<B: AsRef<[u8]>, S: AsRef<[u8]>, R: AsRelocation, L: AsDeletion>(
    machine: Machine,
    section: &Section<B, S>,
    relocations: &[R],
    deleted: &[L],
    items: &mut [ItemNumbers],
    makers: &mut [usize],
) -> Result<usize, RewrittenItemsError> {
    let (bytes, base) = (section.bytes.as_ref(), section.base);
    items::rewritten_items_into(machine, bytes, base, relocations, deleted, items, makers)
}

/// Packs a section of a relaxed run into memory of the caller's: the bytes that stay, in order,
/// with the instructions of its sites and the nops of its alignments written anew.
///
/// The section begins at the input offset `section.base` of the run. The run begins at the address `run.start`
/// and loses what `run.deltas` list, as [`relax`](crate::runs::relax()) returns it; addresses are modulo 2^64. `run.items` are all
/// of the run's items that lie in the section and lose bytes, in their order, and any others there.
/// Targets may lie anywhere in the run.
///
/// How many bytes of an item stay, which have to be its first ones, says what is written:
/// - of RISC-V two bytes of `c.j` for a call that links x0, or on RV32 of `c.jal` for one that
///   links x1, `jal` of four with the link register of the `jalr`, and of eight the call as it is,
///   with `R_RISCV_CALL_PLT` applied (RISC-V ELF psABI, "Function Call Relaxation");
/// - of LoongArch four bytes of `b` for a call whose `jirl` links none, of `bl` for one that links
///   `ra`, and of `pcaddi`, with the `addi.d`'s register, for an address; of eight the instructions
///   as they are, with `R_LARCH_CALL36`, or `R_LARCH_PCALA_HI20` and `R_LARCH_PCALA_LO12`, applied
///   (LoongArch ELF psABI, "Linker Relaxation"). The instructions tell which of both a site is;
/// - of an alignment nops: of RISC-V `nop`, and at most one `c.nop` at the end; of LoongArch
///   `andi zero, zero, 0`.
///
/// A site without short shapes, as `fixed` has it, is left as it is.
///
/// `relocations` are those of the section, as ELF files have them. Each goes to the offset where
/// its place goes, with its symbol and addend. That of a site which became shorter has the type of
/// the one instruction then: `R_RISCV_JAL` or `R_RISCV_RVC_JUMP` in place of `R_RISCV_CALL_PLT` and
/// `R_RISCV_CALL`, `R_LARCH_B26` in place of `R_LARCH_CALL36`, and `R_LARCH_PCREL20_S2` in place of
/// `R_LARCH_PCALA_HI20`. So [`relocate_section`](crate::section::relocate_section()) writes its value, and an output can keep it. The
/// others at such a site's begin, those of alignments among the items, and those whose byte is
/// deleted, as `R_LARCH_PCALA_LO12`, have the type 0. Any other keeps its type. One after the
/// section's end stays as it is, and so do bytes after the last whole relocation.
///
/// Requires an output of [`packed_run_len`](crate::runs::packed_run_len()) bytes. The deltas are as [`SectionRelaxDeltas::deltas`](crate::relaxation::SectionRelaxDeltas::deltas)
/// lists them ([`DeltaSlice::has_valid_deltas`](crate::relaxation::DeltaSlice::has_valid_deltas)). With others the call is safe, but what it writes
/// isn't specified. The error names the first item that can't be written, or before which bytes are
/// deleted that are of no item, and nothing is written then.
///
/// It doesn't allocate. It takes O(section + deltas + items log deltas), and O(log deltas +
/// log items) for each relocation.
///
/// # Requires
///
/// - small: `(section.base as u128) + (section.bytes.len() as u128) < 1 << 64`
/// - room: `!DeltaSlice::new(run.deltas).has_valid_deltas() || packed_run_len(section.base, section.bytes.len(), run.deltas) == packed.len()`
#[inline]
#[cfg_attr(debug_assertions, track_caller)]
pub fn pack_run<B: AsRef<[u8]>, R: AsMut<[u8]>>(
    machine: Machine,
    section: &mut Section<B, R>,
    run: &Run<'_>,
    packed: &mut [u8],
) -> Result<(), RejectedItem> {
    packing::pack_run(
        machine,
        section.bytes.as_ref(),
        section.base,
        run.items,
        run.deltas,
        run.start,
        section.relocations.as_mut(),
        packed,
    )
}

impl Run<'_> {
    /// [`pack_run`] of a section of the run. Returns the packed section, `packed` and the moved
    /// relocations, at the address that it then has.
    ///
    /// # Requires
    ///
    /// - what [`pack_run`] requires
    ///
    /// ```
    /// use linker_utils::runs::{Isa, Item, ItemNumbers, Machine, Run, Site, relax, shapes};
    /// use linker_utils::section::Section;
    ///
    /// // a section with auipc ra, 0 and jalr ra, 0(ra), a call of the ret in the section after it
    /// let call = Site { offset: 0, len: 8, target: 8, shapes: shapes::riscv64::CALL };
    /// let items = [ItemNumbers::from_item(Item::Site(call))];
    /// let plan = relax(&items, 0x1000).unwrap();
    /// let run = Run { start: 0x1000, items: &items[1..], deltas: plan.deletions.deltas() };
    /// let ret = Section { base: 8, ..Section::new([0x67, 0x80, 0, 0], []) };
    /// let packed = run.pack(Machine::RiscV(Isa::Rv64), ret, [0; 4]).unwrap();
    /// assert_eq!((packed.address, packed.bytes), (0x1004, [0x67, 0x80, 0, 0]));
    /// ```
    #[inline]
    #[cfg_attr(debug_assertions, track_caller)]
    pub fn pack<B: AsRef<[u8]>, R: AsMut<[u8]>, P: AsMut<[u8]>>(
        &self,
        machine: Machine,
        mut section: Section<B, R>,
        mut packed: P,
    ) -> Result<Section<P, R>, RejectedItem> {
        pack_run(machine, &mut section, self, packed.as_mut())?;
        let offset = DeltaSlice::new(self.deltas).input_to_output_offset(section.base);
        let address = self.start.wrapping_add(offset);
        Ok(Section { address, ..Section::new(packed, section.relocations) })
    }
}
