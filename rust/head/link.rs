//! What many calls take, in three structs: the link, an object, and a section of it. The calls are
//! inlined over functions of the proved source, which have a parameter for each fact.

use crate::elf::{Architecture, RelocateError, WriteError};
use crate::linker_base::relaxation::{AsDeletion, DeltaSlice, RelaxDelta};
use crate::linker_output::got::Origins;
use crate::linker_rewriting::decisions::{
    DecisionError, DecisionNumbers, Deletion, RewritingError,
};
use crate::linker_rewriting::facts::{OutputFacts, RelaxContext, SymbolFacts};
use crate::linker_rewriting::groups::UnrelaxableGroups;
use crate::linker_rewriting::kept::{self, FactsSnapshot};
use crate::linker_rewriting::phases::Phase;
use crate::linker_rewriting::{surveys, toc_indirection};
use crate::linker_runs::items::{
    self, AsRelocation, ItemNumbers, ItemsError, Relocation, RewrittenItemsError, SectionItems,
};
use crate::linker_runs::packing::{self, Machine, RejectedItem};
use crate::linker_runs::relaxation::Alignment;
use crate::linker_section::facts::{Addresses, Symbol};
use crate::linker_section::relocations::{RELA_LEN, Rela, relocation_at, relocation_of};
use crate::linker_section::resolved::{self, ByLookup, Lookup};
use crate::linker_section::sections::{self, RelocationError};
use crate::linker_section::symbols::{ByIndex, Symbols};

/// What a linker knows of an output. [`Link::new`] has no fact; addresses are known once sections
/// are placed.
#[derive(Debug, Clone, Copy, PartialEq, Eq, Hash)]
pub struct Link {
    /// The architecture of the link's files.
    pub architecture: Architecture,
    //= linker_rewriting::facts::OutputFacts.is_executable
    pub is_executable: bool,
    //= linker_rewriting::facts::OutputFacts.is_fixed
    pub is_fixed: bool,
    //= linker_rewriting::facts::OutputFacts.has_near_symbols
    pub has_near_symbols: bool,
    //= linker_section::facts::Addresses.got_base
    pub got_base: u64,
    /// What offsets of thread-local storage count from, as
    /// [`Target::origins`](crate::output::Target::origins) returns it. None without a TLS segment.
    pub origins: Option<Origins>,
    /// The address of the output's entry of the class [`Module`](crate::section::EntryClass::Module),
    /// if there is one.
    pub module_entry: Option<u64>,
    /// The address of RISC-V's `__global_pointer$`, which the calls read that are named for it.
    pub global_pointer: u64,
}

impl Link {
    /// A link of which nothing is known.
    #[must_use]
    #[inline]
    pub const fn new(architecture: Architecture) -> Link {
        Link {
            architecture,
            is_executable: false,
            is_fixed: false,
            has_near_symbols: false,
            got_base: 0,
            origins: None,
            module_entry: None,
            global_pointer: 0,
        }
    }

    /// What calls of one relocation take of the link and of a section at an address:
    /// [`value`](crate::section::value) and [`Target::route`](crate::output::Target::route).
    #[must_use]
    #[inline]
    pub const fn addresses(&self, section: u64) -> Addresses {
        let (thread_origin, module_origin, has_tls) = match self.origins {
            Some(origins) => (origins.thread_pointer, origins.module_block, true),
            None => (0, 0, false),
        };
        let module_entry = match self.module_entry {
            Some(address) => address,
            None => 0,
        };
        Addresses {
            section,
            got_base: self.got_base,
            thread_origin,
            module_origin,
            module_entry,
            has_tls,
        }
    }

    /// What the proved functions take of the output.
    #[inline]
    const fn output(&self) -> OutputFacts {
        OutputFacts {
            is_executable: self.is_executable,
            is_fixed: self.is_fixed,
            has_near_symbols: self.has_near_symbols,
        }
    }
}

/// What a linker knows of an object's symbols: arrays by the indexes that its relocations name
/// (`r_sym`). One that a call doesn't read may be empty.
#[derive(Debug, Clone, Copy, Default, PartialEq, Eq, Hash)]
pub struct Object<'a> {
    /// What is known once names are resolved: calls that survey, rewrite or keep facts read it.
    pub facts: &'a [SymbolFacts],
    /// What is known once addresses are: calls that come then read it.
    pub values: &'a [Symbol],
    /// Which groups stay, by [`survey`](crate::rewriting::survey), or for a phase by
    /// [`survey_placed_section`](crate::rewriting::survey_placed_section).
    pub unrelaxable_groups: &'a [UnrelaxableGroups],
    /// What choices read, by [`snapshot_facts`](crate::rewriting::snapshot_facts).
    pub facts_snapshot: &'a [FactsSnapshot],
    /// Which symbols keep their high parts, by
    /// [`survey_global_pointer`](crate::rewriting::survey_global_pointer).
    pub kept_high_parts: &'a [bool],
}

/// A section of an object. Its bytes and relocations are any containers of bytes; calls that write
/// them want `&mut` of an array or a slice, or a `Vec`.
#[derive(Debug, Clone, Copy, Default, PartialEq, Eq, Hash)]
pub struct Section<B, R> {
    /// Its bytes.
    pub bytes: B,
    /// Its relocations as they stand in the file: of 24 bytes each, `Elf64_Rela`, little-endian, at
    /// any alignment. Further bytes than whole relocations have are ignored.
    pub relocations: R,
    /// The address of its first byte, from which offsets of relocations count.
    pub address: u64,
    /// Its input offset in a run that is relaxed.
    pub base: u64,
}

impl<B, R> Section<B, R> {
    /// A section at address 0, and at the begin of its run.
    #[must_use]
    #[inline]
    pub const fn new(bytes: B, relocations: R) -> Section<B, R> {
        Section {
            bytes,
            relocations,
            address: 0,
            base: 0,
        }
    }
}

/// The relocations of a section as they stand in the file, one by one: [`relocation_at`] of each
/// index.
///
/// ```
/// use linker_utils::section::{relocation_at, relocations};
///
/// let mut entries = [0; 48];
/// (entries[24], entries[32]) = (4, 24);
/// assert_eq!(relocations(&entries).map(|it| it.r_type).collect::<Vec<_>>(), [0, 24]);
/// assert_eq!(relocations(&entries).nth(1), relocation_at(&entries, 1));
/// ```
#[inline]
pub fn relocations(
    entries: &[u8],
) -> impl DoubleEndedIterator<Item = Rela> + ExactSizeIterator + Clone {
    entries.chunks_exact(RELA_LEN).map(relocation_of)
}

impl Symbol {
    /// What a file's table of symbols says of a symbol, by the fields of `Elf64_Sym`. The address is
    /// `st_value`, which in an object counts from the start of the section `st_shndx`.
    ///
    /// ```
    /// use linker_utils::section::Symbol;
    ///
    /// // STB_WEAK and STT_NOTYPE, of SHN_UNDEF
    /// assert!(Symbol::from_elf(0x20, 0, 0, 0, 0).is_undefined_weak);
    /// // STB_GLOBAL and STT_TLS
    /// let variable = Symbol::from_elf(0x16, 0, 3, 0x40, 8);
    /// assert_eq!((variable.address, variable.size, variable.is_thread_local), (0x40, 8, true));
    /// ```
    #[must_use]
    #[inline]
    pub const fn from_elf(
        st_info: u8,
        st_other: u8,
        st_shndx: u16,
        st_value: u64,
        st_size: u64,
    ) -> Symbol {
        Symbol {
            address: st_value,
            size: st_size,
            stub: 0,
            address_entry: 0,
            thread_entry: 0,
            module_entry: 0,
            descriptor: 0,
            entry_addend: 0,
            other: st_other,
            is_thread_local: st_info & 15 == 6,
            is_undefined_weak: st_info >> 4 == 2 && st_shndx == 0,
        }
    }
}

impl Relocation {
    /// A relocation of a section, which refers to an input offset of the run, as the fields `target`
    /// and `may_compress` say.
    #[must_use]
    #[inline]
    pub const fn new(relocation: Rela, target: Option<u64>, may_compress: bool) -> Relocation {
        Relocation {
            offset: relocation.offset,
            r_type: relocation.r_type,
            has_symbol: relocation.symbol != 0,
            addend: relocation.addend,
            target,
            may_compress,
        }
    }
}

impl Alignment {
    /// The alignment before a section of a run, from the end of what is before it on: with so many nops
    /// that the section is aligned wherever that ends. The section begins `nops` bytes above `offset`.
    ///
    /// # Requires
    ///
    /// - `alignment` is a power of two, at most `1 << 31`.
    ///
    /// ```
    /// use linker_utils::runs::Alignment;
    ///
    /// assert_eq!(Alignment::before(0x1006, 16).nops, 26);
    /// ```
    #[must_use]
    #[inline]
    pub const fn before(offset: u64, alignment: u64) -> Alignment {
        debug_assert!(alignment.is_power_of_two() && alignment <= 1 << 31);
        let nops = (offset.wrapping_neg() & (alignment - 1)) + alignment;
        Alignment { offset, nops: nops as u32, alignment, max_skip: None }
    }
}

/// A section of addresses of an object, as
/// [`Target::address_section`](crate::output::Target::address_section) names it.
#[derive(Debug, Clone, Copy, Default, PartialEq, Eq, Hash)]
pub struct Words<'a> {
    /// Its address.
    pub address: u64,
    /// Its relocations, as a section's, ascending by offset.
    pub relocations: &'a [u8],
    /// Which words stay, by [`survey_toc_loads`](crate::rewriting::survey_toc_loads): an
    /// element for each relocation.
    pub kept: &'a [bool],
}

/// A run of code that is relaxed, or what lies in one section of it.
#[derive(Debug, Clone, Copy, PartialEq, Eq, Hash)]
pub struct Run<'a> {
    /// The run's address.
    pub start: u64,
    /// Its items.
    pub items: &'a [ItemNumbers],
    /// What the run loses.
    pub deltas: &'a [RelaxDelta],
}

/// The first relocation of a section whose value isn't written.
#[derive(Debug, Clone, Copy, PartialEq, Eq, Hash)]
pub struct SectionError {
    /// Its index.
    pub index: usize,
    /// Why it isn't.
    pub error: RelocationError,
    /// The value, and those that can be written, where the value is out of the relocation's reach
    /// or isn't aligned.
    pub rejected: Option<WriteError>,
}

/// Why the values of a section whose instructions were rewritten aren't written.
#[cfg_attr(not(exhaustive), non_exhaustive)]
#[derive(Debug, Clone, Copy, PartialEq, Eq, Hash)]
pub enum WritingError {
    //= linker_rewriting::kept::WritingError.Contradiction
    Contradiction(usize),
    //= linker_rewriting::kept::WritingError.Changed
    Changed(usize),
    //= linker_rewriting::kept::WritingError.NeedsStub
    NeedsStub(usize),
    //= linker_rewriting::kept::WritingError.Section
    Section(SectionError),
}

/// An error of a section that is as before, with the value that isn't written.
#[cold]
fn explained<S: Symbols>(
    architecture: Architecture,
    addresses: &Addresses,
    relocations: &[u8],
    symbols: S,
    found: sections::SectionError,
) -> SectionError {
    let rejected = || {
        let RelocationError::Write(error) = found.error else {
            return None;
        };
        let (index, relocation) = (found.index, relocation_at(relocations, found.index)?);
        let valued =
            sections::row_value(architecture, addresses, relocations, symbols, index, &relocation);
        let (row, value) = valued.ok()??;
        let is_told = match error {
            RelocateError::Misaligned => true,
            RelocateError::OutOfReach => !row.reach().contains(value),
            _ => false,
        };
        // a value that composes with others is another one
        let is_rejected = row.write(value, [0; 16].get_mut(..row.window())?) == Err(error);
        (is_told && is_rejected).then(|| WriteError::new(&row, value, error))
    };
    SectionError {
        index: found.index,
        error: found.error,
        rejected: rejected(),
    }
}

//= linker_section::sections::relocate_section: relocations = section.relocations
///
/// ```
/// use linker_utils::elf::Architecture;
/// use linker_utils::section::{Link, Object, Section, Symbol, memory_len, relocate_section};
///
/// // call f, with R_X86_64_PLT32 of symbol 1 at offset 1, whose addend is -4
/// let mut relocations = [0; 24];
/// (relocations[0], relocations[8], relocations[12]) = (1, 4, 1);
/// relocations[16..].copy_from_slice(&(-4i64).to_le_bytes());
/// let mut call = [0xe8, 0, 0, 0, 0];
/// let link = Link::new(Architecture::X86_64);
/// let mut values = [Symbol::default(), Symbol { address: 0x402005, ..Symbol::default() }];
/// let object = Object { values: &values, ..Object::default() };
/// let section = Section::new(&mut call, &relocations);
/// let mut section = Section { address: 0x401000, ..section };
/// let mut memory = [0; 1];
/// assert_eq!(memory_len(&relocations), 1);
/// relocate_section(&link, &object, &mut section, &mut memory).unwrap();
/// assert_eq!(section.bytes, &[0xe8, 0x00, 0x10, 0, 0]);
///
/// // the error says which value isn't written
/// values[1].address = 1 << 40;
/// let object = Object { values: &values, ..Object::default() };
/// let error = relocate_section(&link, &object, &mut section, &mut memory).unwrap_err();
/// assert_eq!((error.index, error.rejected.unwrap().value), (0, (1 << 40) - 0x401005));
/// ```
#[inline]
#[cfg_attr(debug_assertions, track_caller)]
pub fn relocate_section<B: AsMut<[u8]>, R: AsRef<[u8]>>(
    link: &Link,
    object: &Object<'_>,
    section: &mut Section<B, R>,
    memory: &mut [u64],
) -> Result<(), SectionError> {
    let (architecture, addresses) = (link.architecture, link.addresses(section.address));
    let (relocations, bytes) = (section.relocations.as_ref(), section.bytes.as_mut());
    let symbols = object.values;
    sections::relocate_section(architecture, &addresses, relocations, symbols, bytes, memory)
        .map_err(|found| {
            let symbols = ByIndex { symbols };
            explained(architecture, &addresses, relocations, symbols, found)
        })
}

//= linker_section::resolved::relocate_resolved: relocations = section.relocations
///
/// ```
/// use linker_utils::elf::Architecture;
/// use linker_utils::section::{Link, Lookup, Rela, Resolved, Section, relocate_resolved};
///
/// /// Two functions, one with a stub that is used from offset 4 on.
/// #[derive(Clone, Copy)]
/// struct Functions<'a> {
///     addresses: &'a [u64],
/// }
///
/// impl Lookup for Functions<'_> {
///     fn resolved(self, _: usize, relocation: &Rela) -> Option<Resolved> {
///         let address = *self.addresses.get(relocation.symbol as usize)?;
///         let stub = if relocation.offset < 4 { 0 } else { 0x400800 };
///         Some(Resolved { address, stub, ..Resolved::default() })
///     }
/// }
///
/// // bl f; bl f, with R_AARCH64_CALL26 (283) of symbol 1
/// let mut relocations = [0; 48];
/// (relocations[8], relocations[9], relocations[12]) = (27, 1, 1);
/// (relocations[24], relocations[32], relocations[33], relocations[36]) = (4, 27, 1, 1);
/// let mut code = [0, 0, 0, 0x94, 0, 0, 0, 0x94];
/// let section = Section::new(&mut code, &relocations);
/// let mut section = Section { address: 0x400000, ..section };
/// let functions = Functions { addresses: &[0, 0x401000] };
/// let link = Link::new(Architecture::AArch64);
/// relocate_resolved(&link, functions, &mut section, &mut [0; 2]).unwrap();
/// assert_eq!(code, [0, 4, 0, 0x94, 0xff, 1, 0, 0x94]);
/// ```
#[inline]
#[cfg_attr(debug_assertions, track_caller)]
pub fn relocate_resolved<L: Lookup, B: AsMut<[u8]>, R: AsRef<[u8]>>(
    link: &Link,
    lookup: L,
    section: &mut Section<B, R>,
    memory: &mut [u64],
) -> Result<(), SectionError> {
    let (architecture, addresses) = (link.architecture, link.addresses(section.address));
    let (relocations, bytes) = (section.relocations.as_ref(), section.bytes.as_mut());
    resolved::relocate_resolved(architecture, &addresses, relocations, lookup, bytes, memory)
        .map_err(|found| {
            let symbols = ByLookup { lookup };
            explained(architecture, &addresses, relocations, symbols, found)
        })
}

/// What the proved functions choose rewrites by in a phase.
macro_rules! context {
    ($link:ident, $object:ident, $section:ident, $phase:expr) => {
        &RelaxContext {
            architecture: $link.architecture,
            phase: $phase,
            output: &$link.output(),
            symbols: $object.facts,
            addresses: &$link.addresses($section.address),
            values: $object.values,
        }
    };
}

//= linker_rewriting::surveys::survey
///
/// ```
/// use linker_utils::elf::Architecture;
/// use linker_utils::rewriting::{UnrelaxableGroups, SymbolFacts, survey};
/// use linker_utils::section::{Link, Object, Section};
///
/// // nop, with R_X86_64_TLSDESC_CALL of symbol 1: not a call by a descriptor
/// let mut relocations = [0; 24];
/// (relocations[8], relocations[12]) = (35, 1);
/// let link = Link { is_executable: true, is_fixed: true, ..Link::new(Architecture::X86_64) };
/// let object = Object { facts: &[SymbolFacts::default(); 2], ..Object::default() };
/// let mut kept = [UnrelaxableGroups::default(); 2];
/// survey(&link, &object, &Section::new([0x90], relocations), &mut kept);
/// let none = UnrelaxableGroups::default();
/// assert_eq!(kept, [none, UnrelaxableGroups { descriptor: true, ..none }]);
/// ```
#[inline]
pub fn survey<B: AsRef<[u8]>, R: AsRef<[u8]>>(
    link: &Link,
    object: &Object<'_>,
    section: &Section<B, R>,
    kept: &mut [UnrelaxableGroups],
) {
    surveys::survey(
        link.architecture,
        &link.output(),
        object.facts,
        section.relocations.as_ref(),
        section.bytes.as_ref(),
        kept,
    );
}

//= linker_rewriting::sections::rewrite_section: kept = unrelaxable_groups
///
/// ```
/// use linker_utils::elf::Architecture;
/// use linker_utils::rewriting::{DecisionNumbers, UnrelaxableGroups, SymbolFacts, rewrite_section};
/// use linker_utils::section::{Link, Object, Section};
///
/// // call *f@GOTPCREL(%rip), with R_X86_64_GOTPCRELX of symbol 1 at 2, becomes addr32 call f
/// let mut relocations = [0; 24];
/// (relocations[0], relocations[8], relocations[12]) = (2, 41, 1);
/// relocations[16..].copy_from_slice(&(-4i64).to_le_bytes());
/// let mut section = Section::new([0xff, 0x15, 0, 0, 0, 0], relocations);
/// let link = Link {
///     is_executable: true,
///     has_near_symbols: true,
///     ..Link::new(Architecture::X86_64)
/// };
/// let object = Object {
///     facts: &[SymbolFacts::default(), SymbolFacts { is_local: true, ..SymbolFacts::default() }],
///     unrelaxable_groups: &[UnrelaxableGroups::default(); 2],
///     ..Object::default()
/// };
/// rewrite_section(&link, &object, &mut section, &mut [DecisionNumbers::default()]).unwrap();
/// assert_eq!(section.bytes, [0x67, 0xe8, 0, 0, 0, 0]);
/// // R_X86_64_PC32
/// assert_eq!(section.relocations[8], 2);
/// ```
#[inline]
pub fn rewrite_section<B: AsMut<[u8]>, R: AsMut<[u8]>>(
    link: &Link,
    object: &Object<'_>,
    section: &mut Section<B, R>,
    decisions: &mut [DecisionNumbers],
) -> Result<(), RewritingError> {
    crate::linker_rewriting::sections::rewrite_section(
        link.architecture,
        &link.output(),
        object.facts,
        object.unrelaxable_groups,
        section.relocations.as_mut(),
        section.bytes.as_mut(),
        decisions,
    )
}

//= linker_rewriting::sections::decide_rewrites: kept = unrelaxable_groups
///
/// ```
/// use linker_utils::elf::Architecture;
/// use linker_utils::rewriting::{DecisionError, DecisionNumbers};
/// use linker_utils::rewriting::{UnrelaxableGroups, SymbolFacts, decide_rewrites, make_rewrites};
/// use linker_utils::section::{Link, Object, Section};
///
/// // call *f@GOTPCREL(%rip), with R_X86_64_GOTPCRELX of symbol 1 at 2, becomes addr32 call f
/// let mut relocations = [0; 24];
/// (relocations[0], relocations[8], relocations[12]) = (2, 41, 1);
/// relocations[16..].copy_from_slice(&(-4i64).to_le_bytes());
/// let input = Section::new([0xff, 0x15, 0, 0, 0, 0], relocations);
/// let link = Link {
///     is_executable: true,
///     has_near_symbols: true,
///     ..Link::new(Architecture::X86_64)
/// };
/// let object = Object {
///     facts: &[SymbolFacts::default(), SymbolFacts { is_local: true, ..SymbolFacts::default() }],
///     unrelaxable_groups: &[UnrelaxableGroups::default(); 2],
///     ..Object::default()
/// };
/// let mut decisions = [DecisionNumbers::default()];
/// decide_rewrites(&link, &object, &input, &mut decisions).unwrap();
///
/// let mut output = Section::new(input.bytes, input.relocations);
/// assert_eq!(make_rewrites(&mut output, &decisions), Ok(()));
/// assert_eq!(output.bytes, [0x67, 0xe8, 0, 0, 0, 0]);
/// // R_X86_64_PC32
/// assert_eq!(output.relocations[8], 2);
/// // the instruction isn't the one that was decided on
/// assert_eq!(make_rewrites(&mut output, &decisions), Err(DecisionError::Changed(0)));
/// ```
#[inline]
pub fn decide_rewrites<B: AsRef<[u8]>, R: AsRef<[u8]>>(
    link: &Link,
    object: &Object<'_>,
    section: &Section<B, R>,
    decisions: &mut [DecisionNumbers],
) -> Result<(), RewritingError> {
    crate::linker_rewriting::sections::decide_rewrites(
        link.architecture,
        &link.output(),
        object.facts,
        object.unrelaxable_groups,
        section.relocations.as_ref(),
        section.bytes.as_ref(),
        decisions,
    )
}

//= linker_rewriting::sections::make_rewrites
#[inline]
pub fn make_rewrites<B: AsMut<[u8]>, R: AsMut<[u8]>>(
    section: &mut Section<B, R>,
    decisions: &[DecisionNumbers],
) -> Result<(), DecisionError> {
    crate::linker_rewriting::sections::make_rewrites(
        section.relocations.as_mut(),
        section.bytes.as_mut(),
        decisions,
    )
}

//= linker_rewriting::surveys::survey_placed_section: symbols = facts
///
/// ```
/// use linker_utils::elf::Architecture;
/// use linker_utils::rewriting::{UnrelaxableGroups, Phase, SymbolFacts, survey_placed_section};
/// use linker_utils::section::{Link, Object, Section, Symbol};
///
/// // lui a0, 0, with R_RISCV_TPREL_HI20 of symbol 1, which no mark follows
/// let mut relocations = [0; 24];
/// (relocations[8], relocations[12]) = (29, 1);
/// let section = Section::new([0x37, 0x05, 0, 0], relocations);
/// let link = Link { is_executable: true, is_fixed: true, ..Link::new(Architecture::RiscV) };
/// let object = Object {
///     facts: &[SymbolFacts { is_local: true, ..SymbolFacts::default() }; 2],
///     values: &[Symbol::default(); 2],
///     ..Object::default()
/// };
/// let mut kept = [UnrelaxableGroups::default(); 2];
/// survey_placed_section(&link, &object, &section, Phase::TlsLocalExec, &mut kept).unwrap();
/// assert!(kept[1].initial_exec);
/// ```
#[inline]
pub fn survey_placed_section<B: AsRef<[u8]>, R: AsRef<[u8]>>(
    link: &Link,
    object: &Object<'_>,
    section: &Section<B, R>,
    phase: Phase,
    kept: &mut [UnrelaxableGroups],
) -> Result<(), usize> {
    surveys::survey_placed_section(
        context!(link, object, section, phase),
        section.relocations.as_ref(),
        section.bytes.as_ref(),
        kept,
    )
}

//= linker_rewriting::sections::rewrite_placed_section: symbols = facts
///
/// ```
/// use linker_utils::elf::Architecture;
/// use linker_utils::rewriting::{
///     DecisionNumbers, Deletion, Phase, SymbolFacts, UnrelaxableGroups, rewrite_placed_section,
/// };
/// use linker_utils::section::{Link, Object, Section, Symbol};
///
/// // adrp x0, x and add x0, x0, :lo12:x, at 0x1000, where x is at 0x2004, become nop and adr x0, x
/// let mut relocations = [0; 48];
/// for (index, offset, code) in [(0, 0, 275u32), (1, 4, 277)] {
///     relocations[24 * index] = offset;
///     relocations[24 * index + 8..][..4].copy_from_slice(&code.to_le_bytes());
///     relocations[24 * index + 12] = 1;
/// }
/// let section = Section::new([0, 0, 0, 0x90, 0, 0, 0, 0x91], relocations);
/// let mut section = Section { address: 0x1000, ..section };
/// let link = Link { is_executable: true, is_fixed: true, ..Link::new(Architecture::AArch64) };
/// let object = Object {
///     facts: &[SymbolFacts { is_local: true, ..SymbolFacts::default() }; 2],
///     values: &[Symbol::default(), Symbol { address: 0x2004, ..Symbol::default() }],
///     unrelaxable_groups: &[UnrelaxableGroups::default(); 2],
///     ..Object::default()
/// };
/// let (decisions, deleted) = (&mut [DecisionNumbers::default(); 2], &mut [Deletion::default(); 0]);
/// let phase = Phase::ShortPcRel;
/// let count = rewrite_placed_section(&link, &object, &mut section, phase, decisions, deleted);
/// assert_eq!(count, Ok(0));
/// assert_eq!(section.bytes, [0x1f, 0x20, 0x03, 0xd5, 0, 0, 0, 0x10]);
/// // R_AARCH64_ADR_PREL_LO21, and no relocation of the nop
/// assert_eq!((section.relocations[8], section.relocations[9]), (0, 0));
/// assert_eq!((section.relocations[32], section.relocations[33]), (0x12, 1));
/// ```
#[inline]
pub fn rewrite_placed_section<B: AsMut<[u8]>, R: AsMut<[u8]>>(
    link: &Link,
    object: &Object<'_>,
    section: &mut Section<B, R>,
    phase: Phase,
    decisions: &mut [DecisionNumbers],
    deleted: &mut [Deletion],
) -> Result<usize, RewritingError> {
    crate::linker_rewriting::sections::rewrite_placed_section(
        context!(link, object, section, phase),
        object.unrelaxable_groups,
        section.relocations.as_mut(),
        section.bytes.as_mut(),
        decisions,
        deleted,
    )
}

//= linker_rewriting::toc_indirection::survey_toc_loads: symbols = facts, words = words.relocations, words_start = words.address
///
/// ```
/// use linker_utils::elf::Architecture;
/// use linker_utils::rewriting::{SymbolFacts, Words, survey_toc_loads};
/// use linker_utils::section::{Link, Object, Section, Symbol};
///
/// // lwz 3,.toc@toc@l(3), with R_PPC64_TOC16_LO_DS of `.toc`, whose word is that of symbol 2: no
/// // load of an address
/// let relocation = |code: u8, symbol: u8| {
///     let mut bytes = [0; 24];
///     (bytes[8], bytes[12]) = (code, symbol);
///     bytes
/// };
/// let section = Section::new([0, 0, 0x63, 0x80], relocation(64, 1));
/// let link = Link { is_executable: true, is_fixed: true, ..Link::new(Architecture::Ppc64) };
/// let link = Link { got_base: 0x1_8000, ..link };
/// let object = Object {
///     facts: &[SymbolFacts { is_local: true, ..SymbolFacts::default() }; 3],
///     values: &[0, 0x1_0000, 0x1_2345].map(|address| Symbol { address, ..Symbol::default() }),
///     ..Object::default()
/// };
/// let words = Words { address: 0x1_0000, relocations: &relocation(38, 2), kept: &[] };
/// let mut kept = [false];
/// survey_toc_loads(&link, &object, &section, &words, &mut kept).unwrap();
/// assert_eq!(kept, [true]);
/// ```
#[inline]
pub fn survey_toc_loads<B: AsRef<[u8]>, R: AsRef<[u8]>>(
    link: &Link,
    object: &Object<'_>,
    section: &Section<B, R>,
    words: &Words<'_>,
    kept: &mut [bool],
) -> Result<(), usize> {
    toc_indirection::survey_toc_loads(
        context!(link, object, section, Phase::ShortPcRel),
        words.address,
        words.relocations,
        section.relocations.as_ref(),
        section.bytes.as_ref(),
        kept,
    )
}

//= linker_rewriting::toc_indirection::rewrite_toc_loads: kept = words.kept, symbols = facts
///
/// ```
/// use linker_utils::elf::Architecture;
/// use linker_utils::rewriting::{DecisionNumbers, SymbolFacts, Words, rewrite_toc_loads};
/// use linker_utils::section::{Link, Object, Section, Symbol};
///
/// // addis 3,2,.toc@toc@ha and ld 3,.toc@toc@l(3), where the word at the start of `.toc` is that
/// // of symbol 2, become addis 3,2,x@toc@ha and addi 3,3,x@toc@l
/// let relocation = |offset: u8, code: u8, symbol: u8| {
///     let mut bytes = [0; 24];
///     (bytes[0], bytes[8], bytes[12]) = (offset, code, symbol);
///     bytes
/// };
/// let relocations = [relocation(0, 50, 1), relocation(4, 64, 1)].concat();
/// let mut section = Section::new([0, 0, 0x62, 0x3c, 0, 0, 0x63, 0xe8], relocations);
/// let link = Link { is_executable: true, is_fixed: true, ..Link::new(Architecture::Ppc64) };
/// let link = Link { got_base: 0x1_8000, ..link };
/// let object = Object {
///     facts: &[SymbolFacts { is_local: true, ..SymbolFacts::default() }; 3],
///     values: &[0, 0x1_0000, 0x1_2345].map(|address| Symbol { address, ..Symbol::default() }),
///     ..Object::default()
/// };
/// let words = Words { address: 0x1_0000, relocations: &relocation(0, 38, 2), kept: &[false] };
/// let mut decisions = [DecisionNumbers::default(); 2];
/// rewrite_toc_loads(&link, &object, &mut section, &words, &mut decisions).unwrap();
/// assert_eq!(section.bytes, [0, 0, 0x62, 0x3c, 0, 0, 0x63, 0x38]);
/// // R_PPC64_TOC16_HA and R_PPC64_TOC16_LO, both of symbol 2
/// assert_eq!((section.relocations[8], section.relocations[12]), (50, 2));
/// assert_eq!((section.relocations[32], section.relocations[36]), (48, 2));
/// ```
#[inline]
pub fn rewrite_toc_loads<B: AsMut<[u8]>, R: AsMut<[u8]>>(
    link: &Link,
    object: &Object<'_>,
    section: &mut Section<B, R>,
    words: &Words<'_>,
    decisions: &mut [DecisionNumbers],
) -> Result<(), RewritingError> {
    toc_indirection::rewrite_toc_loads(
        context!(link, object, section, Phase::ShortPcRel),
        words.address,
        words.relocations,
        words.kept,
        section.relocations.as_mut(),
        section.bytes.as_mut(),
        decisions,
    )
}

//= linker_rewriting::global_pointer::survey_global_pointer: symbols = facts, gp = global_pointer
///
/// ```
/// use linker_utils::elf::Architecture;
/// use linker_utils::rewriting::{SymbolFacts, survey_global_pointer};
/// use linker_utils::section::{Link, Object, Section, Symbol};
///
/// // lui a0, %hi(x), with R_RISCV_HI20 of symbol 1 and R_RISCV_RELAX, where x is 2,048 above gp
/// let mut relocations = [0; 48];
/// (relocations[8], relocations[12], relocations[32]) = (26, 1, 51);
/// let section = Section::new([0x37, 0x05, 0, 0], relocations);
/// let link = Link { is_executable: true, is_fixed: true, ..Link::new(Architecture::RiscV) };
/// let link = Link { global_pointer: 0x2_0800, ..link };
/// let object = Object {
///     facts: &[SymbolFacts { is_local: true, ..SymbolFacts::default() }; 2],
///     values: &[0, 0x2_1000].map(|address| Symbol { address, ..Symbol::default() }),
///     ..Object::default()
/// };
/// let mut kept = [false; 2];
/// survey_global_pointer(&link, &object, &section, &mut kept).unwrap();
/// assert_eq!(kept, [false, true]);
/// ```
#[inline]
pub fn survey_global_pointer<B: AsRef<[u8]>, R: AsRef<[u8]>>(
    link: &Link,
    object: &Object<'_>,
    section: &Section<B, R>,
    kept: &mut [bool],
) -> Result<(), usize> {
    crate::linker_rewriting::global_pointer::survey_global_pointer(
        context!(link, object, section, Phase::ShortPcRel),
        link.global_pointer,
        section.relocations.as_ref(),
        section.bytes.as_ref(),
        kept,
    )
}

//= linker_rewriting::global_pointer::rewrite_global_pointer: kept = kept_high_parts, symbols = facts
///
/// ```
/// use linker_utils::elf::Architecture;
/// use linker_utils::rewriting::{DecisionNumbers, Deletion, GPREL_I};
/// use linker_utils::rewriting::{SymbolFacts, rewrite_global_pointer};
/// use linker_utils::section::{Link, Object, Section, Symbol};
///
/// // lui a0, %hi(x) and lw a0, %lo(x)(a0), both marked, where x is 2,047 above gp
/// let mut relocations = [0; 96];
/// for (at, offset, code) in [(0, 0, 26), (24, 0, 51), (48, 4, 27), (72, 4, 51)] {
///     (relocations[at], relocations[at + 8]) = (offset, code);
///     relocations[at + 12] = u8::from(code < 51);
/// }
/// let mut section = Section::new([0x37, 0x05, 0, 0, 0x03, 0x25, 0x05, 0], relocations);
/// let link = Link { is_executable: true, is_fixed: true, ..Link::new(Architecture::RiscV) };
/// let link = Link { global_pointer: 0x2_0800, ..link };
/// let object = Object {
///     facts: &[SymbolFacts { is_local: true, ..SymbolFacts::default() }; 2],
///     values: &[0, 0x2_0fff].map(|address| Symbol { address, ..Symbol::default() }),
///     kept_high_parts: &[false; 2],
///     ..Object::default()
/// };
/// let (mut decisions, mut deleted) = ([DecisionNumbers::default(); 4], [Deletion::default()]);
/// let count =
///     rewrite_global_pointer(&link, &object, &mut section, &mut decisions, &mut deleted);
/// assert_eq!((count, deleted), (Ok(1), [Deletion { offset: 0, bytes: 4 }]));
/// let codes = (section.relocations[8], u32::from(section.relocations[56]));
/// assert_eq!(codes, (0, GPREL_I));
/// ```
#[inline]
pub fn rewrite_global_pointer<B: AsRef<[u8]>, R: AsMut<[u8]>>(
    link: &Link,
    object: &Object<'_>,
    section: &mut Section<B, R>,
    decisions: &mut [DecisionNumbers],
    deleted: &mut [Deletion],
) -> Result<usize, RewritingError> {
    crate::linker_rewriting::global_pointer::rewrite_global_pointer(
        context!(link, object, section, Phase::ShortPcRel),
        link.global_pointer,
        object.kept_high_parts,
        section.relocations.as_mut(),
        section.bytes.as_ref(),
        decisions,
        deleted,
    )
}

//= linker_rewriting::global_pointer::finish_gp_relaxation: gp = global_pointer
///
/// ```
/// use linker_utils::elf::Architecture;
/// use linker_utils::rewriting::{GPREL_I, finish_gp_relaxation};
/// use linker_utils::section::{Link, Object, Section, Symbol};
///
/// // lw a0, %lo(x)(a0), whose lui was deleted, becomes lw a0, 5(gp), where x is 5 above gp
/// let mut relocations = [0; 24];
/// relocations[8] = u8::try_from(GPREL_I).unwrap();
/// let mut section = Section::new([0x03, 0x25, 0x05, 0], relocations);
/// let link = Link { global_pointer: 0x2_0800, ..Link::new(Architecture::RiscV) };
/// let values = [Symbol { address: 0x2_0805, ..Symbol::default() }];
/// let object = Object { values: &values, ..Object::default() };
/// finish_gp_relaxation(&link, &object, &mut section).unwrap();
/// assert_eq!(section.bytes, [0x03, 0xa5, 0x01, 0]);
/// // R_RISCV_LO12_I, whose value is x - 0x20800
/// assert_eq!(section.relocations[8], 27);
/// assert_eq!(section.relocations[16..], (-0x2_0800i64).to_le_bytes());
/// ```
#[inline]
pub fn finish_gp_relaxation<B: AsMut<[u8]>, R: AsMut<[u8]>>(
    link: &Link,
    object: &Object<'_>,
    section: &mut Section<B, R>,
) -> Result<(), usize> {
    crate::linker_rewriting::global_pointer::finish_gp_relaxation(
        &link.addresses(section.address),
        object.values,
        link.global_pointer,
        section.relocations.as_mut(),
        section.bytes.as_mut(),
    )
}

//= linker_rewriting::kept::snapshot_facts: symbols = object.facts
#[inline]
#[cfg_attr(debug_assertions, track_caller)]
pub fn snapshot_facts(link: &Link, object: &Object<'_>, kept: &mut [FactsSnapshot]) {
    kept::snapshot_facts(&link.output(), object.facts, kept);
}

//= linker_rewriting::kept::first_changed
#[must_use]
#[inline]
pub fn first_changed<B: AsRef<[u8]>, R: AsRef<[u8]>>(
    link: &Link,
    object: &Object<'_>,
    section: &Section<B, R>,
) -> Option<usize> {
    let (output, relocations) = (link.output(), section.relocations.as_ref());
    kept::first_changed(&output, object.facts, object.facts_snapshot, relocations)
}

//= linker_rewriting::kept::relocate_rewritten_section: symbols = values, context = link, kept = facts_snapshot, relocations = section.relocations
///
/// ```
/// use linker_utils::elf::Architecture;
/// use linker_utils::rewriting::{
///     FactsSnapshot, SymbolFacts, WritingError, snapshot_facts, relocate_rewritten_section,
/// };
/// use linker_utils::section::{Link, Object, Section, Symbol};
///
/// // addr32 call f, with R_X86_64_PC32 of symbol 1 at 2, which was call *f@GOTPCREL(%rip)
/// let mut relocations = [0; 24];
/// (relocations[0], relocations[8], relocations[12]) = (2, 2, 1);
/// relocations[16..].copy_from_slice(&(-4i64).to_le_bytes());
/// let section = Section::new([0x67, 0xe8, 0, 0, 0, 0], relocations);
/// let mut section = Section { address: 0x1000, ..section };
/// let link = Link { is_executable: true, ..Link::new(Architecture::X86_64) };
/// let mut facts = [SymbolFacts::default(); 2];
/// facts[1].is_local = true;
/// let mut kept = [FactsSnapshot::default(); 2];
/// snapshot_facts(&link, &Object { facts: &facts, ..Object::default() }, &mut kept);
/// // another definition replaces f
/// facts[1].is_local = false;
/// let values = [Symbol::default(), Symbol { address: 0x2000, ..Symbol::default() }];
/// let object =
///     Object { facts: &facts, values: &values, facts_snapshot: &kept, ..Object::default() };
/// let written = relocate_rewritten_section(&link, &object, &mut section, &mut [0; 1]);
/// assert_eq!(written, Err(WritingError::Changed(0)));
/// assert_eq!(section.bytes, [0x67, 0xe8, 0, 0, 0, 0]);
/// ```
#[inline]
#[cfg_attr(debug_assertions, track_caller)]
pub fn relocate_rewritten_section<B: AsMut<[u8]>, R: AsRef<[u8]>>(
    link: &Link,
    object: &Object<'_>,
    section: &mut Section<B, R>,
    memory: &mut [u64],
) -> Result<(), WritingError> {
    let (relocations, bytes) = (section.relocations.as_ref(), section.bytes.as_mut());
    kept::relocate_rewritten_section(
        context!(link, object, section, Phase::PreLayout),
        object.facts_snapshot,
        relocations,
        bytes,
        memory,
    )
    .map_err(|error| match error {
        kept::WritingError::Contradiction(symbol) => WritingError::Contradiction(symbol),
        kept::WritingError::Changed(index) => WritingError::Changed(index),
        kept::WritingError::NeedsStub(index) => WritingError::NeedsStub(index),
        kept::WritingError::Section(found) => WritingError::Section(explained(
            link.architecture,
            &link.addresses(section.address),
            relocations,
            ByIndex { symbols: object.values },
            found,
        )),
    })
}

//= linker_runs::items::section_items: section = section.bytes, base = section.base
#[inline]
#[cfg_attr(debug_assertions, track_caller)]
pub fn section_items<B: AsRef<[u8]>, S: AsRef<[u8]>, R: AsRelocation>(
    machine: Machine,
    section: &Section<B, S>,
    relocations: &[R],
) -> Result<SectionItems, ItemsError> {
    items::section_items(machine, section.bytes.as_ref(), section.base, relocations)
}

//= linker_runs::items::section_items_into: section = section.bytes, base = section.base, out = items
#[inline]
#[cfg_attr(debug_assertions, track_caller)]
pub fn section_items_into<B: AsRef<[u8]>, S: AsRef<[u8]>, R: AsRelocation>(
    machine: Machine,
    section: &Section<B, S>,
    relocations: &[R],
    items: &mut [ItemNumbers],
    makers: &mut [usize],
) -> Result<usize, usize> {
    let (bytes, base) = (section.bytes.as_ref(), section.base);
    items::section_items_into(machine, bytes, base, relocations, items, makers)
}

//= linker_runs::items::rewritten::rewritten_items_into: section = section.bytes, base = section.base, out = items
#[inline]
#[cfg_attr(debug_assertions, track_caller)]
pub fn rewritten_items_into<B: AsRef<[u8]>, S: AsRef<[u8]>, R: AsRelocation, L: AsDeletion>(
    machine: Machine,
    section: &Section<B, S>,
    relocations: &[R],
    deleted: &[L],
    items: &mut [ItemNumbers],
    makers: &mut [usize],
) -> Result<usize, RewrittenItemsError> {
    let (bytes, base) = (section.bytes.as_ref(), section.base);
    items::rewritten_items_into(machine, bytes, base, relocations, deleted, items, makers)
}

//= linker_runs::packing::pack_run: section = section.bytes, base = section.base, out = packed, deltas = run.deltas, items = run.items, start = run.start
#[inline]
#[cfg_attr(debug_assertions, track_caller)]
pub fn pack_run<B: AsRef<[u8]>, R: AsMut<[u8]>>(
    machine: Machine,
    section: &mut Section<B, R>,
    run: &Run<'_>,
    packed: &mut [u8],
) -> Result<(), RejectedItem> {
    packing::pack_run(
        machine,
        section.bytes.as_ref(),
        section.base,
        run.items,
        run.deltas,
        run.start,
        section.relocations.as_mut(),
        packed,
    )
}

impl Run<'_> {
    /// [`pack_run`] of a section of the run. Returns the packed section, `packed` and the moved
    /// relocations, at the address that it then has.
    ///
    /// # Requires
    ///
    /// - what [`pack_run`] requires
    ///
    /// ```
    /// use linker_utils::runs::{Isa, Item, ItemNumbers, Machine, Run, Site, relax, shapes};
    /// use linker_utils::section::Section;
    ///
    /// // a section with auipc ra, 0 and jalr ra, 0(ra), a call of the ret in the section after it
    /// let call = Site { offset: 0, len: 8, target: 8, shapes: shapes::riscv64::CALL };
    /// let items = [ItemNumbers::from_item(Item::Site(call))];
    /// let plan = relax(&items, 0x1000).unwrap();
    /// let run = Run { start: 0x1000, items: &items[1..], deltas: plan.deletions.deltas() };
    /// let ret = Section { base: 8, ..Section::new([0x67, 0x80, 0, 0], []) };
    /// let packed = run.pack(Machine::RiscV(Isa::Rv64), ret, [0; 4]).unwrap();
    /// assert_eq!((packed.address, packed.bytes), (0x1004, [0x67, 0x80, 0, 0]));
    /// ```
    #[inline]
    #[cfg_attr(debug_assertions, track_caller)]
    pub fn pack<B: AsRef<[u8]>, R: AsMut<[u8]>, P: AsMut<[u8]>>(
        &self,
        machine: Machine,
        mut section: Section<B, R>,
        mut packed: P,
    ) -> Result<Section<P, R>, RejectedItem> {
        pack_run(machine, &mut section, self, packed.as_mut())?;
        let offset = DeltaSlice::new(self.deltas).input_to_output_offset(section.base);
        let address = self.start.wrapping_add(offset);
        Ok(Section { address, ..Section::new(packed, section.relocations) })
    }
}
