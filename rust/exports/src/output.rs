// SPDX-License-Identifier: MIT OR Apache-2.0
// Made by tools/generate of crates/linker_utils_c/src/output.rt.
//! What a linker adds to an output: dynamic relocations, words of the GOT, `e_flags`, the symbols
//! and functions that linkers provide, and the code of stubs.

use crate::lazy_plt::status_in;
use crate::status::{Status, or_return};
use linker_utils::source::output::Target;
use linker_utils::source::output::{Origins, entry_words, static_words};
use linker_utils::source::output::SymbolPlace;
use linker_utils::source::output::StubKind;
use linker_utils::source::output::{DynamicEntry, DynamicFacts};
use linker_utils::source::section::EntryClass;
use linker_utils::elf::Architecture;

/// The types of the dynamic relocations that a linker emits.
#[repr(C)]
#[derive(Clone, Copy)]
pub struct DynamicNumbers {
    /// Of a word with S + A.
    pub word: u32,
    /// Of a word with the load address plus A.
    pub relative: u32,
    /// Of a word of the GOT with S.
    pub glob_dat: u32,
    /// Of a word of the PLT's GOT with S.
    pub jump_slot: u32,
    /// Of a copy of a variable of a shared library.
    pub copy: u32,
    /// Of a word with what the function at the load address plus A returns.
    pub irelative: u32,
    /// Of a word with the number of the symbol's module.
    pub module_number: u32,
    /// Of a word with the symbol's offset in the block of its module.
    pub module_offset: u32,
    /// Of a word with the symbol's offset from the thread pointer.
    pub thread_offset: u32,
    /// Of a TLS descriptor; 0 where the psABI has none.
    pub descriptor: u32,
}

/// What a linker knows of the GOT by its address and that of `_DYNAMIC`.
#[repr(C)]
#[derive(Clone, Copy)]
pub struct GotNumbers {
    /// What offsets from the GOT count from.
    pub base: u64,
    /// The GOT's first word; 0 where that is an entry.
    pub header: u64,
    /// 1 where the first word isn't an entry; else 0.
    pub has_header: u8,
}

/// A symbol that a linker defines if an object refers to it.
#[repr(C)]
#[derive(Clone, Copy)]
pub struct SymbolNumbers {
    /// How many bytes above its place it is.
    pub offset: u64,
    /// 0 thread-local, at the TLS image or in an executable at the thread pointer; 1 the GOT; 2 the
    /// section `.sdata`.
    pub place: u32,
}

/// Functions that compilers call and linkers provide, in one run of code.
#[repr(C)]
#[derive(Clone, Copy)]
pub struct RunNumbers {
    /// How many instructions of 4 bytes the run has.
    pub len: u64,
    /// The number in the first function's name.
    pub first: u32,
    /// How many functions there are.
    pub count: u32,
    /// How many instructions, from 1 on, a function begins before the next.
    pub spacing: u32,
}

/// A stub's length in bytes, and the offset at which a call enters.
#[repr(C)]
#[derive(Clone, Copy)]
pub struct StubNumbers {
    pub len: u64,
    pub entry: u64,
}

/// Writes the types of the dynamic relocations of an architecture. `UnknownArchitecture`.
pub fn linker_utils_get_dynamic_types(machine: u16, types: &mut DynamicNumbers) -> u32 {
    let architecture = or_return!(Architecture::from_machine(machine), UnknownArchitecture);
    *types = numbers_in(Target::of(architecture));
    Status::Success as u32
}

/// The types of a description's dynamic relocations.
fn numbers_in(target: &Target) -> DynamicNumbers {
    let types = &target.dynamic;
    DynamicNumbers {
        word: types.word.r_type,
        relative: types.relative.r_type,
        glob_dat: types.glob_dat.r_type,
        jump_slot: types.jump_slot.r_type,
        copy: types.copy.r_type,
        irelative: types.irelative.r_type,
        module_number: types.module_number.r_type,
        module_offset: types.module_offset.r_type,
        thread_offset: types.thread_offset.r_type,
        descriptor: match types.descriptor {
            Some(descriptor) => descriptor.r_type,
            None => 0,
        },
    }
}

/// Writes a text to the beginning of bytes, without a NUL after it, and its length.
fn put_text(text: &str, out: &mut [u8], used: &mut usize) -> u32 {
    let len = text.len();
    if out.len() < len {
        return Status::TooShort as u32;
    }
    out[..len].copy_from_slice(text.as_bytes());
    *used = len;
    Status::Success as u32
}

/// Writes the name of a type of dynamic relocations, as "R_X86_64_RELATIVE", to the beginning of
/// `name`, and its length to `name_used`. The first that applies of `UnknownArchitecture`;
/// `UnknownRelocation`, of a type that is none of `linker_utils_get_dynamic_types`; `TooShort`.
pub fn linker_utils_dynamic_name_nonnull(
    machine: u16,
    r_type: u32,
    name: &mut [u8],
    name_used: &mut usize,
) -> u32 {
    let architecture = or_return!(Architecture::from_machine(machine), UnknownArchitecture);
    let text = or_return!(
        Target::of(architecture).dynamic_name(r_type),
        UnknownRelocation
    );
    put_text(text, name, name_used)
}

/// The class with a number.
#[inline]
fn class_of(number: u32) -> Option<EntryClass> {
    match number {
        1 => Some(EntryClass::Address),
        2 => Some(EntryClass::ThreadOffset),
        3 => Some(EntryClass::ModuleOffset),
        4 => Some(EntryClass::Module),
        5 => Some(EntryClass::Descriptor),
        _ => None,
    }
}

/// An `r_type`; 0 where there is none.
#[inline]
fn r_type_or_none(r_type: Option<u32>) -> u32 {
    match r_type {
        Some(r_type) => r_type,
        None => 0,
    }
}

/// The types of the dynamic relocations of both words of a GOT entry; 0 for a word that has none.
#[repr(C)]
#[derive(Clone, Copy)]
pub struct WordNumbers {
    pub first: u32,
    pub second: u32,
}

/// Both words of a GOT entry; the second is 0 where the entry has one.
#[repr(C)]
#[derive(Clone, Copy)]
pub struct EntryWords {
    pub first: u64,
    pub second: u64,
}

/// Writes the types of the dynamic relocations of the words of a GOT entry of a class, as
/// `Target::dynamic_words`. The first that applies of `UnknownArchitecture`; `UnknownEntryClass`.
pub fn linker_utils_dynamic_words(
    machine: u16,
    entry_class: u32,
    is_bound: bool,
    is_executable: bool,
    words: &mut WordNumbers,
) -> u32 {
    let architecture = or_return!(Architecture::from_machine(machine), UnknownArchitecture);
    let class = or_return!(class_of(entry_class), UnknownEntryClass);
    let r_types = Target::of(architecture).dynamic_words(class, is_bound, is_executable);
    *words = WordNumbers {
        first: r_type_or_none(r_types[0]),
        second: r_type_or_none(r_types[1]),
    };
    Status::Success as u32
}

/// How many words of 8 bytes an entry of a class has; 0 of a number that is no class.
pub fn linker_utils_get_entry_words(entry_class: u32) -> u64 {
    match class_of(entry_class) {
        Some(class) => entry_words(class),
        None => 0,
    }
}

/// Writes what an entry's words hold in a static executable, as `static_words` of `output`.
/// `UnknownEntryClass`, also of a TLS descriptor, which no static executable has.
pub fn linker_utils_static_words(
    entry_class: u32,
    address: u64,
    origins: &Origins,
    words: &mut EntryWords,
) -> u32 {
    let class = or_return!(class_of(entry_class), UnknownEntryClass);
    let both = or_return!(static_words(class, address, *origins), UnknownEntryClass);
    *words = EntryWords {
        first: both[0],
        second: both[1],
    };
    Status::Success as u32
}

/// Writes what offsets of thread-local storage count from, by the TLS image, as `Target::origins`.
/// `UnknownArchitecture`.
pub fn linker_utils_get_origins(
    machine: u16,
    image: u64,
    image_len: u64,
    alignment: u64,
    origins: &mut Origins,
) -> u32 {
    let architecture = or_return!(Architecture::from_machine(machine), UnknownArchitecture);
    *origins = Target::of(architecture).origins(image, image_len, alignment);
    Status::Success as u32
}

/// Writes what offsets from the GOT count from, and its first word where that isn't an entry, by
/// the GOT's address and that of `_DYNAMIC`, 0 where there is none. `UnknownArchitecture`.
pub fn linker_utils_get_got(
    machine: u16,
    address: u64,
    dynamic: u64,
    got: &mut GotNumbers,
) -> u32 {
    let architecture = or_return!(Architecture::from_machine(machine), UnknownArchitecture);
    let target = Target::of(architecture);
    let (has_header, header) = match target.got_header(address, dynamic) {
        Some(word) => (1, word),
        None => (0, 0),
    };
    *got = GotNumbers {
        base: target.got_base(address),
        header,
        has_header,
    };
    Status::Success as u32
}

/// Writes `e_flags` of two objects that are linked, as `Target::join_flags`. The first that applies
/// of `UnknownArchitecture`; `DifferentFlags`.
pub fn linker_utils_join_flags(
    machine: u16,
    first: u32,
    second: u32,
    joined: &mut u32,
) -> u32 {
    let architecture = or_return!(Architecture::from_machine(machine), UnknownArchitecture);
    *joined = or_return!(
        Target::of(architecture).join_flags(first, second),
        DifferentFlags
    );
    Status::Success as u32
}

/// `e_flags` of an output, from those that `linker_utils_join_flags` made of its objects. They are
/// unchanged for a machine that isn't known.
pub fn linker_utils_output_flags(machine: u16, joined: u32) -> u32 {
    match Architecture::from_machine(machine) {
        Some(architecture) => Target::of(architecture).output_flags(joined),
        None => joined,
    }
}

/// The largest page, in bytes, for which an output has to be right; 0 of a machine that isn't
/// known.
pub fn linker_utils_page(machine: u16) -> u64 {
    match Architecture::from_machine(machine) {
        Some(architecture) => page_of(Target::of(architecture)),
        None => 0,
    }
}

/// The page of a description.
#[inline]
fn page_of(target: &Target) -> u64 {
    target.page
}

/// How many bytes the shortest instruction of an output with such `e_flags` has; 0 of a machine
/// that isn't known.
pub fn linker_utils_code_unit(machine: u16, flags: u32) -> u64 {
    match Architecture::from_machine(machine) {
        Some(architecture) => Target::of(architecture).unit(flags),
        None => 0,
    }
}

/// The byte at an offset of a gap in code, which counts from a multiple of 4; 0 of a machine that
/// isn't known.
pub fn linker_utils_filler(machine: u16, offset: u64) -> u8 {
    match Architecture::from_machine(machine) {
        Some(architecture) => Target::of(architecture).filler(offset),
        None => 0,
    }
}

/// Writes the path of the dynamic linker in glibc for an output with such `e_flags` to the
/// beginning of `path`, and its length to `path_used`. The first that applies of
/// `UnknownArchitecture`; `NotProvided`; `TooShort`.
pub fn linker_utils_interpreter_nonnull(
    machine: u16,
    flags: u32,
    path: &mut [u8],
    path_used: &mut usize,
) -> u32 {
    let architecture = or_return!(Architecture::from_machine(machine), UnknownArchitecture);
    let text = or_return!(Target::of(architecture).interpreter(flags), NotProvided);
    put_text(text, path, path_used)
}

/// Writes the name of the section of objects in which compilers keep addresses to the beginning of
/// `name`, and its length to `name_used`. The first that applies of `UnknownArchitecture`;
/// `NotProvided`, where there is none; `TooShort`.
pub fn linker_utils_address_section_nonnull(
    machine: u16,
    name: &mut [u8],
    name_used: &mut usize,
) -> u32 {
    let architecture = or_return!(Architecture::from_machine(machine), UnknownArchitecture);
    put_section_name(Target::of(architecture), name, name_used)
}

fn put_section_name(target: &Target, name: &mut [u8], name_used: &mut usize) -> u32 {
    let section = or_return!(&target.address_section, NotProvided);
    put_text(section.name, name, name_used)
}

/// Writes the type of the relocation that an instruction would have if the address were in an entry
/// of the GOT, by its `r_type` where that is in a word of this section. The first that applies of
/// `UnknownArchitecture`; `NotProvided`, of other types.
pub fn linker_utils_entry_relocation(
    machine: u16,
    r_type: u32,
    entry_type: &mut u32,
) -> u32 {
    let architecture = or_return!(Architecture::from_machine(machine), UnknownArchitecture);
    *entry_type = or_return!(Target::of(architecture).entry_r_type(r_type), NotProvided);
    Status::Success as u32
}

/// Writes the entry with an index, of those that an output's dynamic section has by the
/// architecture's psABI. The first that applies of `UnknownArchitecture`; `NotProvided`, of an
/// index that is too large.
pub fn linker_utils_get_dynamic_entry(
    machine: u16,
    facts: &DynamicFacts,
    index: usize,
    entry: &mut DynamicEntry,
) -> u32 {
    let architecture = or_return!(Architecture::from_machine(machine), UnknownArchitecture);
    *entry = or_return!(
        Target::of(architecture).dynamic_entry(facts, index),
        NotProvided
    );
    Status::Success as u32
}

/// The number of a place.
#[inline]
fn place_number(place: SymbolPlace) -> u32 {
    match place {
        SymbolPlace::ThreadLocal => 0,
        SymbolPlace::Got => 1,
        SymbolPlace::SmallData => 2,
    }
}

/// Writes the symbol with an index that a linker defines if an object refers to it: its name to the
/// beginning of `name`, its length to `name_used`, and where it is. The first that applies of
/// `UnknownArchitecture`; `NotProvided`, of an index that is too large; `TooShort`.
pub fn linker_utils_get_provided_symbol_nonnull(
    machine: u16,
    index: usize,
    name: &mut [u8],
    name_used: &mut usize,
    symbol: &mut SymbolNumbers,
) -> u32 {
    let architecture = or_return!(Architecture::from_machine(machine), UnknownArchitecture);
    put_symbol(Target::of(architecture), index, name, name_used, symbol)
}

fn put_symbol(
    target: &Target,
    index: usize,
    name: &mut [u8],
    name_used: &mut usize,
    symbol: &mut SymbolNumbers,
) -> u32 {
    let provided = or_return!(target.symbols.get(index), NotProvided);
    if name.len() < provided.name.len() {
        return Status::TooShort as u32;
    }
    *symbol = SymbolNumbers {
        offset: provided.offset,
        place: place_number(provided.place),
    };
    put_text(provided.name, name, name_used)
}

/// Writes the run with an index of functions that linkers provide: their names without the number
/// after it to the beginning of `prefix`, its length to `prefix_used`, and the numbers. The first
/// that applies of `UnknownArchitecture`; `NotProvided`, of an index that is too large; `TooShort`.
pub fn linker_utils_get_save_restore_routines_nonnull(
    machine: u16,
    index: usize,
    prefix: &mut [u8],
    prefix_used: &mut usize,
    run: &mut RunNumbers,
) -> u32 {
    let architecture = or_return!(Architecture::from_machine(machine), UnknownArchitecture);
    put_run(Target::of(architecture), index, prefix, prefix_used, run)
}

fn put_run(
    target: &Target,
    index: usize,
    prefix: &mut [u8],
    prefix_used: &mut usize,
    run: &mut RunNumbers,
) -> u32 {
    let provided = or_return!(target.runs.get(index), NotProvided);
    if prefix.len() < provided.prefix.len() {
        return Status::TooShort as u32;
    }
    *run = RunNumbers {
        len: provided.len(),
        first: provided.first,
        count: provided.count,
        spacing: provided.spacing() as u32,
    };
    put_text(provided.prefix, prefix, prefix_used)
}

/// Writes the instruction at an index of the run with an index that linkers provide. The first that
/// applies of `UnknownArchitecture`; `NotProvided`, of an index that is too large.
pub fn linker_utils_provided_word(
    machine: u16,
    run: usize,
    index: u64,
    word: &mut u32,
) -> u32 {
    let architecture = or_return!(Architecture::from_machine(machine), UnknownArchitecture);
    put_word(Target::of(architecture), run, index, word)
}

fn put_word(target: &Target, run: usize, index: u64, word: &mut u32) -> u32 {
    let provided = or_return!(target.runs.get(run), NotProvided);
    *word = or_return!(provided.word_at(index), NotProvided);
    Status::Success as u32
}

/// The kind with a number.
#[inline]
fn kind_of(number: u32) -> Option<StubKind> {
    match number {
        0 => Some(StubKind::Load),
        1 => Some(StubKind::Jump),
        2 => Some(StubKind::Far),
        3 => Some(StubKind::FarRelative),
        4 => Some(StubKind::LandingLoad),
        5 => Some(StubKind::TocLoad),
        6 => Some(StubKind::TocFar),
        7 => Some(StubKind::PrefixedLoad),
        8 => Some(StubKind::PrefixedJump),
        _ => None,
    }
}

/// Writes the length of a stub of a kind in bytes, and the offset at which a call enters: kind 0
/// jumps to the address that a word has, 1 to a far target, 2 and 3 to one anywhere, by its address
/// or by the distance to it, and 4 is 0 for protected code. 5 is 0 by the TOC pointer, 6 jumps by
/// it to the address that a word has, and 7 and 8 are 0 and 1 by a prefixed instruction. The first
/// that applies of `UnknownArchitecture`; `UnknownStub`, where the architecture has none of the
/// kind.
pub fn linker_utils_get_stub(machine: u16, kind: u32, stub: &mut StubNumbers) -> u32 {
    let architecture = or_return!(Architecture::from_machine(machine), UnknownArchitecture);
    put_stub(Target::of(architecture), kind, stub)
}

fn put_stub(target: &Target, kind: u32, numbers: &mut StubNumbers) -> u32 {
    let kind = or_return!(kind_of(kind), UnknownStub);
    let stub = or_return!(target.stub(kind), UnknownStub);
    *numbers = StubNumbers {
        len: stub.len(),
        entry: stub.entry,
    };
    Status::Success as u32
}

/// Writes the stub of a kind that stands at an address, as `Target::write_stub`, to the beginning
/// of `bytes`. The first that applies of `UnknownArchitecture`; `UnknownStub`; `TooShort`; and
/// where the target is out of the stub's reach the error of the first such field, as
/// `linker_utils_relocate`. Then `bytes` are unchanged.
pub fn linker_utils_write_stub_nonnull(
    machine: u16,
    kind: u32,
    place: u64,
    target: u64,
    bytes: &mut [u8],
) -> u32 {
    let architecture = or_return!(Architecture::from_machine(machine), UnknownArchitecture);
    write_by(Target::of(architecture), kind, place, target, bytes)
}

fn write_by(description: &Target, kind: u32, place: u64, target: u64, bytes: &mut [u8]) -> u32 {
    let kind = or_return!(kind_of(kind), UnknownStub);
    status_in(description.write_stub(kind, place, target, bytes))
}
