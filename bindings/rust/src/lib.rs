// SPDX-License-Identifier: MIT OR Apache-2.0
//! The verified core of a linker, over its static library: what each call does, and when it fails, is
//! proved of the library and said in `include/linker_utils.h`.
//!
//! ```
//! use sathunne::{relocation, write, Architecture, RelocationSize, Status};
//!
//! // `R_AARCH64_CONDBR19` (280) in a `b.eq`, over a distance of 8 bytes
//! let distance: i64 = 8;
//! let info = relocation(Architecture::AArch64, 280)?;
//! let mut insn = 0x5400_0000_u32.to_le_bytes();
//! if let RelocationSize::Bits { range, form } = info.size {
//!     let bits = (distance as u64 >> range.start) & ((1 << range.len()) - 1);
//!     write(form, bits, distance < 0, &mut insn)?;
//! }
//! assert_eq!(u32::from_le_bytes(insn), 0x5400_0040);
//! # Ok::<(), Status>(())
//! ```

mod names;
pub mod raw;

pub use names::*;
use std::error::Error;
use std::ffi::CStr;
use std::fmt;
use std::ops::Range;

/// Where a relocation's value goes.
#[derive(Debug, Clone, PartialEq, Eq)]
pub enum RelocationSize {
    /// So many whole bytes, the lowest first.
    Bytes(u8),
    /// These bits of the value into the instruction of a form.
    Bits { range: Range<u8>, form: Form },
}

/// What a relocation means. How it is applied is said at `struct linker_utils_relocation_info` in
/// `include/linker_utils_relocations.h`.
#[derive(Debug, Clone, PartialEq, Eq)]
pub struct RelocationInfo {
    pub kind: RelocationKind,
    pub size: RelocationSize,
    pub mask: Option<PageMask>,
    /// The values that are allowed, or `None` where all are.
    pub range: Option<Range<i64>>,
    /// What the value has to be a multiple of.
    pub alignment: u64,
    /// What is added first; 0 where nothing is.
    pub bias: u64,
    /// Whether a thunk may replace a target that is out of range.
    pub thunkable: bool,
    /// Whether the addend is in the section.
    pub implicit_addend: bool,
}

impl From<raw::RelocationInfo> for RelocationInfo {
    fn from(info: raw::RelocationInfo) -> RelocationInfo {
        let size = match info.is_bits {
            0 => RelocationSize::Bytes(info.byte_size),
            _ => RelocationSize::Bits {
                range: info.first_bit..info.end_bit,
                form: Form::from_numbers(info.machine, info.form).expect("a form of the library's"),
            },
        };
        RelocationInfo {
            kind: RelocationKind::from_number(info.kind).expect("a kind of the library's"),
            size,
            mask: PageMask::from_number(info.mask),
            range: (info.has_range != 0).then_some(info.min..info.max),
            alignment: info.alignment,
            bias: info.bias,
            thunkable: info.thunkable != 0,
            implicit_addend: info.implicit_addend != 0,
        }
    }
}

/// Some bytes of an input section that are deleted.
#[repr(C)]
#[derive(Debug, Clone, Copy, Default, PartialEq, Eq)]
pub struct Deletion {
    pub offset: u64,
    pub bytes: u32,
}

/// The same, with the sum of the bytes up to it.
#[repr(C)]
#[derive(Debug, Clone, Copy, Default, PartialEq, Eq)]
pub struct Delta {
    pub input_offset: u64,
    pub cumulative_deleted: u64,
    pub bytes_deleted: u32,
}

/// The first delta of a block of 64, as far as a search reads it.
#[repr(C)]
#[derive(Debug, Clone, Copy, Default, PartialEq, Eq)]
pub struct BlockHead {
    pub input_offset: u64,
    pub output_offset: u64,
}

/// A RISC-V call: the offset in the input section of its `auipc`, and of what it calls.
#[repr(C)]
#[derive(Debug, Clone, Copy, Default, PartialEq, Eq)]
pub struct Call {
    pub site: u64,
    pub target: u64,
}

/// What a relocation's value is computed from. Each field is explained at
/// `struct linker_utils_operands` in `include/linker_utils.h`.
#[repr(C)]
#[derive(Debug, Clone, Copy, Default, PartialEq, Eq)]
pub struct Operands {
    pub symbol: u64,
    pub addend: i64,
    pub place: u64,
    pub got_entry: u64,
    pub got_base: u64,
    pub plt_entry: u64,
    pub symbol_size: u64,
    pub tls_base: u64,
    pub has_got_entry: bool,
    /// Without one L is S.
    pub has_plt_entry: bool,
    pub has_tls_base: bool,
}

impl Operands {
    /// S, A and P; there is nothing else.
    pub fn new(symbol: u64, addend: i64, place: u64) -> Operands {
        Operands {
            symbol,
            addend,
            place,
            ..Operands::default()
        }
    }
}

/// What a linker knows of a relocation's symbol and of its output when it chooses a rewrite. Each
/// field is explained at `struct linker_utils_link_facts` in `include/linker_utils_rewriting.h`.
#[derive(Debug, Clone, Copy, Default, PartialEq, Eq)]
pub struct LinkFacts {
    pub is_local: bool,
    pub is_ifunc: bool,
    pub is_undefined_weak: bool,
    pub has_fixed_address: bool,
    pub is_pcrel_link_time_constant: bool,
    pub is_executable: bool,
    pub has_local_exec_base: bool,
    pub may_compress: bool,
    pub is_relaxable: bool,
    pub has_got_high_part: bool,
    pub is_label_relaxable: bool,
    pub toc_base_is_exclusive: bool,
    pub may_change_toc: bool,
    pub has_addresses: bool,
    pub group_fits: bool,
    pub is_class32: bool,
    pub operands: Operands,
}

impl From<&LinkFacts> for raw::LinkFacts {
    fn from(facts: &LinkFacts) -> raw::LinkFacts {
        raw::LinkFacts {
            is_local: facts.is_local.into(),
            is_ifunc: facts.is_ifunc.into(),
            is_undefined_weak: facts.is_undefined_weak.into(),
            has_fixed_address: facts.has_fixed_address.into(),
            is_pcrel_link_time_constant: facts.is_pcrel_link_time_constant.into(),
            is_executable: facts.is_executable.into(),
            has_local_exec_base: facts.has_local_exec_base.into(),
            may_compress: facts.may_compress.into(),
            is_relaxable: facts.is_relaxable.into(),
            has_got_high_part: facts.has_got_high_part.into(),
            is_label_relaxable: facts.is_label_relaxable.into(),
            toc_base_is_exclusive: facts.toc_base_is_exclusive.into(),
            may_change_toc: facts.may_change_toc.into(),
            has_addresses: facts.has_addresses.into(),
            group_fits: facts.group_fits.into(),
            is_class32: facts.is_class32.into(),
            operands: facts.operands,
        }
    }
}

/// A rewrite, and what becomes of the relocations.
#[derive(Debug, Clone, PartialEq, Eq)]
pub struct Choice {
    pub rewrite: Rewrite,
    /// The ELF type of the relocation that is then written.
    pub relocation: u32,
    /// What becomes of the next one.
    pub modifier: Modifier,
    /// Where the relocation is that is skipped, from the offset on.
    pub skipped_offset: Option<u64>,
    /// The bytes that are to be deleted after the rewrite, counted from the offset; empty if none
    /// are.
    pub deleted: Range<u64>,
    /// The relocation of another instruction that the rewrite changes too.
    pub other: Option<OtherRelocation>,
}

impl Choice {
    /// Whether the choice at the relocation of an ELF type leaves it and its instruction as they
    /// are: the rewrite is `NoOp`, and the relocation after it has the same type.
    pub fn is_unchanged(&self, r_type: u32) -> bool {
        let (machine, rewrite, opcode_len) = self.rewrite.numbers();
        let choice = raw::Choice {
            rewrite,
            relocation: self.relocation,
            opcode_len,
            ..raw::Choice::default()
        };
        unsafe { raw::linker_utils_is_unchanged(machine, r_type, &choice) }
    }
}

/// A relocation whose instruction a rewrite of another one changes too. Whatever relocation is there
/// gets the type that is named here.
#[derive(Debug, Clone, Copy, PartialEq, Eq)]
pub struct OtherRelocation {
    /// Where it is, in bytes from the offset of the rewrite's own relocation.
    pub offset: i64,
    /// Its ELF type after the rewrite.
    pub r_type: u32,
}

/// The bytes that a rewrite writes at an offset of a section; none where `len` is 0.
#[repr(C)]
#[derive(Debug, Clone, Copy, Default, PartialEq, Eq)]
pub struct RewriteWindow {
    /// How many bytes before the offset they begin.
    pub back: u64,
    /// How many they are.
    pub len: u64,
}

/// A relocation of a section: where it writes, its value and its ELF type.
#[repr(C)]
#[derive(Debug, Clone, Copy, Default, PartialEq, Eq)]
pub struct Relocation {
    pub offset: u64,
    pub value: i64,
    pub r_type: u32,
}

/// A form of a site's instructions: what it reaches, and how many bytes of the site it keeps.
#[repr(C)]
#[derive(Debug, Clone, Copy, Default, PartialEq, Eq)]
pub struct Shape {
    pub max_backward: u64,
    pub max_forward: u64,
    pub kept: u32,
    pub granularity: u32,
}

/// The forms that the instructions of a site can have, by ascending length. Of `short` the first
/// `count` count.
#[repr(C)]
#[derive(Debug, Clone, Copy, Default, PartialEq, Eq)]
pub struct Shapes {
    pub short: [Shape; 2],
    pub longest: u32,
    pub count: u8,
}

impl Shapes {
    /// A deletion that is decided already, of all bytes of the site but the first `kept`.
    pub const fn fixed(kept: u32) -> Shapes {
        const NONE: Shape = Shape {
            max_backward: 0,
            max_forward: 0,
            kept: 0,
            granularity: 0,
        };
        Shapes {
            short: [NONE; 2],
            longest: kept,
            count: 0,
        }
    }
}

/// A part of a run that relaxation may shorten. `kind` is a number of `ItemKind`, which says what the
/// other fields mean.
#[repr(C)]
#[derive(Debug, Clone, Copy, Default, PartialEq, Eq)]
pub struct Item {
    pub offset: u64,
    pub target: u64,
    pub alignment: u64,
    pub max_skip: u64,
    pub len: u32,
    pub kind: u32,
    pub shapes: Shapes,
}

impl Item {
    /// Instructions that can become shorter where they reach their target.
    pub fn site(offset: u64, len: u32, target: u64, shapes: Shapes) -> Item {
        Item {
            offset,
            target,
            len,
            kind: ItemKind::Site.number(),
            shapes,
            ..Item::default()
        }
    }

    /// Nops that align what follows them to a power of two, of which at most so many bytes may stay.
    pub fn alignment(offset: u64, nops: u32, alignment: u64, max_skip: Option<u64>) -> Item {
        let kind = match max_skip {
            None => ItemKind::Alignment,
            Some(_) => ItemKind::LimitedAlignment,
        };
        Item {
            offset,
            alignment,
            max_skip: max_skip.unwrap_or_default(),
            len: nops,
            kind: kind.number(),
            ..Item::default()
        }
    }
}

/// A relocation of a section, and what it refers to in a run: `target`, where `has_target` isn't 0.
/// `has_symbol` is 0 where it has no symbol. `may_compress` isn't 0 where the code may use RISC-V's C
/// extension.
#[repr(C)]
#[derive(Debug, Clone, Copy, Default, PartialEq, Eq)]
pub struct Rela {
    pub offset: u64,
    pub target: u64,
    pub addend: i64,
    pub r_type: u32,
    pub has_symbol: u8,
    pub has_target: u8,
    pub may_compress: u8,
}

/// What a linker knows of a symbol, once addresses are known. Each field is explained at
/// `struct linker_utils_symbol` in `include/linker_utils.h`.
#[repr(C)]
#[derive(Debug, Clone, Copy, Default, PartialEq, Eq)]
pub struct Symbol {
    pub address: u64,
    pub size: u64,
    pub stub: u64,
    pub address_entry: u64,
    pub thread_entry: u64,
    pub module_entry: u64,
    pub descriptor: u64,
    pub entry_addend: i64,
    pub other: u8,
    pub is_thread_local: bool,
    pub is_undefined_weak: bool,
}

/// What a linker knows of the symbol of one relocation. Each field is explained at
/// `struct linker_utils_resolved` in `include/linker_utils_relocations.h`.
#[repr(C)]
#[derive(Debug, Clone, Copy, Default, PartialEq, Eq)]
pub struct Resolved {
    pub address: u64,
    pub entry: u64,
    pub stub: u64,
    pub other: u8,
    pub is_undefined_weak: bool,
    pub is_left_out: bool,
}

/// What a linker knows of a section and of the output that it is in. Each field is explained at
/// `struct linker_utils_link` in `include/linker_utils.h`.
#[repr(C)]
#[derive(Debug, Clone, Copy, Default, PartialEq, Eq)]
pub struct Addresses {
    pub section: u64,
    pub got_base: u64,
    pub thread_origin: u64,
    pub module_origin: u64,
    pub module_entry: u64,
    pub has_tls: bool,
}

/// An entry of the GOT that a relocation requires, of S + `addend`.
#[derive(Debug, Clone, Copy, PartialEq, Eq)]
pub struct Entry {
    pub class: EntryClass,
    pub addend: i64,
}

/// What a relocation requires of a linker, as `struct linker_utils_requirements` in
/// `include/linker_utils.h` explains.
#[derive(Debug, Clone, Copy, PartialEq, Eq)]
pub struct Requirements {
    pub entry: Option<Entry>,
    pub is_branch: bool,
    /// Whether a stub or an entry of the PLT may serve as its target.
    pub may_use_stub: bool,
    /// Whether such an entry is made only if the output doesn't define the symbol.
    pub stub_only_if_undefined: bool,
    /// Whether it is a word of 8 bytes with S + A.
    pub is_word: bool,
    /// Whether what is written depends on where the output is loaded.
    pub depends_on_load: bool,
}

impl From<raw::Requirements> for Requirements {
    fn from(required: raw::Requirements) -> Requirements {
        let entry = EntryClass::from_number(required.entry_class);
        Requirements {
            entry: entry.map(|class| Entry {
                class,
                addend: required.entry_addend,
            }),
            is_branch: required.is_branch != 0,
            may_use_stub: required.may_use_stub != 0,
            stub_only_if_undefined: required.stub_only_if_undefined != 0,
            is_word: required.is_word != 0,
            depends_on_load: required.depends_on_load != 0,
        }
    }
}

/// What a linker knows of a symbol before addresses are known. Each field is explained at
/// `struct linker_utils_symbol_facts` in `include/linker_utils.h`.
#[repr(C)]
#[derive(Debug, Clone, Copy, Default, PartialEq, Eq)]
pub struct SymbolFacts {
    pub is_local: bool,
    pub is_ifunc: bool,
    pub is_absolute: bool,
    pub is_undefined_weak: bool,
    pub is_tls_get_addr: bool,
    pub other: u8,
}

/// What a linker knows of the output. Each field is explained at `struct linker_utils_link` in
/// `include/linker_utils.h`.
#[repr(C)]
#[derive(Debug, Clone, Copy, Default, PartialEq, Eq)]
pub struct OutputFacts {
    pub is_executable: bool,
    pub is_fixed: bool,
    pub has_near_symbols: bool,
}

/// Which groups of a symbol stay as they are. Each field is explained at
/// `struct linker_utils_unrelaxable_groups` in `include/linker_utils_rewriting.h`.
#[repr(C)]
#[derive(Debug, Clone, Copy, Default, PartialEq, Eq)]
pub struct UnrelaxableGroups {
    pub initial_exec: bool,
    pub general_dynamic: bool,
    pub local_dynamic: bool,
    pub descriptor: bool,
    pub got_load: bool,
}

/// What choices of rewrites read of a symbol and of the output, as `struct linker_utils_facts_snapshot` in
/// `include/linker_utils_rewriting.h` explains.
#[repr(C)]
#[derive(Debug, Clone, Copy, Default, PartialEq, Eq)]
pub struct FactsSnapshot {
    pub bits: u16,
}

/// What becomes of a relocation and of its instruction, as `enum linker_utils_fate` in
/// `include/linker_utils_lists.h` explains.
#[derive(Debug, Clone, Copy, PartialEq, Eq)]
pub enum Decision {
    Kept,
    /// The instruction is rewritten, and the relocation gets this type.
    Rewritten {
        rewrite: Rewrite,
        relocation: u32,
    },
    Consumed,
    /// The same, and it gets another symbol and addend.
    RewrittenWithSymbol {
        rewrite: Rewrite,
        relocation: u32,
        symbol: u32,
        addend: i64,
    },
}

/// A decision of `decide_rewrites`, with a number of the bytes that it was made on.
#[repr(transparent)]
#[derive(Debug, Clone, Copy, PartialEq, Eq)]
pub struct KeptDecision(raw::Decision);

impl KeptDecision {
    /// What becomes of the relocation and of its instruction.
    pub fn kind(&self) -> Decision {
        decided(&self.0)
    }
}

/// The types of the dynamic relocations that a linker emits. Each field is explained at
/// `struct linker_utils_dynamic_types` in `include/linker_utils_outputs.h`.
#[repr(C)]
#[derive(Debug, Clone, Copy, Default, PartialEq, Eq)]
pub struct DynamicTypes {
    pub word: u32,
    pub relative: u32,
    pub glob_dat: u32,
    pub jump_slot: u32,
    pub copy: u32,
    pub irelative: u32,
    pub module_number: u32,
    pub module_offset: u32,
    pub thread_offset: u32,
    /// 0 where the psABI has none.
    pub descriptor: u32,
}

/// The addresses that offsets of thread-local storage count from.
#[repr(C)]
#[derive(Debug, Clone, Copy, Default, PartialEq, Eq)]
pub struct Origins {
    /// The address that the thread pointer stands for.
    pub thread_pointer: u64,
    /// What offsets in the module's block count from.
    pub module_block: u64,
}

/// What a linker knows of the GOT by its address.
#[derive(Debug, Clone, Copy, PartialEq, Eq)]
pub struct Got {
    /// What offsets from the GOT count from.
    pub base: u64,
    /// Its first word, if that isn't an entry.
    pub header: Option<u64>,
}

/// A symbol that a linker defines if an object refers to it.
#[derive(Debug, Clone, PartialEq, Eq)]
pub struct ProvidedSymbol {
    pub name: String,
    pub place: SymbolPlace,
    /// How many bytes above its place.
    pub offset: u64,
}

/// Functions that compilers call and linkers provide, in one run of code. That with a number n begins
/// 4 * `spacing` * (n - `first`) bytes after the run's start.
#[derive(Debug, Clone, PartialEq, Eq)]
pub struct SaveRestoreRoutines {
    /// The functions' names without the number, which stands after it in decimal.
    pub prefix: String,
    /// The least number.
    pub first: u32,
    /// How many functions there are.
    pub count: u32,
    /// How many instructions, from 1 on, a function begins before the next.
    pub spacing: u32,
    /// The run's instructions.
    pub words: Vec<u32>,
}

/// A stub of an architecture.
#[repr(C)]
#[derive(Debug, Clone, Copy, Default, PartialEq, Eq)]
pub struct Stub {
    /// In bytes.
    pub len: u64,
    /// The offset at which a call enters.
    pub entry: u64,
}

/// The lazy PLT of an architecture.
#[repr(C)]
#[derive(Debug, Clone, Copy, Default, PartialEq, Eq)]
pub struct LazyPlt {
    /// The header's length in bytes.
    pub header_len: u64,
    /// An entry's length in bytes.
    pub entry_len: u64,
    /// What addresses of the header and of entries are multiples of.
    pub alignment: u64,
    /// How many words `.got.plt` has before those of entries.
    pub header_words: u64,
}

/// What an entry of a lazy PLT is written from.
#[repr(C)]
#[derive(Debug, Clone, Copy, Default, PartialEq, Eq)]
pub struct LazyEntry {
    /// Its address.
    pub address: u64,
    /// The address of its word in `.got.plt`.
    pub word: u64,
    /// The address of the header.
    pub header: u64,
    /// The index of its relocation in `.rela.plt`.
    pub index: u64,
}

/// How a branch goes to its target.
#[derive(Debug, Clone, Copy, PartialEq, Eq)]
pub enum Route {
    /// To the symbol, or to the stub that it has.
    Direct,
    /// By a stub.
    Stub {
        kind: StubKind,
        /// The offset at which the branch enters the stub. Where that is 0 and `Stub::entry` isn't, the
        /// stub stores PowerPC64's TOC pointer, and `ld 2,24(1)` has to be in place of the `nop` after
        /// the branch.
        entry: u64,
        /// What the stub goes to, as `write_stub` takes it.
        target: u64,
    },
}

/// A branch that may need a stub.
#[repr(C)]
#[derive(Debug, Clone, Copy, Default, PartialEq, Eq)]
pub struct Branch {
    pub offset: u64,
    /// Its target, as an index of the targets.
    pub target: usize,
    /// How far below the branch what it reaches may lie.
    pub max_backward: u64,
    /// What it reaches has to lie less than so many bytes above the branch.
    pub max_forward: u64,
}

/// What each stub is like.
#[repr(C)]
#[derive(Debug, Clone, Copy, Default, PartialEq, Eq)]
pub struct StubShape {
    /// In bytes.
    pub len: u64,
    /// The stubs at a boundary take a multiple of so many bytes.
    pub unit: u64,
    /// How far below the stub its target may lie.
    pub max_backward: u64,
    /// The target has to lie less than so many bytes above the stub.
    pub max_forward: u64,
}

/// A stub that is placed.
#[repr(C)]
#[derive(Debug, Clone, Copy, Default, PartialEq, Eq)]
pub struct PlacedStub {
    /// Where it is.
    pub place: u64,
    /// The index of the boundary at which it stands.
    pub boundary: usize,
    /// The index of its target.
    pub target: usize,
}

/// Stubs with which each branch reaches what it goes by.
#[derive(Debug, Clone, Default, PartialEq, Eq)]
pub struct Placement {
    pub stubs: Vec<PlacedStub>,
    /// For each branch the index of the stub that it goes by; `None` if it goes to its target.
    pub ways: Vec<Option<usize>>,
    /// How many bytes of stubs there are before those at each boundary, and in all.
    pub before: Vec<u64>,
}

/// What is known of a number of 64 bits, a relocation's value or an address: bits `first_bit` and up,
/// below `end_bit`, of the sum of the number and `rounding`, modulo 2^64. The first of them is bit 0
/// of `bits`.
#[repr(C)]
#[derive(Debug, Clone, Copy, Default, PartialEq, Eq)]
pub struct FieldValue {
    pub bits: u64,
    pub rounding: u64,
    pub first_bit: u8,
    pub end_bit: u8,
}

impl FieldValue {
    /// Whether a number has the known bits. Of a value, its 64 bits in two's complement are meant.
    /// None has them if no bits are known, or some above bit 63.
    pub fn is_of(&self, number: u64) -> bool {
        if self.first_bit >= self.end_bit || self.end_bit > 64 {
            return false;
        }
        let above = number.wrapping_add(self.rounding) >> self.first_bit;
        above & (u64::MAX >> (64 - (self.end_bit - self.first_bit))) == self.bits
    }

    /// The number, if all of its bits are known.
    pub fn number(&self) -> Option<u64> {
        let is_whole = self.first_bit == 0 && self.end_bit == 64;
        is_whole.then_some(self.bits.wrapping_sub(self.rounding))
    }
}

/// Some bits of the eight bytes from an offset of a window on. Bit 0 is the lowest of the byte at the
/// offset.
#[repr(C)]
#[derive(Debug, Clone, Copy, Default, PartialEq, Eq)]
pub struct FieldBits {
    pub offset: u64,
    pub bits: u64,
}

/// The bytes at a relocation before and after linking, as `recognise` compares them.
#[derive(Debug, Clone, Copy, PartialEq, Eq)]
pub struct Windows<'a> {
    /// At most 64 bytes.
    pub original: &'a [u8],
    /// The relocation's offset in them.
    pub offset: u64,
    /// The bits of them that other relocations write.
    pub others: &'a [FieldBits],
    /// From the same place on.
    pub linked: &'a [u8],
}

/// A rewrite that leaves the linked bytes, and what stands in the field of the relocation after it.
#[derive(Debug, Clone, PartialEq, Eq)]
pub struct Recognised {
    pub choice: Choice,
    /// The offset of the relocation's field in the linked bytes.
    pub offset: u64,
    /// What is known of its value; `None` if the relocation holds no value.
    pub value: Option<FieldValue>,
}

/// Where a recognised relocation leads.
#[derive(Debug, Clone, Copy, PartialEq, Eq)]
pub struct Destination {
    /// Which address it is.
    pub reference: Reference,
    /// What is known of it.
    pub address: FieldValue,
    /// The addend of the relocation after the rewrite.
    pub addend: i64,
    /// The symbol's address, or that of its entry of the PLT; `None` of an entry of the GOT, and where
    /// not all bits of the address are known.
    pub symbol: Option<u64>,
}

fn result_of<T>(status: u32, value: T) -> Result<T, Status> {
    match status {
        0 => Ok(value),
        _ => Err(Status::from_number(status).expect("a status of the library's")),
    }
}

/// Why a call over an array fails, and at which of its entries, where it is one's fault.
#[derive(Debug, Clone, Copy, PartialEq, Eq)]
pub struct ArrayError {
    pub status: Status,
    pub index: Option<usize>,
}

impl fmt::Display for ArrayError {
    fn fmt(&self, f: &mut fmt::Formatter<'_>) -> fmt::Result {
        write!(f, "{}", self.status)?;
        match self.index {
            Some(index) => write!(f, " It is entry {index}."),
            None => Ok(()),
        }
    }
}

impl Error for ArrayError {}

impl From<Status> for ArrayError {
    fn from(status: Status) -> ArrayError {
        let index = None;
        ArrayError { status, index }
    }
}

/// The result of a call that writes the index of an entry where the status speaks of one.
fn result_over(call: impl FnOnce(&mut usize) -> u32) -> Result<(), ArrayError> {
    let mut faulty = 0;
    result_of(call(&mut faulty), ()).map_err(|status| match status {
        Status::CodeTooLong
        | Status::DifferentLengths
        | Status::OutOfMemory
        | Status::ShortMemory
        | Status::StubWithoutLength
        | Status::UnknownArchitecture
        | Status::UnknownLinkRegister => status.into(),
        _ => ArrayError {
            status,
            index: Some(faulty),
        },
    })
}

// SAFETY of each call below: a slice's pointer and length are its own, a reference is of one value, and
// the declarations in `raw` fit the library. It requires no more.

/// The version of the static library.
pub fn version() -> &'static str {
    // SAFETY: it takes no arguments, and returns a constant string.
    let text = unsafe { CStr::from_ptr(raw::linker_utils_version()) };
    text.to_str().expect("a version is of ASCII letters")
}

/// Whether the static library is the one that the prover's kit built, and not the one that rustc
/// built of the same source without contracts.
pub fn is_proved() -> bool {
    // SAFETY: it takes no arguments.
    unsafe { raw::linker_utils_is_proved() }
}

/// The length in bytes of the window that a form reads and writes.
pub fn window(form: impl Into<Form>) -> Result<usize, Status> {
    let (machine, form) = form.into().numbers();
    let mut window = 0;
    let status = unsafe { raw::linker_utils_window(machine, form, &mut window) };
    result_of(status, window)
}

/// Whether `write` of the value to these bytes would succeed.
pub fn fits(form: impl Into<Form>, value: u64, bytes: &[u8]) -> Result<(), Status> {
    let (machine, form) = form.into().numbers();
    let (at, len) = (bytes.as_ptr(), bytes.len());
    let status = unsafe { raw::linker_utils_fits_nonnull(machine, form, value, at, len) };
    result_of(status, ())
}

/// Writes a value and its sign into the instruction that `dest` begins with.
pub fn write(
    form: impl Into<Form>,
    value: u64,
    negative: bool,
    dest: &mut [u8],
) -> Result<(), Status> {
    let (machine, form) = form.into().numbers();
    let (at, len) = (dest.as_mut_ptr(), dest.len());
    let status =
        unsafe { raw::linker_utils_write_nonnull(machine, form, value, negative, at, len) };
    result_of(status, ())
}

/// The value in the instruction that `bytes` begins with, modulo 2^64, and the form's flag.
pub fn read(form: impl Into<Form>, bytes: &[u8]) -> Result<(u64, bool), Status> {
    let (machine, form) = form.into().numbers();
    let (mut value, mut negative) = (0, 0);
    let status = unsafe {
        raw::linker_utils_read_nonnull(
            machine,
            form,
            bytes.as_ptr(),
            bytes.len(),
            &mut value,
            &mut negative,
        )
    };
    result_of(status, (value, negative != 0))
}

/// Whether `apply` at this offset would succeed.
pub fn can_apply(rewrite: impl Into<Rewrite>, section: &[u8], offset: u64) -> Result<(), Status> {
    let (machine, rewrite, opcode_len) = rewrite.into().numbers();
    let (at, len) = (section.as_ptr(), section.len());
    let status = unsafe {
        raw::linker_utils_can_apply_nonnull(machine, rewrite, opcode_len, at, len, offset)
    };
    result_of(status, ())
}

/// Whether the bytes at an offset of a section are an instruction that the rewrite is meant for.
/// `apply` at this offset then succeeds.
pub fn matches(rewrite: impl Into<Rewrite>, section: &[u8], offset: u64) -> Result<(), Status> {
    let (machine, rewrite, opcode_len) = rewrite.into().numbers();
    let (at, len) = (section.as_ptr(), section.len());
    let status =
        unsafe { raw::linker_utils_matches_nonnull(machine, rewrite, opcode_len, at, len, offset) };
    result_of(status, ())
}

/// Rewrites the instruction at an offset of a section.
pub fn apply(
    rewrite: impl Into<Rewrite>,
    section: &mut [u8],
    offset: &mut u64,
    addend: &mut i64,
) -> Result<(), Status> {
    let (machine, rewrite, opcode_len) = rewrite.into().numbers();
    let (at, len) = (section.as_mut_ptr(), section.len());
    let status = unsafe {
        raw::linker_utils_apply_nonnull(machine, rewrite, opcode_len, at, len, offset, addend)
    };
    result_of(status, ())
}

/// The window of a rewrite: the bytes that `apply` writes at an offset of a section.
pub fn rewrite_window(rewrite: impl Into<Rewrite>) -> Result<RewriteWindow, Status> {
    let (machine, rewrite, opcode_len) = rewrite.into().numbers();
    let mut window = RewriteWindow::default();
    let status =
        unsafe { raw::linker_utils_rewrite_window(machine, rewrite, opcode_len, &mut window) };
    result_of(status, window)
}

/// What becomes of the relocation after that of the rewritten instruction.
pub fn next_modifier(rewrite: impl Into<Rewrite>) -> Result<Modifier, Status> {
    let (machine, rewrite, opcode_len) = rewrite.into().numbers();
    let mut modifier = 0;
    let status =
        unsafe { raw::linker_utils_next_modifier(machine, rewrite, opcode_len, &mut modifier) };
    let modifier = Modifier::from_number(modifier).expect("a modifier of the library's");
    result_of(status, modifier)
}

/// The rewrite that a linker may make of the instruction at a relocation by these facts, and the
/// relocation after it.
pub fn choose(
    architecture: Architecture,
    r_type: u32,
    section: &[u8],
    offset: u64,
    facts: &LinkFacts,
) -> Result<Choice, Status> {
    let (at, len) = (section.as_ptr(), section.len());
    let (machine, facts) = (architecture.machine(), raw::LinkFacts::from(facts));
    let mut choice = raw::Choice::default();
    let status = unsafe {
        raw::linker_utils_choose_nonnull(machine, r_type, at, len, offset, &facts, &mut choice)
    };
    result_of(status, ())?;
    Ok(choice_of(architecture, &choice))
}

/// Whether a relocation can be rewritten if each other one of its sequence can: whether `choose`
/// changes something by these facts and `group_fits`.
pub fn relocation_fits(
    architecture: Architecture,
    r_type: u32,
    section: &[u8],
    offset: u64,
    facts: &LinkFacts,
) -> bool {
    let (at, len) = (section.as_ptr(), section.len());
    let (machine, facts) = (architecture.machine(), raw::LinkFacts::from(facts));
    unsafe { raw::linker_utils_relocation_fits_nonnull(machine, r_type, at, len, offset, &facts) }
}

/// A choice for an architecture.
fn choice_of(architecture: Architecture, choice: &raw::Choice) -> Choice {
    Choice {
        rewrite: Rewrite::from_numbers(architecture, choice.rewrite, choice.opcode_len)
            .expect("a rewrite of the library's"),
        relocation: choice.relocation,
        modifier: Modifier::from_number(choice.modifier).expect("a modifier of the library's"),
        skipped_offset: (choice.modifier != 0).then_some(choice.skipped_offset.into()),
        deleted: choice.deleted_start..choice.deleted_start + u64::from(choice.deleted_len),
        other: (choice.has_other != 0).then_some(OtherRelocation {
            offset: choice.other_offset,
            r_type: choice.other_relocation,
        }),
    }
}

/// What the relocation of an ELF type means.
pub fn relocation(architecture: Architecture, r_type: u32) -> Result<RelocationInfo, Status> {
    let mut info = raw::RelocationInfo::default();
    let status = unsafe { raw::linker_utils_relocation(architecture.machine(), r_type, &mut info) };
    result_of(status, ())?;
    Ok(info.into())
}

/// The value of a relocation, by the formula of its kind.
pub fn value(architecture: Architecture, r_type: u32, operands: &Operands) -> Result<i64, Status> {
    let mut value = 0;
    let status =
        unsafe { raw::linker_utils_value(architecture.machine(), r_type, operands, &mut value) };
    result_of(status, value)
}

/// The values of a relocation that `relocate` writes, or `None` if it writes all.
pub fn reach(architecture: Architecture, r_type: u32) -> Result<Option<Range<i64>>, Status> {
    let mut reach = raw::Reach::default();
    let status = unsafe { raw::linker_utils_reach(architecture.machine(), r_type, &mut reach) };
    result_of(status, range_of(&reach))
}

/// Writes the value of a relocation to the bytes that `dest` begins with.
pub fn relocate(
    architecture: Architecture,
    r_type: u32,
    value: i64,
    dest: &mut [u8],
) -> Result<(), Status> {
    let (machine, at, len) = (architecture.machine(), dest.as_mut_ptr(), dest.len());
    let status = unsafe { raw::linker_utils_relocate_nonnull(machine, r_type, value, at, len) };
    result_of(status, ())
}

/// Writes the values of relocations of a section, in order, up to the first that is rejected.
pub fn relocate_all(
    architecture: Architecture,
    section: &mut [u8],
    relocations: &[Relocation],
) -> Result<(), ArrayError> {
    let (machine, at, len) = (architecture.machine(), section.as_mut_ptr(), section.len());
    result_over(|faulty| unsafe {
        raw::linker_utils_relocate_all_nonnull(
            machine,
            at,
            len,
            relocations.as_ptr(),
            relocations.len(),
            faulty,
        )
    })
}

/// What a relocation requires, by whether its symbol is thread-local.
pub fn needs(
    architecture: Architecture,
    r_type: u32,
    addend: i64,
    is_thread_local: bool,
) -> Result<Requirements, Status> {
    let (machine, mut required) = (architecture.machine(), raw::Requirements::default());
    let status =
        unsafe { raw::linker_utils_needs(machine, r_type, addend, is_thread_local, &mut required) };
    result_of(status, required.into())
}

/// A relocation of an architecture's type, looked up once: a handle of the library's.
#[derive(Debug, Clone, Copy, PartialEq, Eq, Hash)]
pub struct Row {
    architecture: Architecture,
    handle: u32,
}

/// What a relocation means and requires, as `struct linker_utils_row` in
/// `include/linker_utils_relocations.h` explains.
#[derive(Debug, Clone, PartialEq, Eq)]
pub struct RowFields {
    pub machine: u16,
    pub r_type: u32,
    pub name: String,
    pub kind: RelocationKind,
    /// Which values can be written; `None` if all can.
    pub reach: Option<Range<i64>>,
    pub alignment: u64,
    /// How many bytes a write writes.
    pub window: u8,
    /// What it requires with the addend 1, of a symbol that isn't thread-local.
    pub needs: Requirements,
    pub may_use_plt: bool,
    /// Whether its value is relative to the place.
    pub is_relative: bool,
}

/// The row of a relocation; `None` where the library knows no meaning.
pub fn find(architecture: Architecture, r_type: u32) -> Option<Row> {
    let handle = unsafe { raw::linker_utils_find(architecture.machine(), r_type) };
    (handle != 0).then_some(Row {
        architecture,
        handle,
    })
}

impl Row {
    /// What names the row: a number that depends on its architecture and type only.
    pub fn handle(self) -> u32 {
        self.handle
    }

    /// Its value, as `value` computes it.
    pub fn value(self, operands: &Operands) -> Result<i64, Status> {
        let mut value = 0;
        let status = unsafe { raw::linker_utils_row_value(self.handle, operands, &mut value) };
        result_of(status, value)
    }

    /// Writes a value, as `relocate` does.
    pub fn write(self, value: i64, dest: &mut [u8]) -> Result<(), Status> {
        let (at, len) = (dest.as_mut_ptr(), dest.len());
        let status = unsafe { raw::linker_utils_row_write_nonnull(self.handle, value, at, len) };
        result_of(status, ())
    }

    /// Computes its value and writes it.
    pub fn apply(self, operands: &Operands, dest: &mut [u8]) -> Result<(), Status> {
        let (at, len) = (dest.as_mut_ptr(), dest.len());
        let status = unsafe { raw::linker_utils_row_apply_nonnull(self.handle, operands, at, len) };
        result_of(status, ())
    }

    /// The values that `write` writes, or `None` if it writes all.
    pub fn reach(self) -> Result<Option<Range<i64>>, Status> {
        let mut reach = raw::Reach::default();
        let status = unsafe { raw::linker_utils_row_reach(self.handle, &mut reach) };
        result_of(status, range_of(&reach))
    }

    /// What it requires, by whether its symbol is thread-local.
    pub fn needs(self, addend: i64, is_thread_local: bool) -> Result<Requirements, Status> {
        let mut required = raw::Requirements::default();
        let status = unsafe {
            raw::linker_utils_row_needs(self.handle, addend, is_thread_local, &mut required)
        };
        result_of(status, required.into())
    }

    /// The rewrite that a linker may make of its instruction, as `choose` says.
    pub fn choose(
        self,
        section: &[u8],
        offset: u64,
        facts: &LinkFacts,
    ) -> Result<Choice, Status> {
        let (at, len) = (section.as_ptr(), section.len());
        let (facts, mut choice) = (raw::LinkFacts::from(facts), raw::Choice::default());
        let status = unsafe {
            raw::linker_utils_row_choose_nonnull(
                self.handle,
                at,
                len,
                offset,
                &facts,
                &mut choice,
            )
        };
        result_of(status, ())?;
        Ok(choice_of(self.architecture, &choice))
    }

    /// Whether it can be rewritten if each other one of its sequence can.
    pub fn fits(self, section: &[u8], offset: u64, facts: &LinkFacts) -> bool {
        let (at, len, facts) = (section.as_ptr(), section.len(), raw::LinkFacts::from(facts));
        unsafe { raw::linker_utils_row_fits_nonnull(self.handle, at, len, offset, &facts) }
    }

    /// What it means and requires.
    pub fn fields(self) -> Result<RowFields, Status> {
        let mut row = raw::Row::default();
        let status = unsafe { raw::linker_utils_row_of(self.handle, &mut row) };
        result_of(status, ())?;
        let name = CStr::from_bytes_until_nul(&row.name).expect("a NUL after each name");
        Ok(RowFields {
            machine: row.machine,
            r_type: row.r_type,
            name: name.to_str().expect("a name of ELF's").to_owned(),
            kind: RelocationKind::from_number(row.kind).expect("a kind of the library's"),
            reach: range_of(&row.reach),
            alignment: row.alignment,
            window: row.window,
            needs: row.needs.into(),
            may_use_plt: row.may_use_plt != 0,
            is_relative: row.is_relative != 0,
        })
    }
}

/// The values that can be written, or `None` if all can.
fn range_of(reach: &raw::Reach) -> Option<Range<i64>> {
    (reach.has_range != 0).then_some(reach.min..reach.max)
}

/// The value of the relocation at an index of a section's relocations, which are the bytes of
/// `Elf64_Rela`s; `None` of one without a value.
pub fn value_at(
    architecture: Architecture,
    addresses: &Addresses,
    relocations: &[u8],
    symbols: &[Symbol],
    index: usize,
) -> Result<Option<i64>, Status> {
    let mut value = 0;
    let status = unsafe {
        raw::linker_utils_value_at_nonnull(
            architecture.machine(),
            addresses,
            relocations.as_ptr(),
            relocations.len(),
            symbols.as_ptr(),
            symbols.len(),
            index,
            &mut value,
        )
    };
    match result_of(status, value) {
        Err(Status::NoValue) => Ok(None),
        value => value.map(Some),
    }
}

/// How many elements of memory `relocate_section` needs for these relocations.
pub fn relocate_memory(relocations: &[u8]) -> usize {
    let (at, len) = (relocations.as_ptr(), relocations.len());
    unsafe { raw::linker_utils_relocate_memory_nonnull(at, len) }
}

/// Writes the values of a section's relocations, which are the bytes of `Elf64_Rela`s, or none of
/// them. `memory` has as many elements as `relocate_memory` says, or more. The entry at fault is the
/// first relocation whose value can't be written.
pub fn relocate_section(
    architecture: Architecture,
    addresses: &Addresses,
    relocations: &[u8],
    symbols: &[Symbol],
    section: &mut [u8],
    memory: &mut [u64],
) -> Result<(), ArrayError> {
    result_over(|faulty| unsafe {
        raw::linker_utils_relocate_section_nonnull(
            architecture.machine(),
            addresses,
            relocations.as_ptr(),
            relocations.len(),
            symbols.as_ptr(),
            symbols.len(),
            section.as_mut_ptr(),
            section.len(),
            memory.as_mut_ptr(),
            memory.len(),
            faulty,
        )
    })
}

/// The relocations of an architecture's file of ELFCLASS32, each of 12 bytes, as other calls take them.
/// Bytes after the last whole one count for nothing. Only RISC-V has such files here.
pub fn read_rela32(architecture: Architecture, entries: &[u8]) -> Result<Vec<u8>, Status> {
    let mut relocations = vec![0; entries.len() / 12 * 24];
    let status = unsafe {
        raw::linker_utils_read_rela32_nonnull(
            architecture.machine(),
            entries.as_ptr(),
            entries.len(),
            relocations.as_mut_ptr(),
            relocations.len(),
        )
    };
    result_of(status, relocations)
}

/// Adds multiples of 2^32 to the addends of such relocations, now the bytes of `Elf64_Rela`s, so that
/// `relocate_section` writes their values modulo 2^32.
pub fn wrap_addends(
    architecture: Architecture,
    addresses: &Addresses,
    symbols: &[Symbol],
    relocations: &mut [u8],
) -> Result<(), Status> {
    let status = unsafe {
        raw::linker_utils_wrap_addends_nonnull(
            architecture.machine(),
            addresses,
            symbols.as_ptr(),
            symbols.len(),
            relocations.as_mut_ptr(),
            relocations.len(),
        )
    };
    result_of(status, ())
}

/// Writes the values of a section's relocations as `relocate_section`, by what is known for each
/// relocation, at its index.
pub fn relocate_resolved(
    architecture: Architecture,
    addresses: &Addresses,
    relocations: &[u8],
    resolved: &[Resolved],
    section: &mut [u8],
    memory: &mut [u64],
) -> Result<(), ArrayError> {
    result_over(|faulty| unsafe {
        raw::linker_utils_relocate_resolved_nonnull(
            architecture.machine(),
            addresses,
            relocations.as_ptr(),
            relocations.len(),
            resolved.as_ptr(),
            resolved.len(),
            section.as_mut_ptr(),
            section.len(),
            memory.as_mut_ptr(),
            memory.len(),
            faulty,
        )
    })
}

/// Notes in `kept` which groups of an object stay, by one of its sections of code. Relocations are the
/// bytes of `Elf64_Rela`s.
pub fn survey(
    architecture: Architecture,
    output: &OutputFacts,
    symbols: &[SymbolFacts],
    relocations: &[u8],
    section: &[u8],
    kept: &mut [UnrelaxableGroups],
) {
    let status = unsafe {
        raw::linker_utils_survey_nonnull(
            architecture.machine(),
            output,
            symbols.as_ptr(),
            symbols.len(),
            relocations.as_ptr(),
            relocations.len(),
            section.as_ptr(),
            section.len(),
            kept.as_mut_ptr(),
            kept.len(),
        )
    };
    debug_assert_eq!(status, 0);
}

/// As many decisions as there are relocations.
fn decisions_of(relocations: &[u8]) -> Result<Vec<raw::Decision>, ArrayError> {
    let (mut decisions, len) = (Vec::new(), relocations.len() / 24);
    let out_of_memory = |_| ArrayError::from(Status::OutOfMemory);
    decisions.try_reserve_exact(len).map_err(out_of_memory)?;
    decisions.resize(len, raw::Decision::default());
    Ok(decisions)
}

fn decided(made: &raw::Decision) -> Decision {
    let rewrite = || {
        Architecture::from_machine(made.machine)
            .and_then(|of| Rewrite::from_numbers(of, made.rewrite, made.opcode_len))
            .expect("a rewrite of the architecture")
    };
    match Fate::from_number(made.fate.into()) {
        Some(Fate::Rewritten) => {
            let relocation = made.relocation;
            Decision::Rewritten {
                rewrite: rewrite(),
                relocation,
            }
        }
        Some(Fate::RewrittenWithSymbol) => Decision::RewrittenWithSymbol {
            rewrite: rewrite(),
            relocation: made.relocation,
            symbol: made.symbol,
            addend: made.addend,
        },
        Some(Fate::Consumed) => Decision::Consumed,
        _ => Decision::Kept,
    }
}

/// Rewrites the instructions of a section of code before addresses are known, and turns its
/// relocations into those after it. `kept` is what `survey` noted. What became of each relocation is
/// returned. The entry at fault is the first relocation that isn't accepted.
pub fn rewrite_section(
    architecture: Architecture,
    output: &OutputFacts,
    symbols: &[SymbolFacts],
    kept: &[UnrelaxableGroups],
    relocations: &mut [u8],
    section: &mut [u8],
) -> Result<Vec<Decision>, ArrayError> {
    let mut decisions = decisions_of(relocations)?;
    result_over(|faulty| unsafe {
        raw::linker_utils_rewrite_section_nonnull(
            architecture.machine(),
            output,
            symbols.as_ptr(),
            symbols.len(),
            kept.as_ptr(),
            kept.len(),
            relocations.as_mut_ptr(),
            relocations.len(),
            section.as_mut_ptr(),
            section.len(),
            decisions.as_mut_ptr(),
            decisions.len(),
            faulty,
        )
    })?;
    Ok(decisions.iter().map(decided).collect())
}

/// Decides what `rewrite_section` would do. The section and its relocations are only read, and
/// `make_rewrites` makes the decisions later. The errors are those of `rewrite_section`.
pub fn decide_rewrites(
    architecture: Architecture,
    output: &OutputFacts,
    symbols: &[SymbolFacts],
    kept: &[UnrelaxableGroups],
    relocations: &[u8],
    section: &[u8],
) -> Result<Vec<KeptDecision>, ArrayError> {
    let mut decisions = decisions_of(relocations)?;
    result_over(|faulty| unsafe {
        raw::linker_utils_decide_rewrites_nonnull(
            architecture.machine(),
            output,
            symbols.as_ptr(),
            symbols.len(),
            kept.as_ptr(),
            kept.len(),
            relocations.as_ptr(),
            relocations.len(),
            section.as_ptr(),
            section.len(),
            decisions.as_mut_ptr(),
            decisions.len(),
            faulty,
        )
    })?;
    Ok(decisions.into_iter().map(KeptDecision).collect())
}

/// Makes the decisions of `decide_rewrites` in a copy of the section and of its relocations. The
/// entry at fault is the first whose bytes aren't those that were decided on
/// (`Status::DoesNotMatch`), or whose rewrite overlaps that of one before it. Then nothing is
/// written.
pub fn make_rewrites(
    relocations: &mut [u8],
    section: &mut [u8],
    decisions: &[KeptDecision],
) -> Result<(), ArrayError> {
    result_over(|faulty| unsafe {
        raw::linker_utils_make_rewrites_nonnull(
            relocations.as_mut_ptr(),
            relocations.len(),
            section.as_mut_ptr(),
            section.len(),
            decisions.as_ptr().cast(),
            decisions.len(),
            faulty,
        )
    })
}

/// Whether an architecture has rewrites in a phase. In one without them surveys note nothing, and each
/// relocation stays.
pub fn has_rewrites(architecture: Architecture, phase: Phase) -> bool {
    unsafe { raw::linker_utils_has_rewrites(architecture.machine(), phase.number()) }
}

/// What a linker knows of an object's section once addresses are known. Both arrays of symbols have
/// those of the object at the indexes that its relocations name.
#[derive(Debug, Clone, Copy, PartialEq, Eq)]
pub struct Placed<'a> {
    pub output: &'a OutputFacts,
    pub symbols: &'a [SymbolFacts],
    pub addresses: &'a Addresses,
    pub values: &'a [Symbol],
}

/// Notes in `kept` which groups of an object stay in a phase once addresses are known, by one of its
/// sections of code, as `survey` does before.
/// The error is `FactsContradict`.
pub fn survey_placed_section(
    architecture: Architecture,
    phase: Phase,
    placed: Placed<'_>,
    relocations: &[u8],
    section: &[u8],
    kept: &mut [UnrelaxableGroups],
) -> Result<(), Status> {
    let status = unsafe {
        raw::linker_utils_survey_placed_section_nonnull(
            architecture.machine(),
            phase.number(),
            placed.output,
            placed.symbols.as_ptr(),
            placed.symbols.len(),
            placed.addresses,
            placed.values.as_ptr(),
            placed.values.len(),
            relocations.as_ptr(),
            relocations.len(),
            section.as_ptr(),
            section.len(),
            kept.as_mut_ptr(),
            kept.len(),
        )
    };
    result_of(status, ())
}

/// Notes in `kept` which words of an object's section of addresses stay, by one of its sections of code:
/// an instruction loads a word's address and can't compute it. `words` are the relocations of the section
/// of addresses, ascending by offset, and `words_start` is its address; `kept` has an element for each,
/// false at first.
/// The error is `FactsContradict`.
pub fn survey_toc_loads(
    architecture: Architecture,
    placed: Placed<'_>,
    words_start: u64,
    words: &[u8],
    relocations: &[u8],
    section: &[u8],
    kept: &mut [bool],
) -> Result<(), Status> {
    let status = unsafe {
        raw::linker_utils_survey_toc_loads_nonnull(
            architecture.machine(),
            placed.output,
            placed.symbols.as_ptr(),
            placed.symbols.len(),
            placed.addresses,
            placed.values.as_ptr(),
            placed.values.len(),
            words_start,
            words.as_ptr(),
            words.len(),
            relocations.as_ptr(),
            relocations.len(),
            section.as_ptr(),
            section.len(),
            kept.as_mut_ptr(),
            kept.len(),
        )
    };
    result_of(status, ())
}

/// Has the instructions of a section of code compute the addresses that they load from such words, all
/// that load a word or none, as `survey_toc_loads` noted. What became of each relocation is returned.
/// The entry at fault is the first relocation that isn't accepted.
pub fn rewrite_toc_loads(
    architecture: Architecture,
    placed: Placed<'_>,
    words_start: u64,
    words: &[u8],
    kept: &[bool],
    relocations: &mut [u8],
    section: &mut [u8],
) -> Result<Vec<Decision>, ArrayError> {
    let mut decisions = decisions_of(relocations)?;
    result_over(|faulty| unsafe {
        raw::linker_utils_rewrite_toc_loads_nonnull(
            architecture.machine(),
            placed.output,
            placed.symbols.as_ptr(),
            placed.symbols.len(),
            placed.addresses,
            placed.values.as_ptr(),
            placed.values.len(),
            words_start,
            words.as_ptr(),
            words.len(),
            kept.as_ptr(),
            kept.len(),
            relocations.as_mut_ptr(),
            relocations.len(),
            section.as_mut_ptr(),
            section.len(),
            decisions.as_mut_ptr(),
            decisions.len(),
            faulty,
        )
    })?;
    Ok(decisions.iter().map(decided).collect())
}

/// Rewrites the instructions of a section of code in a phase once addresses are known, as
/// `rewrite_section` does before. What became of each relocation is returned, and what is to be deleted.
pub fn rewrite_placed_section(
    architecture: Architecture,
    phase: Phase,
    placed: Placed<'_>,
    kept: &[UnrelaxableGroups],
    relocations: &mut [u8],
    section: &mut [u8],
) -> Result<(Vec<Decision>, Vec<Deletion>), ArrayError> {
    let mut decisions = decisions_of(relocations)?;
    let (mut deleted, mut used) = (deletions_for(&decisions)?, 0);
    result_over(|faulty| unsafe {
        raw::linker_utils_rewrite_placed_section_nonnull(
            architecture.machine(),
            phase.number(),
            placed.output,
            placed.symbols.as_ptr(),
            placed.symbols.len(),
            placed.addresses,
            placed.values.as_ptr(),
            placed.values.len(),
            kept.as_ptr(),
            kept.len(),
            relocations.as_mut_ptr(),
            relocations.len(),
            section.as_mut_ptr(),
            section.len(),
            decisions.as_mut_ptr(),
            decisions.len(),
            deleted.as_mut_ptr(),
            deleted.len(),
            &mut used,
            faulty,
        )
    })?;
    deleted.truncate(used);
    Ok((
        decisions
            .iter()
            .map(decided)
            .collect(),
        deleted,
    ))
}

/// Notes in `kept` which symbols of an object keep the high parts of their address, by one of its sections
/// of code, before RISC-V's `lui` and `auipc` of addresses near `global_pointer` or 0 are deleted. `kept`
/// has an element for each symbol, false at first.
/// The error is `FactsContradict`.
pub fn survey_global_pointer(
    architecture: Architecture,
    placed: Placed<'_>,
    global_pointer: u64,
    relocations: &[u8],
    section: &[u8],
    kept: &mut [bool],
) -> Result<(), Status> {
    let status = unsafe {
        raw::linker_utils_survey_global_pointer_nonnull(
            architecture.machine(),
            placed.output,
            placed.symbols.as_ptr(),
            placed.symbols.len(),
            placed.addresses,
            placed.values.as_ptr(),
            placed.values.len(),
            global_pointer,
            relocations.as_ptr(),
            relocations.len(),
            section.as_ptr(),
            section.len(),
            kept.as_mut_ptr(),
            kept.len(),
        )
    };
    result_of(status, ())
}

/// Has the high parts go of the symbols that don't stay by `kept`, as `survey_global_pointer` noted. What
/// became of each relocation is returned, and what is to be deleted. The entry at fault is the first
/// relocation that isn't accepted.
pub fn rewrite_global_pointer(
    architecture: Architecture,
    placed: Placed<'_>,
    global_pointer: u64,
    kept: &[bool],
    relocations: &mut [u8],
    section: &[u8],
) -> Result<(Vec<Decision>, Vec<Deletion>), ArrayError> {
    let mut decisions = decisions_of(relocations)?;
    let (mut deleted, mut used) = (deletions_for(&decisions)?, 0);
    result_over(|faulty| unsafe {
        raw::linker_utils_rewrite_global_pointer_nonnull(
            architecture.machine(),
            placed.output,
            placed.symbols.as_ptr(),
            placed.symbols.len(),
            placed.addresses,
            placed.values.as_ptr(),
            placed.values.len(),
            global_pointer,
            kept.as_ptr(),
            kept.len(),
            relocations.as_mut_ptr(),
            relocations.len(),
            section.as_ptr(),
            section.len(),
            decisions.as_mut_ptr(),
            decisions.len(),
            deleted.as_mut_ptr(),
            deleted.len(),
            &mut used,
            faulty,
        )
    })?;
    deleted.truncate(used);
    let made = decisions.iter().map(decided);
    Ok((made.collect(), deleted))
}

/// Writes the base of each low part that `rewrite_global_pointer` left without one, once addresses are
/// final. The entry at fault is the first relocation that no base reaches.
pub fn finish_gp_relaxation(
    addresses: &Addresses,
    values: &[Symbol],
    global_pointer: u64,
    relocations: &mut [u8],
    section: &mut [u8],
) -> Result<(), ArrayError> {
    result_over(|faulty| unsafe {
        raw::linker_utils_finish_gp_relaxation_nonnull(
            addresses,
            values.as_ptr(),
            values.len(),
            global_pointer,
            relocations.as_mut_ptr(),
            relocations.len(),
            section.as_mut_ptr(),
            section.len(),
            faulty,
        )
    })
}

/// An element for each deletion that there may be.
fn deletions_for(decisions: &[raw::Decision]) -> Result<Vec<Deletion>, ArrayError> {
    let mut deleted = Vec::new();
    let out_of_memory = |_| ArrayError::from(Status::OutOfMemory);
    deleted
        .try_reserve_exact(decisions.len())
        .map_err(out_of_memory)?;
    deleted.resize(decisions.len(), Deletion::default());
    Ok(deleted)
}

/// What choices of rewrites read of an object's symbols and of the output. The error is
/// `OutOfMemory`.
pub fn snapshot_facts(output: &OutputFacts, symbols: &[SymbolFacts]) -> Result<Vec<FactsSnapshot>, Status> {
    let (mut kept, len) = (Vec::new(), symbols.len());
    kept.try_reserve_exact(len).map_err(|_| Status::OutOfMemory)?;
    kept.resize(len, FactsSnapshot::default());
    let status = unsafe {
        raw::linker_utils_snapshot_facts_nonnull(output, symbols.as_ptr(), len, kept.as_mut_ptr(), len)
    };
    result_of(status, kept)
}

/// The facts that hold when values are written, and those that were kept when rewrites were chosen.
#[derive(Debug, Clone, Copy)]
pub struct Facts<'a> {
    pub output: &'a OutputFacts,
    pub symbols: &'a [SymbolFacts],
    pub kept: &'a [FactsSnapshot],
}

/// Writes the values of a section whose instructions were rewritten, as `relocate_section`, where the
/// facts are those that were kept. The entry at fault is the first relocation of whose symbol other
/// facts are kept, or whose value can't be written.
pub fn relocate_rewritten_section(
    architecture: Architecture,
    facts: &Facts,
    addresses: &Addresses,
    relocations: &[u8],
    symbols: &[Symbol],
    section: &mut [u8],
    memory: &mut [u64],
) -> Result<(), ArrayError> {
    result_over(|faulty| unsafe {
        raw::linker_utils_relocate_rewritten_section_nonnull(
            architecture.machine(),
            facts.output,
            facts.symbols.as_ptr(),
            facts.symbols.len(),
            facts.kept.as_ptr(),
            facts.kept.len(),
            addresses,
            relocations.as_ptr(),
            relocations.len(),
            symbols.as_ptr(),
            symbols.len(),
            section.as_mut_ptr(),
            section.len(),
            memory.as_mut_ptr(),
            memory.len(),
            faulty,
        )
    })
}

/// The types of the dynamic relocations of an architecture.
pub fn dynamic_types(architecture: Architecture) -> DynamicTypes {
    let mut types = DynamicTypes::default();
    let status = unsafe { raw::linker_utils_get_dynamic_types(architecture.machine(), &mut types) };
    debug_assert_eq!(status, 0);
    types
}

/// A text that a call writes with its length.
fn text_of(call: impl FnOnce(&mut [u8], &mut usize) -> u32) -> Result<String, Status> {
    let (mut text, mut used) = ([0; names::NAME_SIZE], 0);
    let status = call(&mut text, &mut used);
    result_of(status, ())?;
    Ok(String::from_utf8_lossy(&text[..used]).into_owned())
}

/// The name of a type of dynamic relocations, as `R_X86_64_RELATIVE`.
pub fn dynamic_name(architecture: Architecture, r_type: u32) -> Result<String, Status> {
    text_of(|name, used| unsafe {
        let (at, len) = (name.as_mut_ptr(), name.len());
        raw::linker_utils_dynamic_name_nonnull(architecture.machine(), r_type, at, len, used)
    })
}

/// The types of the dynamic relocations of both words of a GOT entry; `None` for a word that has none.
pub fn dynamic_words(
    architecture: Architecture,
    class: EntryClass,
    is_bound: bool,
    is_executable: bool,
) -> [Option<u32>; 2] {
    let (machine, mut words) = (architecture.machine(), raw::WordTypes::default());
    let class = class.number();
    let status = unsafe {
        raw::linker_utils_dynamic_words(machine, class, is_bound, is_executable, &mut words)
    };
    debug_assert_eq!(status, 0);
    [words.first, words.second].map(|r_type| (r_type != 0).then_some(r_type))
}

/// How many words of 8 bytes an entry of a class has.
pub fn entry_words(class: EntryClass) -> u64 {
    unsafe { raw::linker_utils_get_entry_words(class.number()) }
}

/// What offsets of thread-local storage count from, by the TLS image.
pub fn origins(architecture: Architecture, image: u64, len: u64, alignment: u64) -> Origins {
    let (machine, mut origins) = (architecture.machine(), Origins::default());
    let status = unsafe { raw::linker_utils_get_origins(machine, image, len, alignment, &mut origins) };
    debug_assert_eq!(status, 0);
    origins
}

/// What the words of an entry hold in a static executable, which has no TLS descriptors.
pub fn static_words(
    class: EntryClass,
    address: u64,
    origins: &Origins,
) -> Result<[u64; 2], Status> {
    let mut words = raw::EntryWords::default();
    let status =
        unsafe { raw::linker_utils_static_words(class.number(), address, origins, &mut words) };
    result_of(status, [words.first, words.second])
}

/// What a linker knows of the GOT by its address and that of `_DYNAMIC`, 0 where there is none.
pub fn got(architecture: Architecture, address: u64, dynamic: u64) -> Got {
    let (machine, mut got) = (architecture.machine(), raw::Got::default());
    let status = unsafe { raw::linker_utils_get_got(machine, address, dynamic, &mut got) };
    debug_assert_eq!(status, 0);
    Got {
        base: got.base,
        header: (got.has_header != 0).then_some(got.header),
    }
}

/// `e_flags` of two objects that are linked.
pub fn join_flags(architecture: Architecture, first: u32, second: u32) -> Result<u32, Status> {
    let (machine, mut joined) = (architecture.machine(), 0);
    let status = unsafe { raw::linker_utils_join_flags(machine, first, second, &mut joined) };
    result_of(status, joined)
}

/// `e_flags` of an output, from those that `join_flags` made of its objects.
pub fn output_flags(architecture: Architecture, joined: u32) -> u32 {
    unsafe { raw::linker_utils_output_flags(architecture.machine(), joined) }
}

/// The words of a section of type `SHT_RELR` that relocate ascending addresses, multiples of 8: no
/// fewer words relocate the same.
pub fn relr_words(addresses: &[u64]) -> Result<Vec<u64>, Status> {
    let (at, len) = (addresses.as_ptr(), addresses.len());
    let words = filled_by(|words, room, needed| unsafe {
        raw::linker_utils_write_relr_nonnull(at, len, words, room, needed)
    });
    words.map_err(|error| error.status)
}

/// The addresses that the words of a section of type `SHT_RELR` relocate, in the order of the words.
pub fn relr_addresses(words: &[u64]) -> Result<Vec<u64>, Status> {
    let (at, len) = (words.as_ptr(), words.len());
    let addresses = filled_by(|addresses, room, needed| unsafe {
        raw::linker_utils_read_relr_nonnull(at, len, addresses, room, needed)
    });
    addresses.map_err(|error| error.status)
}

/// The relocations of a section of type `SHT_CREL`, as other calls take them, and whether they have
/// addends; or an error, and the offset that it is about.
pub fn read_crel(section: &[u8]) -> Result<(Vec<u8>, bool), PropertyError> {
    let (at, len) = (section.as_ptr(), section.len());
    let mut has_addends = 0;
    let relocations = filled_by(|relocations: *mut [u8; 24], room, number| unsafe {
        let bytes = relocations.cast();
        raw::linker_utils_read_crel_nonnull(at, len, bytes, 24 * room, number, &mut has_addends)
    })?;
    Ok((relocations.concat(), has_addends != 0))
}

/// A property that objects have in a note of a section `.note.gnu.property`.
#[repr(C)]
#[derive(Debug, Clone, Copy, Default, PartialEq, Eq)]
pub struct Property {
    /// Its type, `pr_type`.
    pub kind: u32,
    /// Its value.
    pub value: u64,
    /// The value's second 8 bytes, which only AArch64's PAuth has.
    pub version: u64,
}

/// Why properties aren't read, merged or written.
#[derive(Debug, Clone, Copy, PartialEq, Eq)]
pub struct PropertyError {
    pub status: Status,
    /// What the status is about: an offset of a section, the index of a property, or a type.
    pub number: usize,
}

/// Whether a type of properties has a rule by which its values go together.
pub fn is_property_known(architecture: Architecture, kind: u32) -> bool {
    unsafe { raw::linker_utils_is_property_known(architecture.machine(), kind) }
}

/// The bit of a property that says that indirect branches go only to instructions that are there
/// for them: x86-64's IBT or AArch64's BTI.
#[repr(C)]
#[derive(Debug, Clone, Copy, Default, PartialEq, Eq)]
pub struct LandingProperty {
    /// As a mask of the property's value.
    pub bit: u64,
    /// The property's type.
    pub kind: u32,
}

/// What says that code of an architecture is so protected.
pub fn landing_property(architecture: Architecture) -> Result<LandingProperty, Status> {
    let (machine, mut landing) = (architecture.machine(), LandingProperty::default());
    let status = unsafe { raw::linker_utils_get_landing_property(machine, &mut landing) };
    result_of(status, landing)
}

/// The properties of a section `.note.gnu.property`, also those whose type has no rule.
pub fn read_properties(
    architecture: Architecture,
    notes: &[u8],
) -> Result<Vec<Property>, PropertyError> {
    let (machine, at, len) = (architecture.machine(), notes.as_ptr(), notes.len());
    filled_by(|properties, room, number| unsafe {
        raw::linker_utils_read_properties_nonnull(machine, at, len, properties, room, number)
    })
}

/// What the properties of two inputs make, with ascending types. Those without a rule are dropped.
pub fn merge_properties(
    architecture: Architecture,
    first: &[Property],
    second: &[Property],
) -> Result<Vec<Property>, PropertyError> {
    let machine = architecture.machine();
    filled_by(|properties, room, number| unsafe {
        raw::linker_utils_merge_properties_nonnull(
            machine,
            first.as_ptr(),
            first.len(),
            second.as_ptr(),
            second.len(),
            properties,
            room,
            number,
        )
    })
}

/// The note of properties, and nothing of none.
pub fn write_properties(
    architecture: Architecture,
    properties: &[Property],
) -> Result<Vec<u8>, PropertyError> {
    let (machine, at, len) = (architecture.machine(), properties.as_ptr(), properties.len());
    filled_by(|note, room, number| unsafe {
        raw::linker_utils_write_properties_nonnull(machine, at, len, note, room, number)
    })
}

/// The note of an output of inputs with these sections `.note.gnu.property`, of which an input
/// without the section has an empty one. With an error also the index of the input.
pub fn merge_notes(
    architecture: Architecture,
    sections: &[&[u8]],
) -> Result<Vec<u8>, (usize, PropertyError)> {
    let mut merged = Vec::new();
    for (index, section) in sections.iter().enumerate() {
        let read = read_properties(architecture, section).map_err(|error| (index, error))?;
        let first = if index == 0 { &read } else { &merged };
        merged = merge_properties(architecture, first, &read).map_err(|error| (index, error))?;
    }
    write_properties(architecture, &merged).map_err(|error| (sections.len(), error))
}

/// What a call writes that first says how much it needs.
fn filled_by<T: Default + Clone>(
    mut call: impl FnMut(*mut T, usize, &mut usize) -> u32,
) -> Result<Vec<T>, PropertyError> {
    let mut number = 0;
    let mut filled = Vec::new();
    let mut status = call(filled.as_mut_ptr(), 0, &mut number);
    if status == Status::TooShort as u32 {
        filled.resize(number, T::default());
        status = call(filled.as_mut_ptr(), number, &mut number);
    }
    result_of(status, filled).map_err(|status| PropertyError { status, number })
}

/// The largest page, in bytes, for which an output has to be right.
pub fn page(architecture: Architecture) -> u64 {
    unsafe { raw::linker_utils_page(architecture.machine()) }
}

/// How many bytes the shortest instruction of an output with such `e_flags` has.
pub fn code_unit(architecture: Architecture, flags: u32) -> u64 {
    unsafe { raw::linker_utils_code_unit(architecture.machine(), flags) }
}

/// The byte at an offset of a gap in code, which counts from a multiple of 4.
pub fn filler(architecture: Architecture, offset: u64) -> u8 {
    unsafe { raw::linker_utils_filler(architecture.machine(), offset) }
}

/// The path of the dynamic linker in glibc, for an output with such `e_flags`.
pub fn interpreter(architecture: Architecture, flags: u32) -> Result<String, Status> {
    text_of(|path, used| unsafe {
        let (at, len) = (path.as_mut_ptr(), path.len());
        raw::linker_utils_interpreter_nonnull(architecture.machine(), flags, at, len, used)
    })
}

/// The name of the section of objects in which compilers keep addresses, as the GOT does.
pub fn address_section(architecture: Architecture) -> Result<String, Status> {
    text_of(|name, used| unsafe {
        let (at, len) = (name.as_mut_ptr(), name.len());
        raw::linker_utils_address_section_nonnull(architecture.machine(), at, len, used)
    })
}

/// The type of the relocation that an instruction would have if the address were in an entry of the GOT,
/// by the type that it has where that is in a word of this section.
pub fn entry_relocation(architecture: Architecture, r_type: u32) -> Result<u32, Status> {
    let (machine, mut entry_type) = (architecture.machine(), 0);
    let status = unsafe { raw::linker_utils_entry_relocation(machine, r_type, &mut entry_type) };
    result_of(status, entry_type)
}

/// The symbols that a linker defines if an object refers to them.
pub fn provided_symbols(architecture: Architecture) -> Vec<ProvidedSymbol> {
    let machine = architecture.machine();
    let symbol = |index| {
        let mut symbol = raw::ProvidedSymbol::default();
        let name = text_of(|name, used| unsafe {
            let (at, len) = (name.as_mut_ptr(), name.len());
            raw::linker_utils_get_provided_symbol_nonnull(machine, index, at, len, used, &mut symbol)
        });
        name.ok().map(|name| ProvidedSymbol {
            name,
            place: SymbolPlace::from_number(symbol.place).expect("a place of the library's"),
            offset: symbol.offset,
        })
    };
    (0..).map_while(symbol).collect()
}

/// What an output's dynamic section says to the dynamic linker. By default nothing.
#[repr(C)]
#[derive(Debug, Clone, Copy, Default, PartialEq, Eq)]
pub struct DynamicFacts {
    /// The address of the lazy PLT's first entry, after its head.
    pub first_entry: u64,
    /// `PPC64_OPT_TLS`, `PPC64_OPT_MULTI_TOC` and `PPC64_OPT_LOCALENTRY`.
    pub options: u64,
    pub has_lazy_plt: bool,
    /// Indirect branches may go to the PLT's entries.
    pub has_landing_plt: bool,
    /// The PLT's entries authenticate what they load.
    pub has_signed_plt: bool,
    /// A jump slot's symbol has `STO_AARCH64_VARIANT_PCS`, or RISC-V's bit.
    pub has_variant_calls: bool,
}

/// The entries, each a tag and a value, that the dynamic section has by the architecture's psABI.
pub fn dynamic_entries(architecture: Architecture, facts: &DynamicFacts) -> Vec<(u64, u64)> {
    let mut found = raw::DynamicEntry::default();
    let mut entry = |index| unsafe {
        let machine = architecture.machine();
        let status = raw::linker_utils_get_dynamic_entry(machine, facts, index, &mut found);
        (status == 0).then_some((found.tag, found.value))
    };
    (0..).map_while(|index| entry(index)).collect()
}

/// The functions that compilers call and linkers provide.
pub fn save_restore_routines(architecture: Architecture) -> Vec<SaveRestoreRoutines> {
    let machine = architecture.machine();
    let run = |index| {
        let mut run = raw::SaveRestoreRoutines::default();
        let prefix = text_of(|prefix, used| unsafe {
            let (at, len) = (prefix.as_mut_ptr(), prefix.len());
            raw::linker_utils_get_save_restore_routines_nonnull(machine, index, at, len, used, &mut run)
        });
        let word = |at| {
            let mut word = 0;
            let status = unsafe { raw::linker_utils_provided_word(machine, index, at, &mut word) };
            debug_assert_eq!(status, 0);
            word
        };
        prefix.ok().map(|prefix| SaveRestoreRoutines {
            prefix,
            first: run.first,
            count: run.count,
            spacing: run.spacing,
            words: (0..run.len).map(word).collect(),
        })
    };
    (0..).map_while(run).collect()
}

/// The stub of a kind, if the architecture has one.
pub fn stub(architecture: Architecture, kind: StubKind) -> Result<Stub, Status> {
    let mut stub = Stub::default();
    let status =
        unsafe { raw::linker_utils_get_stub(architecture.machine(), kind.number(), &mut stub) };
    result_of(status, stub)
}

/// Writes the stub of a kind that stands at an address to the beginning of bytes: to the word at
/// `target`, or to the address `target`.
pub fn write_stub(
    architecture: Architecture,
    kind: StubKind,
    place: u64,
    target: u64,
    bytes: &mut [u8],
) -> Result<(), Status> {
    let (machine, kind) = (architecture.machine(), kind.number());
    let (at, len) = (bytes.as_mut_ptr(), bytes.len());
    let status =
        unsafe { raw::linker_utils_write_stub_nonnull(machine, kind, place, target, at, len) };
    result_of(status, ())
}

/// The lazy PLT of an architecture in a form, if the architecture has one.
pub fn lazy_plt(architecture: Architecture, form: LazyForm) -> Result<LazyPlt, Status> {
    let (machine, mut plt) = (architecture.machine(), LazyPlt::default());
    let status = unsafe { raw::linker_utils_get_lazy_plt(machine, form.number(), &mut plt) };
    result_of(status, plt)
}

/// Writes the header of a lazy PLT that stands at an address, of the `.got.plt` at `words`, to the
/// beginning of bytes.
pub fn write_lazy_header(
    architecture: Architecture,
    form: LazyForm,
    header: u64,
    words: u64,
    bytes: &mut [u8],
) -> Result<(), Status> {
    let (at, len) = (bytes.as_mut_ptr(), bytes.len());
    let (machine, form) = (architecture.machine(), form.number());
    let status = unsafe {
        raw::linker_utils_write_lazy_header_nonnull(machine, form, header, words, at, len)
    };
    result_of(status, ())
}

/// Writes an entry of a lazy PLT to the beginning of bytes.
pub fn write_lazy_entry(
    architecture: Architecture,
    form: LazyForm,
    entry: &LazyEntry,
    bytes: &mut [u8],
) -> Result<(), Status> {
    let (at, len) = (bytes.as_mut_ptr(), bytes.len());
    let (machine, form) = (architecture.machine(), form.number());
    let status =
        unsafe { raw::linker_utils_write_lazy_entry_nonnull(machine, form, entry, at, len) };
    result_of(status, ())
}

/// What the word with an index at the begin of `.got.plt` holds, by the addresses of `.dynamic` and of
/// the header.
pub fn lazy_header_word(
    architecture: Architecture,
    index: usize,
    dynamic: u64,
    header: u64,
) -> Result<u64, Status> {
    let (machine, mut word) = (architecture.machine(), 0);
    let status = unsafe {
        raw::linker_utils_lazy_header_word(machine, index, dynamic, header, &mut word)
    };
    result_of(status, word)
}

/// What the word of the entry at an address holds until the dynamic linker has looked up the function,
/// or 0 if the architecture has none of the form.
pub fn lazy_entry_word(
    architecture: Architecture,
    form: LazyForm,
    entry: u64,
    header: u64,
    dynamic: u64,
) -> u64 {
    let (machine, form) = (architecture.machine(), form.number());
    unsafe { raw::linker_utils_lazy_entry_word(machine, form, entry, header, dynamic) }
}

/// A route by its numbers.
fn route_of(route: raw::Route) -> Route {
    if route.is_by_stub == 0 {
        return Route::Direct;
    }
    Route::Stub {
        kind: StubKind::from_number(route.kind).expect("a kind of the library's"),
        entry: route.entry,
        target: route.target,
    }
}

/// How the branch of the relocation at an index of a section's relocations, which are the bytes of
/// `Elf64_Rela`s, goes to its symbol: directly where its value can be written, and on PowerPC64 the
/// TOC pointer is as the function and the caller expect; else by a stub of the kind `Jump`, if it may
/// go by one.
pub fn route_at(
    architecture: Architecture,
    addresses: &Addresses,
    relocations: &[u8],
    symbols: &[Symbol],
    index: usize,
    section: &[u8],
) -> Result<Route, Status> {
    let mut route = raw::Route::default();
    let status = unsafe {
        raw::linker_utils_route_at_nonnull(
            architecture.machine(),
            addresses,
            relocations.as_ptr(),
            relocations.len(),
            symbols.as_ptr(),
            symbols.len(),
            index,
            section.as_ptr(),
            section.len(),
            &mut route,
        )
    };
    result_of(status, route).map(route_of)
}

/// How the branch of the relocation at an index goes to the function whose address the word at an
/// address has: by a stub of the kind `Load`.
pub fn route_by_word(
    architecture: Architecture,
    word: u64,
    relocations: &[u8],
    index: usize,
    section: &[u8],
) -> Result<Route, Status> {
    let mut route = raw::Route::default();
    let status = unsafe {
        raw::linker_utils_route_by_word_nonnull(
            architecture.machine(),
            word,
            relocations.as_ptr(),
            relocations.len(),
            index,
            section.as_ptr(),
            section.len(),
            &mut route,
        )
    };
    result_of(status, route).map(route_of)
}

/// Places stubs at boundaries between sections, so that each branch reaches its target or a stub of
/// it. The entry at fault is a boundary, a branch or a target, as the status says.
pub fn place_stubs(
    branches: &[Branch],
    targets: &[u64],
    boundaries: &[u64],
    shape: &StubShape,
) -> Result<Placement, ArrayError> {
    let most = unsafe { raw::linker_utils_most_stubs(branches.len()) };
    let (mut stubs, mut len) = (vec![PlacedStub::default(); most], 0);
    let mut ways = vec![0; branches.len()];
    let mut before = vec![0; boundaries.len() + 1];
    result_over(|faulty| unsafe {
        raw::linker_utils_place_stubs_nonnull(
            branches.as_ptr(),
            branches.len(),
            targets.as_ptr(),
            targets.len(),
            boundaries.as_ptr(),
            boundaries.len(),
            shape,
            stubs.as_mut_ptr(),
            stubs.len(),
            &mut len,
            ways.as_mut_ptr(),
            ways.len(),
            before.as_mut_ptr(),
            before.len(),
            faulty,
        )
    })?;
    stubs.truncate(len);
    let way = |way: usize| (way != usize::MAX).then_some(way);
    Ok(Placement { stubs, ways: ways.into_iter().map(way).collect(), before })
}

/// The name of the relocation of an ELF type, as `R_X86_64_PC32`.
pub fn relocation_name(architecture: Architecture, r_type: u32) -> Result<String, Status> {
    let (mut name, mut used) = ([0; names::NAME_SIZE], 0);
    let status = unsafe {
        raw::linker_utils_relocation_name_nonnull(
            architecture.machine(),
            r_type,
            name.as_mut_ptr(),
            name.len(),
            &mut used,
        )
    };
    result_of(status, ())?;
    Ok(String::from_utf8_lossy(&name[..used]).into_owned())
}

/// What `R_RISCV_HI20` means at a `c.lui`, which `RiscVRewrite::Hi20ToCLui` leaves.
pub fn clui_rel_info() -> RelocationInfo {
    let mut info = raw::RelocationInfo::default();
    unsafe { raw::linker_utils_clui_rel_info(&mut info) };
    info.into()
}

/// Turns the `auipc` at a site of a section into a `jal` by a distance.
pub fn jal_site(section: &mut [u8], site: u64, distance: i64) -> Result<(), Status> {
    let (at, len) = (section.as_mut_ptr(), section.len());
    let status = unsafe { raw::linker_utils_jal_site_nonnull(at, len, site, distance) };
    result_of(status, ())
}

/// Turns the call at a site of a section into a `jal` by a distance, which links the chosen register.
pub fn jal_site_with(
    section: &mut [u8],
    site: u64,
    distance: i64,
    link: LinkRegister,
) -> Result<(), Status> {
    let (at, len, link) = (section.as_mut_ptr(), section.len(), link.number());
    let status = unsafe { raw::linker_utils_jal_site_with_nonnull(at, len, site, distance, link) };
    result_of(status, ())
}

/// Turns the call at a site into a jump to a target, once the deleted bytes are gone.
pub fn relax_call(
    section: &mut [u8],
    deltas: &[Delta],
    site: u64,
    target: u64,
) -> Result<(), Status> {
    let status = unsafe {
        raw::linker_utils_relax_call_nonnull(
            section.as_mut_ptr(),
            section.len(),
            deltas.as_ptr(),
            deltas.len(),
            site,
            target,
        )
    };
    result_of(status, ())
}

/// Whether the eight bytes at the site are a plain call.
pub fn is_plain_call(section: &[u8], site: u64) -> bool {
    unsafe { raw::linker_utils_is_plain_call_nonnull(section.as_ptr(), section.len(), site) }
}

/// Whether a distance in bytes lies in the range of `jal`.
pub fn distance_fits_jal(distance: i64) -> bool {
    unsafe { raw::linker_utils_distance_fits_jal(distance) }
}

/// Whether the high part of a value is 0.
pub fn hi20_is_zero(value: u64) -> bool {
    unsafe { raw::linker_utils_hi20_is_zero(value) }
}

/// Whether `c.lui` holds the high part of a value.
pub fn hi20_fits_clui(value: u64) -> bool {
    unsafe { raw::linker_utils_hi20_fits_clui(value) }
}

/// Whether a register can be the destination of `c.lui`.
pub fn rd_valid_for_clui(rd: u32) -> bool {
    unsafe { raw::linker_utils_rd_valid_for_clui(rd) }
}

/// AArch64: writes the four instructions that load a number into register `rd`.
pub fn write_mov_sequence(dest: &mut [u8], rd: u32, value: u64) -> Result<(), Status> {
    let (at, len) = (dest.as_mut_ptr(), dest.len());
    let status = unsafe { raw::linker_utils_write_mov_sequence_nonnull(at, len, rd, value) };
    result_of(status, ())
}

/// LoongArch: makes five instructions compute the address `target`, with the first at `pc`.
pub fn write_address_sequence(dest: &mut [u8], pc: u64, target: u64) -> Result<(), Status> {
    let (at, len) = (dest.as_mut_ptr(), dest.len());
    let status = unsafe { raw::linker_utils_write_address_sequence_nonnull(at, len, pc, target) };
    result_of(status, ())
}

/// LoongArch: the number whose upper 32 bits complete the address `s`, relative to `pc`.
pub fn highest_relocation_with_bias(s: u64, pc: u64) -> u64 {
    unsafe { raw::linker_utils_highest_relocation_with_bias(s, pc) }
}

/// PowerPC64: writes a value into a pair of D-form instructions.
pub fn write_ha_lo(ha: &mut [u8], lo: &mut [u8], value: u64) -> Result<(), Status> {
    let (ha_at, ha_len) = (ha.as_mut_ptr(), ha.len());
    let (lo_at, lo_len) = (lo.as_mut_ptr(), lo.len());
    let status =
        unsafe { raw::linker_utils_write_ha_lo_nonnull(ha_at, ha_len, lo_at, lo_len, value) };
    result_of(status, ())
}

/// The little-endian number of the first four bytes.
pub fn u32_from_slice(bytes: &[u8]) -> Result<u32, Status> {
    let mut value = 0;
    let (at, len) = (bytes.as_ptr(), bytes.len());
    let status = unsafe { raw::linker_utils_u32_from_slice_nonnull(at, len, &mut value) };
    result_of(status, value)
}

/// The little-endian number of the first eight bytes.
pub fn u64_from_slice(bytes: &[u8]) -> Result<u64, Status> {
    let mut value = 0;
    let (at, len) = (bytes.as_ptr(), bytes.len());
    let status = unsafe { raw::linker_utils_u64_from_slice_nonnull(at, len, &mut value) };
    result_of(status, value)
}

/// Takes a little-endian number of four bytes off the front of the content.
pub fn read_u32(content: &mut &[u8]) -> Result<u32, Status> {
    let (mut value, mut consumed) = (0, 0);
    let (at, len) = (content.as_ptr(), content.len());
    let status = unsafe { raw::linker_utils_read_u32_nonnull(at, len, &mut value, &mut consumed) };
    result_of(status, ())?;
    *content = &content[consumed..];
    Ok(value)
}

/// Takes a ULEB128 number off the front of the content.
pub fn read_uleb128(content: &mut &[u8]) -> Result<u64, Status> {
    let (mut value, mut consumed) = (0, 0);
    let (at, len) = (content.as_ptr(), content.len());
    let status =
        unsafe { raw::linker_utils_read_uleb128_nonnull(at, len, &mut value, &mut consumed) };
    result_of(status, ())?;
    *content = &content[consumed..];
    Ok(value)
}

/// Whether a relocation requires a GOT entry.
pub fn asks_for_got(architecture: Architecture, r_type: u32) -> bool {
    unsafe { raw::linker_utils_asks_for_got(architecture.machine(), r_type) }
}

/// Whether a PLT entry may serve as a relocation's target.
pub fn may_use_plt(architecture: Architecture, r_type: u32) -> bool {
    unsafe { raw::linker_utils_may_use_plt(architecture.machine(), r_type) }
}

/// Whether a relocation has a type that one skipped after a rewrite has.
pub fn may_be_skipped(architecture: Architecture, r_type: u32) -> bool {
    unsafe { raw::linker_utils_may_be_skipped(architecture.machine(), r_type) }
}

/// What a relocation does with a ULEB128 number; `None` for all others.
pub fn uleb128_role(architecture: Architecture, r_type: u32) -> Option<Uleb128Role> {
    let number = unsafe { raw::linker_utils_uleb128_role(architecture.machine(), r_type) };
    Uleb128Role::from_number(number)
}

/// Writes a value over the ULEB128 number that `dest` begins with, in as many bytes.
pub fn write_uleb128(dest: &mut [u8], value: u64) -> Result<(), Status> {
    let (at, len) = (dest.as_mut_ptr(), dest.len());
    let status = unsafe { raw::linker_utils_write_uleb128_nonnull(at, len, value) };
    result_of(status, ())
}

/// Writes what two relocations, the first of this type, make of the ULEB128 number that `dest` begins
/// with, in as many bytes.
pub fn write_uleb128_pair(
    architecture: Architecture,
    r_type: u32,
    dest: &mut [u8],
    first: u64,
    second: u64,
) -> Result<(), Status> {
    let (machine, at, len) = (architecture.machine(), dest.as_mut_ptr(), dest.len());
    let status = unsafe {
        raw::linker_utils_write_uleb128_pair_nonnull(machine, r_type, at, len, first, second)
    };
    result_of(status, ())
}

/// Whether `deltas_create` takes the deletions.
pub fn deletions_valid(deletions: &[Deletion]) -> Result<(), ArrayError> {
    let (at, len) = (deletions.as_ptr(), deletions.len());
    result_over(|faulty| unsafe { raw::linker_utils_deletions_valid_nonnull(at, len, faulty) })
}

/// Writes the deltas of the deletions, as many as these.
pub fn deltas_create(deletions: &[Deletion], deltas: &mut [Delta]) -> Result<(), ArrayError> {
    result_over(|faulty| unsafe {
        raw::linker_utils_deltas_create_nonnull(
            deletions.as_ptr(),
            deletions.len(),
            deltas.as_mut_ptr(),
            deltas.len(),
            faulty,
        )
    })
}

/// As `deltas_create`, but the deletions are read once, and after `InvalidDeletions` the deltas may
/// be anything.
pub fn deltas_create_in_one_pass(
    deletions: &[Deletion],
    deltas: &mut [Delta],
) -> Result<(), ArrayError> {
    result_over(|faulty| unsafe {
        raw::linker_utils_deltas_create_in_one_pass_nonnull(
            deletions.as_ptr(),
            deletions.len(),
            deltas.as_mut_ptr(),
            deltas.len(),
            faulty,
        )
    })
}

/// Whether `deltas_merge` takes the additional deletions.
pub fn deletions_mergeable(deltas: &[Delta], additional: &[Deletion]) -> Result<(), Status> {
    let status = unsafe {
        raw::linker_utils_deletions_mergeable_nonnull(
            deltas.as_ptr(),
            deltas.len(),
            additional.as_ptr(),
            additional.len(),
        )
    };
    result_of(status, ())
}

/// Writes the deltas of the old and the additional deletions, sorted, as many as both. The entry at
/// fault is one of the deltas with `InvalidDeletions`, and else one of the additional deletions.
pub fn deltas_merge(
    deltas: &[Delta],
    additional: &[Deletion],
    merged: &mut [Delta],
) -> Result<(), ArrayError> {
    result_over(|faulty| unsafe {
        raw::linker_utils_deltas_merge_nonnull(
            deltas.as_ptr(),
            deltas.len(),
            additional.as_ptr(),
            additional.len(),
            merged.as_mut_ptr(),
            merged.len(),
            faulty,
        )
    })
}

/// Whether the deltas are valid: they list deletions that `deltas_create` accepts, each with the sum of
/// the bytes up to it.
pub fn has_valid_deltas(deltas: &[Delta]) -> bool {
    unsafe { raw::linker_utils_has_valid_deltas_nonnull(deltas.as_ptr(), deltas.len()) }
}

/// The bytes that all deletions take together.
pub fn deltas_total_deleted(deltas: &[Delta]) -> u64 {
    unsafe { raw::linker_utils_deltas_total_deleted_nonnull(deltas.as_ptr(), deltas.len()) }
}

/// The offset in the output section of what is at an input offset, or, inside a deletion, of what
/// follows it.
pub fn deltas_input_to_output(deltas: &[Delta], input_offset: u64) -> u64 {
    let (at, len) = (deltas.as_ptr(), deltas.len());
    unsafe { raw::linker_utils_deltas_input_to_output_nonnull(at, len, input_offset) }
}

/// The offset in the input section of the kept byte at an output offset.
pub fn deltas_output_to_input(deltas: &[Delta], output_offset: u64) -> Result<u64, Status> {
    let mut input = 0;
    let (at, len) = (deltas.as_ptr(), deltas.len());
    let status = unsafe {
        raw::linker_utils_deltas_output_to_input_nonnull(at, len, output_offset, &mut input)
    };
    result_of(status, input)
}

/// The output offset of each of the queries, which may not decrease.
pub fn deltas_translate_all(
    deltas: &[Delta],
    queries: &[u64],
    outputs: &mut [u64],
) -> Result<(), ArrayError> {
    result_over(|faulty| unsafe {
        raw::linker_utils_deltas_translate_all_nonnull(
            deltas.as_ptr(),
            deltas.len(),
            queries.as_ptr(),
            queries.len(),
            outputs.as_mut_ptr(),
            outputs.len(),
            faulty,
        )
    })
}

/// How many blocks of 64 the deltas have; the last may be shorter.
pub fn deltas_block_count(deltas: &[Delta]) -> usize {
    unsafe { raw::linker_utils_deltas_block_count_nonnull(deltas.as_ptr(), deltas.len()) }
}

/// Writes the heads of the deltas' blocks, as many as these.
pub fn deltas_heads(deltas: &[Delta], heads: &mut [BlockHead]) -> Result<(), Status> {
    let status = unsafe {
        raw::linker_utils_deltas_heads_nonnull(
            deltas.as_ptr(),
            deltas.len(),
            heads.as_mut_ptr(),
            heads.len(),
        )
    };
    result_of(status, ())
}

/// `deltas_input_to_output` with the heads of the deltas' blocks.
pub fn deltas_input_to_output_by_heads(
    deltas: &[Delta],
    heads: &[BlockHead],
    input_offset: u64,
) -> u64 {
    unsafe {
        raw::linker_utils_deltas_input_to_output_by_heads_nonnull(
            deltas.as_ptr(),
            deltas.len(),
            heads.as_ptr(),
            heads.len(),
            input_offset,
        )
    }
}

/// `deltas_output_to_input` with the heads of the deltas' blocks.
pub fn deltas_output_to_input_by_heads(
    deltas: &[Delta],
    heads: &[BlockHead],
    output_offset: u64,
) -> Result<u64, Status> {
    let mut input = 0;
    let status = unsafe {
        raw::linker_utils_deltas_output_to_input_by_heads_nonnull(
            deltas.as_ptr(),
            deltas.len(),
            heads.as_ptr(),
            heads.len(),
            output_offset,
            &mut input,
        )
    };
    result_of(status, input)
}

/// How many bytes of a section are kept: as many as `pack` writes.
pub fn packed_len(section: &[u8], deltas: &[Delta]) -> usize {
    let (at, len) = (section.as_ptr(), section.len());
    unsafe { raw::linker_utils_packed_len_nonnull(at, len, deltas.as_ptr(), deltas.len()) }
}

/// Writes the kept bytes of a section, in order, with its calls made jumps. The entry at fault is one
/// of the calls.
pub fn pack(
    section: &[u8],
    deltas: &[Delta],
    calls: &[Call],
    link: LinkRegister,
    packed: &mut [u8],
) -> Result<(), ArrayError> {
    result_over(|faulty| unsafe {
        raw::linker_utils_pack_nonnull(
            section.as_ptr(),
            section.len(),
            deltas.as_ptr(),
            deltas.len(),
            calls.as_ptr(),
            calls.len(),
            link.number(),
            packed.as_mut_ptr(),
            packed.len(),
            faulty,
        )
    })
}

/// Whether `shrink_calls` accepts the calls: their sites ascend by at least 8, the eight bytes at each
/// site are kept, the deletions (site + 4, 4) may be merged all together, and no target is strictly
/// inside one of them. The entry at fault is the first call that isn't accepted together with those before it.
pub fn calls_shrinkable(deltas: &[Delta], calls: &[Call]) -> Result<(), ArrayError> {
    result_over(|faulty| unsafe {
        raw::linker_utils_calls_shrinkable_nonnull(
            deltas.as_ptr(),
            deltas.len(),
            calls.as_ptr(),
            calls.len(),
            faulty,
        )
    })
}

/// Writes for each call 1 where it is in the greatest choice of calls that can all become jumps at once,
/// and else 0. Their deletions (site + 4, 4) are then to be merged. The entry at fault is a call, as
/// with `calls_shrinkable`.
pub fn shrink_calls(deltas: &[Delta], calls: &[Call], chosen: &mut [u8]) -> Result<(), ArrayError> {
    result_over(|faulty| unsafe {
        raw::linker_utils_shrink_calls_nonnull(
            deltas.as_ptr(),
            deltas.len(),
            calls.as_ptr(),
            calls.len(),
            chosen.as_mut_ptr(),
            chosen.len(),
            faulty,
        )
    })
}

/// The shapes of an architecture's instructions.
pub fn standard_shapes(name: ShapesName) -> Shapes {
    let mut shapes = Shapes::default();
    let status = unsafe { raw::linker_utils_standard_shapes(name.number(), &mut shapes) };
    result_of(status, shapes).expect("the library has them")
}

/// An error of a call over a section of a run: `EndsTooHigh` is of the section there, not of an
/// entry.
fn of_section(error: ArrayError) -> ArrayError {
    match error.status {
        Status::EndsTooHigh => error.status.into(),
        _ => error,
    }
}

/// Writes the items that the relocations of a section of RISC-V or LoongArch make, and the index of the
/// relocation that makes each, and returns how many there are. `items` and `makers` have as many elements
/// as there are relocations. The section begins at the input offset `base` of the run. The entry at fault
/// is a relocation.
pub fn section_items(
    machine: u16,
    section: &[u8],
    base: u64,
    relocations: &[Rela],
    items: &mut [Item],
    makers: &mut [usize],
) -> Result<usize, ArrayError> {
    let mut len = 0;
    result_over(|faulty| unsafe {
        raw::linker_utils_section_items_nonnull(
            machine,
            section.as_ptr(),
            section.len(),
            base,
            relocations.as_ptr(),
            relocations.len(),
            items.as_mut_ptr(),
            items.len(),
            makers.as_mut_ptr(),
            makers.len(),
            &mut len,
            faulty,
        )
    })
    .map_err(of_section)?;
    Ok(len)
}

/// Writes the items of a section that `rewrite_section` and `rewrite_placed_section` rewrote: those that
/// its relocations make, and what is deleted. Returns how many there are. `items` and `makers` have as many
/// elements as there are relocations and deletions; the maker of a deletion is its index and as many as
/// there are relocations. The entry at fault is a relocation, and with `InvalidDeletions` a deletion.
pub fn rewritten_items(
    machine: u16,
    section: &[u8],
    base: u64,
    relocations: &[Rela],
    deleted: &[Deletion],
    items: &mut [Item],
    makers: &mut [usize],
) -> Result<usize, ArrayError> {
    let mut len = 0;
    result_over(|faulty| unsafe {
        raw::linker_utils_rewritten_items_nonnull(
            machine,
            section.as_ptr(),
            section.len(),
            base,
            relocations.as_ptr(),
            relocations.len(),
            deleted.as_ptr(),
            deleted.len(),
            items.as_mut_ptr(),
            items.len(),
            makers.as_mut_ptr(),
            makers.len(),
            &mut len,
            faulty,
        )
    })
    .map_err(of_section)?;
    Ok(len)
}

/// Whether `relax` accepts the items of a run whose address is `start`. The entry at fault is an item,
/// and the status its first fault.
pub fn items_relaxable(items: &[Item], start: u64) -> Result<(), ArrayError> {
    result_over(|faulty| unsafe {
        raw::linker_utils_items_relaxable_nonnull(items.as_ptr(), items.len(), start, faulty)
    })
}

/// What `relax` writes: elements for each item, and one more of `freed`.
#[derive(Debug)]
pub struct Relaxed<'a> {
    /// The index of the shape that a site has.
    pub shapes: &'a mut [u8],
    /// How many bytes of the item stay, from its first one on.
    pub kept: &'a mut [u64],
    /// Room for the work.
    pub places: &'a mut [usize],
    /// How many bytes the items before it lose, and at the end how many all do.
    pub freed: &'a mut [u64],
}

/// Chooses a shape for each site of a run whose address is `start`, and says what stays of each item.
/// The entry at fault is an item, as with `items_relaxable`.
pub fn relax(items: &[Item], start: u64, relaxed: Relaxed<'_>) -> Result<(), ArrayError> {
    result_over(|faulty| unsafe {
        raw::linker_utils_relax_nonnull(
            items.as_ptr(),
            items.len(),
            start,
            relaxed.shapes.as_mut_ptr(),
            relaxed.shapes.len(),
            relaxed.kept.as_mut_ptr(),
            relaxed.kept.len(),
            relaxed.places.as_mut_ptr(),
            relaxed.places.len(),
            relaxed.freed.as_mut_ptr(),
            relaxed.freed.len(),
            faulty,
        )
    })
}

/// Writes the deltas of what a run loses where so many bytes of each item stay, and returns how many
/// there are. `kept` and `deltas` have an element for each item.
pub fn run_deltas(items: &[Item], kept: &[u64], deltas: &mut [Delta]) -> Result<usize, Status> {
    let mut len = 0;
    let status = unsafe {
        raw::linker_utils_run_deltas_nonnull(
            items.as_ptr(),
            items.len(),
            kept.as_ptr(),
            kept.len(),
            deltas.as_mut_ptr(),
            deltas.len(),
            &mut len,
        )
    };
    result_of(status, len)
}

/// How many bytes of a section of a relaxed run stay: as many as `pack_run` writes. The section
/// begins at the input offset `base` of the run. 0 where that and its length add up to 2^64 or
/// more.
pub fn packed_run_len(base: u64, section_len: usize, deltas: &[Delta]) -> usize {
    let (at, len) = (deltas.as_ptr(), deltas.len());
    unsafe { raw::linker_utils_packed_run_len_nonnull(base, section_len, at, len) }
}

/// Whether a site's bytes are instructions that can have its shapes, in a section that begins at the
/// input offset `base` of the run. The error is else `UnknownArchitecture` or `NotItsInstructions`.
pub fn has_its_instructions(
    architecture: Architecture,
    section: &[u8],
    base: u64,
    item: &Item,
) -> Result<(), Status> {
    let (machine, at, len) = (architecture.machine(), section.as_ptr(), section.len());
    let status =
        unsafe { raw::linker_utils_has_its_instructions_nonnull(machine, at, len, base, item) };
    result_of(status, ())
}

/// Packs a section of a relaxed run, which begins at the input offset `base` of the run: writes the
/// bytes that stay, in order, with the instructions of its sites and the nops of its alignments
/// written anew. The run begins at the address `start` and loses what `deltas` list. `items` are
/// the run's items that lie in the section. `relocations` are those of the section and become those
/// of the packed one, at their new offsets: that of a site which became shorter with the type of
/// its one instruction. The entry at fault is the first item that can't be written.
pub fn pack_run(
    architecture: Architecture,
    section: &[u8],
    base: u64,
    items: &[Item],
    deltas: &[Delta],
    start: u64,
    relocations: &mut [u8],
    packed: &mut [u8],
) -> Result<(), ArrayError> {
    result_over(|faulty| unsafe {
        raw::linker_utils_pack_run_nonnull(
            architecture.machine(),
            section.as_ptr(),
            section.len(),
            base,
            items.as_ptr(),
            items.len(),
            deltas.as_ptr(),
            deltas.len(),
            start,
            relocations.as_mut_ptr(),
            relocations.len(),
            packed.as_mut_ptr(),
            packed.len(),
            faulty,
        )
    })
    .map_err(of_section)
}

/// The number that the machine makes of the immediate of the instruction that the bytes begin with.
pub fn operand(form: impl Into<Form>, bytes: &[u8]) -> Result<i64, Status> {
    let (machine, form) = form.into().numbers();
    let mut number = 0;
    let (at, len) = (bytes.as_ptr(), bytes.len());
    let status = unsafe { raw::linker_utils_operand_nonnull(machine, form, at, len, &mut number) };
    result_of(status, number)
}

/// What is known of a relocation's value from the linked bytes that begin with its field.
pub fn read_value(
    architecture: Architecture,
    r_type: u32,
    bytes: &[u8],
) -> Result<FieldValue, Status> {
    let mut value = FieldValue::default();
    let (machine, at, len) = (architecture.machine(), bytes.as_ptr(), bytes.len());
    let status =
        unsafe { raw::linker_utils_read_value_nonnull(machine, r_type, at, len, &mut value) };
    result_of(status, value)
}

/// Which address a relocation's value comes from, and what is known of it. Of the operands only the
/// place, the GOT's address and the base of TLS are read.
pub fn solve(
    architecture: Architecture,
    r_type: u32,
    value: &FieldValue,
    operands: &Operands,
) -> Result<(Reference, FieldValue), Status> {
    let (mut reference, mut address) = (0, FieldValue::default());
    let status = unsafe {
        raw::linker_utils_solve(
            architecture.machine(),
            r_type,
            value,
            operands,
            &mut reference,
            &mut address,
        )
    };
    result_of(status, ())?;
    let reference = Reference::from_number(reference).expect("a reference of the library's");
    Ok((reference, address))
}

/// What is known of an address from both halves of a pair, as `solve` returns them.
pub fn join(high: &FieldValue, low: &FieldValue) -> Result<FieldValue, Status> {
    let mut whole = FieldValue::default();
    let status = unsafe { raw::linker_utils_join(high, low, &mut whole) };
    result_of(status, whole)
}

/// Which bits of the bytes that begin with a relocation's field `relocate` may change. Bit 0 is the
/// lowest of the first byte.
pub fn field_bits(architecture: Architecture, r_type: u32, bytes: &[u8]) -> Result<u64, Status> {
    let mut bits = 0;
    let (machine, at, len) = (architecture.machine(), bytes.as_ptr(), bytes.len());
    let status =
        unsafe { raw::linker_utils_field_bits_nonnull(machine, r_type, at, len, &mut bits) };
    result_of(status, bits)
}

/// Whether two windows of the same length, which begin with a relocation's field, differ in bits of
/// the field only.
pub fn same_but_for(architecture: Architecture, r_type: u32, a: &[u8], b: &[u8]) -> bool {
    let (machine, a_len, b_len) = (architecture.machine(), a.len(), b.len());
    unsafe {
        raw::linker_utils_same_but_for_nonnull(
            machine,
            r_type,
            a.as_ptr(),
            a_len,
            b.as_ptr(),
            b_len,
        )
    }
}

fn recognised(architecture: Architecture, found: &raw::Recognised) -> Recognised {
    Recognised {
        choice: choice_of(architecture, &found.choice),
        offset: found.offset,
        value: (found.value.end_bit != 0).then_some(found.value),
    }
}

/// The window that `recognise` wants, in bytes of an object around the relocation at an offset of them.
pub fn recognise_window(
    architecture: Architecture,
    r_type: u32,
    original: &[u8],
    offset: u64,
) -> Result<RewriteWindow, Status> {
    let mut window = RewriteWindow::default();
    let status = unsafe {
        raw::linker_utils_recognise_window_nonnull(
            architecture.machine(),
            r_type,
            original.as_ptr(),
            original.len(),
            offset,
            &mut window,
        )
    };
    result_of(status, window)
}

/// Which rewrites, and relocations after them, a linker may have made at a relocation.
pub fn recognise(
    architecture: Architecture,
    r_type: u32,
    windows: Windows<'_>,
) -> Result<Vec<Recognised>, Status> {
    let (mut found, mut count) = ([raw::Recognised::default(); names::CANDIDATES], 0);
    let status = unsafe {
        raw::linker_utils_recognise_nonnull(
            architecture.machine(),
            r_type,
            windows.original.as_ptr(),
            windows.original.len(),
            windows.offset,
            windows.others.as_ptr(),
            windows.others.len(),
            windows.linked.as_ptr(),
            windows.linked.len(),
            found.as_mut_ptr(),
            found.len(),
            &mut count,
        )
    };
    result_of(status, ())?;
    let found = found[..count].iter();
    Ok(found.map(|found| recognised(architecture, found)).collect())
}

/// What `choose` returns by these facts, if it leaves the linked bytes; else `LeavesOtherBytes`.
pub fn recognise_chosen(
    architecture: Architecture,
    r_type: u32,
    windows: Windows<'_>,
    facts: &LinkFacts,
) -> Result<Recognised, Status> {
    let (facts, mut found) = (raw::LinkFacts::from(facts), raw::Recognised::default());
    let status = unsafe {
        raw::linker_utils_recognise_chosen_nonnull(
            architecture.machine(),
            r_type,
            windows.original.as_ptr(),
            windows.original.len(),
            windows.offset,
            windows.others.as_ptr(),
            windows.others.len(),
            windows.linked.as_ptr(),
            windows.linked.len(),
            &facts,
            &mut found,
        )
    };
    result_of(status, ())?;
    Ok(recognised(architecture, &found))
}

/// Where a relocation leads that `recognise` or `recognise_chosen` found in these original bytes, whose
/// offset in them is given. Of the operands the addend is that before the rewrite, and the place the
/// address of the field in the linked file. `st_other` is the symbol's, which branches of PowerPC64 read.
pub fn destination(
    made: &Recognised,
    original: &[u8],
    offset: u64,
    operands: &Operands,
    st_other: u8,
) -> Result<Destination, Status> {
    let (machine, rewrite, opcode_len) = made.choice.rewrite.numbers();
    let made = raw::Recognised {
        choice: raw::Choice {
            rewrite,
            relocation: made.choice.relocation,
            opcode_len,
            ..raw::Choice::default()
        },
        offset: made.offset,
        value: made.value.unwrap_or_default(),
    };
    let mut found = raw::Destination::default();
    let status = unsafe {
        raw::linker_utils_get_destination_nonnull(
            machine,
            &made,
            original.as_ptr(),
            original.len(),
            offset,
            operands,
            st_other,
            &mut found,
        )
    };
    result_of(status, ())?;
    Ok(Destination {
        reference: Reference::from_number(found.reference).expect("a reference of the library's"),
        address: found.address,
        addend: found.addend,
        symbol: (found.has_symbol != 0).then_some(found.symbol),
    })
}
