// SPDX-License-Identifier: MIT OR Apache-2.0
// Made by tools/generate of crates/linker_elf/src/elf/facts.rt.
//! What a relocation requires of a linker, and how its value is found: facts of its row.

/// Which entry of the GOT, or which word, a formula has.
#[derive(Clone, Copy, Debug, PartialEq, Eq, Hash)]
pub enum EntryUse {
    /// None.
    Without,
    /// The entry of the symbol's address.
    Address,
    /// The entry of its offset from the thread pointer.
    ThreadOffset,
    /// The entries of its module and of its offset there.
    ModuleOffset,
    /// The entries of the module.
    Module,
    /// Its TLS descriptor.
    Descriptor,
    /// `ModuleOffset` of a thread-local symbol, and `Address` of any other.
    LowHalf,
}

/// How the value of a relocation is found among those of a section.
#[derive(Clone, Copy, Debug, PartialEq, Eq, Hash)]
pub enum Way {
    /// By all tests.
    Other,
    /// Its value goes into a field of its own. Its formula has the address of the symbol or of its
    /// stub, or of its entry, and no origin of offsets of thread-local symbols.
    Plain,
    /// So, but it is an offset in the module's TLS block.
    ModuleOffset,
    /// So, and it is a high part of RISC-V, whose value `R_RISCV_PCREL_LO12_I` and
    /// `R_RISCV_PCREL_LO12_S` take.
    High,
    /// It is one of these two.
    Low,
}

/// How long the instruction of a relocation is, where those of its architecture have several
/// lengths.
#[derive(Clone, Copy, Debug, PartialEq, Eq, Hash)]
pub enum Length {
    /// Any, or none.
    Any,
    /// 2 bytes, of RISC-V.
    Two,
    /// 4 bytes, of RISC-V.
    Four,
    /// 8 bytes, of PowerPC64.
    Prefixed,
}

/// What a linker asks of a relocation's row.
#[derive(Clone, Copy, Debug, PartialEq, Eq, Hash)]
pub struct RowFacts {
    /// The entry that its formula has.
    pub entry: EntryUse,
    /// Whether that entry is one of S + A.
    pub entry_has_addend: bool,
    /// Whether the value goes into a branch.
    pub is_branch: bool,
    /// Whether a stub or an entry of the PLT may serve as its target.
    pub may_use_stub: bool,
    /// Whether such an entry is made only if the output doesn't define the symbol.
    pub stub_only_if_undefined: bool,
    /// Whether it is a word of 8 bytes with S + A.
    pub is_word: bool,
    /// Whether what is written depends on where the output is loaded.
    pub depends_on_load: bool,
    /// How its value is found.
    pub way: Way,
    /// How long its instruction is.
    pub length: Length,
}
