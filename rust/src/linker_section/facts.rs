// SPDX-License-Identifier: MIT OR Apache-2.0
// Made by tools/generate of crates/linker_section/src/facts.rt.
//! What a linker knows of symbols and of the output when it writes values.

/// What a linker knows of a symbol of an object, once addresses are known. A table of these has
/// those of an object at the indexes that its relocations name (`r_sym`); that of index 0 has no
/// symbol, and its facts are 0. A linker that has no such entry has 0 for its address.
///
/// A relocation takes from it what its psABI's formula names, so that a linker fills in what it has
/// of a symbol, whichever relocations there are.
#[repr(C)]
#[derive(Default, Clone, Copy, Debug, PartialEq, Eq, Hash)]
pub struct Symbol {
    /// S: its address, and of a thread-local symbol its address in the TLS segment's image.
    pub address: u64,
    /// Z: its size, `st_size`.
    pub size: u64,
    /// The address of the entry of the PLT, or of another stub, by which branches go to it; 0 if
    /// they go to `address`.
    pub stub: u64,
    /// The address of its entry of the GOT of the class `Address`.
    pub address_entry: u64,
    /// The address of its entry of the class `ThreadOffset`.
    pub thread_entry: u64,
    /// The address of its entry of the class `ModuleOffset`.
    pub module_entry: u64,
    /// The address of its entry of the class `Descriptor`.
    pub descriptor: u64,
    /// The addend of these four entries: they are of S + `entry_addend`. 0 except for AArch64 and
    /// PowerPC64, where a relocation may require an entry of S + A. A linker with entries of a
    /// symbol for other addends has a further symbol in the table for each.
    pub entry_addend: i64,
    /// `st_other`, of which PowerPC64's branches take the local entry point.
    pub other: u8,
    /// Whether it is thread-local (`STT_TLS`).
    pub is_thread_local: bool,
    /// Whether it is weak and nothing defines it. Then `address` isn't read.
    pub is_undefined_weak: bool,
}

/// What a linker knows of a section and of the output that it is in.
#[repr(C)]
#[derive(Default, Clone, Copy, Debug, PartialEq, Eq, Hash)]
pub struct Addresses {
    /// The address of the section's first byte, from which offsets of relocations count.
    pub section: u64,
    /// What offsets from the GOT count from, as [`Operands::got_base`](crate::elf::Operands::got_base) says.
    pub got_base: u64,
    /// Where the thread pointer points to, as an address in the TLS segment's image: what offsets
    /// from the thread pointer count from. It goes by the segment's alignment, as
    /// `linker_utils::output::Target::origins` says. Read only where `has_tls` holds.
    pub thread_origin: u64,
    /// What offsets in the module's TLS block count from: the image's address, aligned or not; plus
    /// 0x8000 on PowerPC64, and plus 0x800 on RISC-V. Read only where `has_tls` holds.
    pub module_origin: u64,
    /// The address of the output's entry of the class `Module`; 0 if there is none.
    pub module_entry: u64,
    /// Whether the output has a TLS segment, so that the two origins are there. Each may be 0.
    pub has_tls: bool,
}
