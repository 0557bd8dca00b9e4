// SPDX-License-Identifier: MIT OR Apache-2.0
// Made by tools/generate of crates/linker_output/src/got.rt.
//! Words of the GOT, and what offsets of thread-local storage count from.

use crate::linker_output::description::Target;
use crate::linker_section::needed::EntryClass;

/// Where the thread pointer is, by the TLS image (ELF Handling For Thread-Local Storage).
#[derive(Clone, Copy, Debug, PartialEq, Eq, Hash)]
pub enum ThreadPointer {
    /// At the first multiple of the image's alignment at its end or above: variant II.
    AboveImage,
    /// Below the image: variant I.
    BelowImage {
        /// How many bytes between the thread pointer without the bias and the image are for the
        /// run-time library, at least.
        reserved: u64,
        /// How far the thread pointer is above the last multiple of the image's alignment that
        /// leaves these bytes.
        bias: u64,
    },
}

/// The addresses that offsets of thread-local storage count from.
#[repr(C)]
#[derive(Clone, Copy, Debug, PartialEq, Eq, Hash)]
pub struct Origins {
    /// The address that the thread pointer stands for.
    pub thread_pointer: u64,
    /// The address that offsets in the module's block count from.
    pub module_block: u64,
}

/// The first word of the GOT.
#[derive(Clone, Copy, Debug, PartialEq, Eq, Hash)]
pub enum GotHeader {
    /// The address of `_DYNAMIC`, or 0 where there is none.
    Dynamic,
    /// What offsets from the GOT count from.
    Base,
}

/// The GOT.
#[derive(Clone, Copy, Debug, PartialEq, Eq, Hash)]
pub struct GotLayout {
    /// Its first word, if it isn't an entry.
    pub header: Option<GotHeader>,
    /// How far above its address is what offsets from it count from.
    pub bias: u64,
}

/// How many words of 8 bytes an entry of the GOT has.
///
/// ```
/// use linker_utils::output::entry_words;
/// use linker_utils::section::EntryClass;
///
/// assert_eq!(entry_words(EntryClass::ThreadOffset), 1);
/// assert_eq!(entry_words(EntryClass::Descriptor), 2);
/// ```
#[must_use]
pub fn entry_words(class: EntryClass) -> u64 {
    match class {
        EntryClass::Address | EntryClass::ThreadOffset => 1,
        EntryClass::ModuleOffset | EntryClass::Module | EntryClass::Descriptor => 2,
    }
}

/// What an entry's words hold in a static executable, by its symbol's address, S + A where the
/// entry is of S + A. The second word is 0 where the entry has one. The executable's module has
/// number 1. None of a descriptor, whose function a static executable has not: there a linker
/// rewrites the sequence.
///
/// ```
/// use linker_utils::output::static_words;
/// use linker_utils::output::Target;
/// use linker_utils::section::EntryClass;
/// use linker_utils::elf::Architecture;
///
/// // a variable at the start of an image of 0x14 bytes, aligned to 8
/// let origins = Target::of(Architecture::X86_64).origins(0x40_1000, 0x14, 8);
/// let words = static_words(EntryClass::ThreadOffset, 0x40_1000, origins);
/// assert_eq!(words, Some([0_u64.wrapping_sub(0x18), 0]));
/// ```
#[must_use]
pub fn static_words(class: EntryClass, address: u64, origins: Origins) -> Option<[u64; 2]> {
    match class {
        EntryClass::Address => Some([address, 0]),
        EntryClass::ThreadOffset => Some([address.wrapping_sub(origins.thread_pointer), 0]),
        EntryClass::ModuleOffset => Some([1, address.wrapping_sub(origins.module_block)]),
        EntryClass::Module => Some([1, 0]),
        EntryClass::Descriptor => None,
    }
}

/// An alignment, where 0 stands for 1.
#[inline]
fn unit_of(alignment: u64) -> u64 {
    if alignment == 0 { 1 } else { alignment }
}

/// The first multiple of an alignment at an address or above, modulo 2^64.
#[inline]
fn at_or_above(alignment: u64, address: u64) -> u64 {
    let unit = unit_of(alignment);
    match address % unit {
        0 => address,
        past => address.wrapping_add(unit - past),
    }
}

impl Target {
    /// What offsets of thread-local storage count from, by the TLS image: its address, its length
    /// in memory in bytes, and its alignment, `p_vaddr`, `p_memsz` and `p_align` of `PT_TLS`. An
    /// alignment of 0 stands for 1. Addresses are modulo 2^64.
    ///
    /// ```
    /// use linker_utils::output::Target;
    /// use linker_utils::elf::Architecture;
    ///
    /// let origins = Target::of(Architecture::Ppc64).origins(0x1_0000, 0x20, 16);
    /// assert_eq!(origins.thread_pointer, 0x1_7000);
    /// assert_eq!(origins.module_block, 0x1_8000);
    /// ```
    #[must_use]
    pub fn origins(&self, image: u64, len: u64, alignment: u64) -> Origins {
        let thread_pointer = match self.thread_pointer {
            ThreadPointer::AboveImage => at_or_above(alignment, image.wrapping_add(len)),
            ThreadPointer::BelowImage { reserved, bias } => {
                let highest = image.wrapping_sub(reserved);
                let rounded_down = highest - highest % unit_of(alignment);
                rounded_down.wrapping_add(bias)
            }
        };
        Origins {
            thread_pointer,
            module_block: image.wrapping_add(self.module_bias),
        }
    }

    /// The address that offsets from the GOT count from, by the GOT's.
    #[must_use]
    pub fn got_base(&self, got: u64) -> u64 {
        got.wrapping_add(self.got.bias)
    }

    /// The first word of the GOT, if it isn't an entry, by the GOT's address and that of
    /// `_DYNAMIC`, 0 where there is none.
    ///
    /// ```
    /// use linker_utils::output::Target;
    /// use linker_utils::elf::Architecture;
    ///
    /// assert_eq!(Target::of(Architecture::RiscV).got_header(0x1_2000, 0x1_1000), Some(0x1_1000));
    /// assert_eq!(Target::of(Architecture::Ppc64).got_header(0x1_2000, 0), Some(0x1_a000));
    /// assert_eq!(Target::of(Architecture::X86_64).got_header(0x1_2000, 0x1_1000), None);
    /// ```
    #[must_use]
    pub fn got_header(&self, got: u64, dynamic: u64) -> Option<u64> {
        match self.got.header {
            Some(GotHeader::Dynamic) => Some(dynamic),
            Some(GotHeader::Base) => Some(self.got_base(got)),
            None => None,
        }
    }
}
