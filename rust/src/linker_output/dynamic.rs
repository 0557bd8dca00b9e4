// SPDX-License-Identifier: MIT OR Apache-2.0
// Made by tools/generate of crates/linker_output/src/dynamic.rt.
//! The types of dynamic relocations, and the dynamic relocations of a GOT entry.

use crate::linker_output::description::Target;
use crate::linker_section::needed::EntryClass;

/// A type of dynamic relocations.
#[derive(Clone, Copy, Debug, PartialEq, Eq, Hash)]
pub struct DynamicType {
    /// The `r_type` in ELF files.
    pub r_type: u32,
    /// The name, as "R_X86_64_RELATIVE".
    pub name: &'static str,
}

/// The types of dynamic relocations that a linker emits.
#[derive(Clone, Copy, Debug, PartialEq, Eq, Hash)]
pub struct DynamicTypes {
    /// A word with S + A.
    pub word: DynamicType,
    /// A word with the load address plus A.
    pub relative: DynamicType,
    /// A word of the GOT with S: `word` where the psABI has no type of its own.
    pub glob_dat: DynamicType,
    /// A word of the PLT's GOT with S.
    pub jump_slot: DynamicType,
    /// A copy of a variable of a shared library.
    pub copy: DynamicType,
    /// A word with what the function at the load address plus A returns.
    pub irelative: DynamicType,
    /// A word with the number of the symbol's module.
    pub module_number: DynamicType,
    /// A word with the symbol's offset in the block of its module.
    pub module_offset: DynamicType,
    /// A word with the symbol's offset from the thread pointer.
    pub thread_offset: DynamicType,
    /// A TLS descriptor, of two words. None of PowerPC64, whose ABI has none.
    pub descriptor: Option<DynamicType>,
}

/// A type with an `r_type` and a name.
macro_rules! named {
    ($r_type:literal, $name:literal) => {
        $crate::linker_output::dynamic::DynamicType {
            r_type: $r_type,
            name: $name,
        }
    };
}

pub(crate) use named;

/// The name of the first of some types that has an `r_type`.
fn name_in(types: &[DynamicType], r_type: u32) -> Option<&'static str> {
    for listed in types {
        if listed.r_type == r_type {
            return Some(listed.name);
        }
    }
    None
}

impl Target {
    /// The name of a type of dynamic relocations, as "R_X86_64_RELATIVE", by its `r_type`. None of
    /// one that isn't of [`DynamicTypes`](crate::output::DynamicTypes).
    ///
    /// ```
    /// use linker_utils::output::Target;
    /// use linker_utils::elf::Architecture;
    ///
    /// let target = Target::of(Architecture::LoongArch64);
    /// assert_eq!(target.dynamic_name(12), Some("R_LARCH_IRELATIVE"));
    /// assert_eq!(target.dynamic_name(200), None);
    /// ```
    #[must_use]
    pub fn dynamic_name(&self, r_type: u32) -> Option<&'static str> {
        let types = &self.dynamic;
        let all = [
            types.word,
            types.relative,
            types.glob_dat,
            types.jump_slot,
            types.copy,
            types.irelative,
            types.module_number,
            types.module_offset,
            types.thread_offset,
        ];
        match name_in(&all, r_type) {
            Some(name) => Some(name),
            None => match types.descriptor {
                Some(descriptor) if descriptor.r_type == r_type => Some(descriptor.name),
                _ => None,
            },
        }
    }

    /// The types of the dynamic relocations of a GOT entry's words, by `r_type`: None for a word
    /// that has none, whose value is known when the output is linked.
    ///
    /// `is_bound` says that the symbol's definition is in this output and no other can take its
    /// place. `is_executable` says that the output is a position-independent executable, and not a
    /// shared library. A descriptor's relocation is at its first word and writes both. In a shared
    /// library the second word of a bound symbol's `ModuleOffset` has its offset from
    /// [`Origins::module_block`](crate::output::Origins::module_block).
    ///
    /// ```
    /// use linker_utils::output::Target;
    /// use linker_utils::section::EntryClass;
    /// use linker_utils::elf::Architecture;
    ///
    /// // a function that a position-independent executable imports
    /// let target = Target::of(Architecture::AArch64);
    /// let words = target.dynamic_words(EntryClass::Address, false, true);
    /// assert_eq!(words, [Some(target.dynamic.glob_dat.r_type), None]);
    /// ```
    #[must_use]
    pub fn dynamic_words(
        &self,
        class: EntryClass,
        is_bound: bool,
        is_executable: bool,
    ) -> [Option<u32>; 2] {
        let types = &self.dynamic;
        match class {
            EntryClass::Address if is_bound => [Some(types.relative.r_type), None],
            EntryClass::Address => [Some(types.glob_dat.r_type), None],
            EntryClass::ThreadOffset if is_bound && is_executable => [None, None],
            EntryClass::ThreadOffset => [Some(types.thread_offset.r_type), None],
            EntryClass::ModuleOffset if is_bound && is_executable => [None, None],
            EntryClass::ModuleOffset if is_bound => [Some(types.module_number.r_type), None],
            EntryClass::ModuleOffset => {
                [
                    Some(types.module_number.r_type),
                    Some(types.module_offset.r_type),
                ]
            }
            EntryClass::Module if is_executable => [None, None],
            EntryClass::Module => [Some(types.module_number.r_type), None],
            EntryClass::Descriptor => match types.descriptor {
                Some(descriptor) => [Some(descriptor.r_type), None],
                None => [None, None],
            },
        }
    }
}
