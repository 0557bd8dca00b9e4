// SPDX-License-Identifier: MIT OR Apache-2.0
// Made by tools/generate of crates/linker_output/src/description.rt.
//! The description of an architecture.

use crate::linker_output::addresses::AddressSection;
use crate::linker_output::dynamic::DynamicTypes;
use crate::linker_output::flags::FlagRules;
use crate::linker_output::got::{GotLayout, ThreadPointer};
use crate::linker_output::layout::{CodeUnit, Interpreter, ProvidedSymbol, SaveRestoreRoutines};
use crate::linker_output::properties::LandingProperty;
use crate::linker_output::stubs::Stub;
use crate::linker_output::tags::DynamicTag;
use crate::linker_elf::elf::architecture::by_architecture;
use crate::elf::Architecture;

macro_rules! target_of {
    ($of:ident $module:ident $names:ident ()) => {
        &crate::linker_output::$module::TARGET
    };
}

/// What a linker adds to an output of an architecture, in numbers and texts.
///
/// The fields are public, so that a linker can describe a further architecture by a value of its
/// own.
#[derive(Clone, Copy, Debug, PartialEq, Eq, Hash)]
pub struct Target {
    /// The dynamic relocations.
    pub dynamic: DynamicTypes,
    /// The tags that only its dynamic sections have.
    pub dynamic_tags: &'static [DynamicTag],
    /// Where the thread pointer is.
    pub thread_pointer: ThreadPointer,
    /// How far above the TLS image the address is that offsets in a module's block count from.
    pub module_bias: u64,
    /// The GOT's first word, and what offsets from the GOT count from.
    pub got: GotLayout,
    /// The section of objects in which compilers keep addresses, if there is one.
    pub address_section: Option<AddressSection>,
    /// The largest page, in bytes, for which an output has to be right.
    pub page: u64,
    /// How long the shortest instruction is.
    pub code_unit: CodeUnit,
    /// What fills gaps in code, from each multiple of 4 on.
    pub filler: [u8; 4],
    /// How `e_flags` of objects go together.
    pub flags: FlagRules,
    /// The symbols that a linker defines if an object refers to them.
    pub symbols: &'static [ProvidedSymbol],
    /// The functions that a linker defines if an object calls them.
    pub runs: &'static [SaveRestoreRoutines],
    /// The bits of `e_flags` that the path of the dynamic linker depends on.
    pub interpreter_flags: u32,
    /// The paths of the dynamic linker.
    pub interpreters: &'static [Interpreter],
    /// What says that code is so protected that indirect branches may go only to some instructions,
    /// if the architecture has such code.
    pub landing_property: Option<LandingProperty>,
    /// The architecture whose relocations the fields of stubs have.
    pub instructions: Architecture,
    /// The stub to the address that a word has.
    pub load_stub: Stub,
    /// The same that begins with an instruction to which indirect branches may go, if the
    /// architecture's code is so protected.
    pub landing_load_stub: Option<Stub>,
    /// The stub to a far target, if the architecture has one.
    pub jump_stub: Option<Stub>,
    /// The stub to a target anywhere that has its address, if branches may need it.
    pub far_stub: Option<Stub>,
    /// The same with the distance to the target.
    pub far_relative_stub: Option<Stub>,
    /// The stub to the address that a word near the TOC has, if code has the TOC pointer.
    pub toc_load_stub: Option<Stub>,
    /// The same for functions of this output.
    pub toc_far_stub: Option<Stub>,
    /// The stub to the address that a word has, by a prefixed instruction.
    pub prefixed_load_stub: Option<Stub>,
    /// The stub to a far target, by a prefixed instruction.
    pub prefixed_jump_stub: Option<Stub>,
}

/// A description with the types of dynamic relocations and the stub `Load`, and with none of the
/// optional stubs. An architecture sets what differs, and always its paths.
macro_rules! plain {
    ($instructions:ident, $dynamic:expr, $load_stub:expr) => {
        $crate::linker_output::description::Target {
            dynamic: $dynamic,
            dynamic_tags: &[],
            thread_pointer: $crate::linker_output::got::ThreadPointer::BelowImage {
                reserved: 0,
                bias: 0,
            },
            module_bias: 0,
            got: $crate::linker_output::got::GotLayout {
                header: None,
                bias: 0,
            },
            address_section: None,
            page: 0x10000,
            code_unit: $crate::linker_output::layout::WORDS,
            filler: [0, 0, 0, 0],
            flags: $crate::linker_output::flags::FlagRules {
                same: 0,
                joined: 0,
                own: 0,
            },
            symbols: &[],
            runs: &[],
            interpreter_flags: 0,
            interpreters: &[],
            landing_property: None,
            instructions: crate::elf::Architecture::$instructions,
            load_stub: $load_stub,
            landing_load_stub: None,
            jump_stub: None,
            far_stub: None,
            far_relative_stub: None,
            toc_load_stub: None,
            toc_far_stub: None,
            prefixed_load_stub: None,
            prefixed_jump_stub: None,
        }
    };
}

pub(crate) use plain;

impl Target {
    /// The description of an architecture.
    ///
    /// ```
    /// use linker_utils::output::Target;
    /// use linker_utils::elf::Architecture;
    ///
    /// let target = Target::of(Architecture::X86_64);
    /// assert_eq!(target.dynamic.relative.r_type, 8);
    /// assert_eq!(target.dynamic.relative.name, "R_X86_64_RELATIVE");
    /// assert_eq!(target.page, 0x1000);
    /// ```
    #[must_use]
    pub fn of(architecture: Architecture) -> &'static Target {
        by_architecture!(architecture, target_of())
    }
}
