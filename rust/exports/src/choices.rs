// SPDX-License-Identifier: MIT OR Apache-2.0
// Made by tools/generate of crates/linker_utils_c/src/choices.rt.
//! Which rewrite a linker chooses, by `e_machine` and `r_type` of ELF files.

use crate::architectures::by_architecture;
use crate::rewrites::number_of;
use crate::status::{Status, or_return};
use linker_utils::architecture::{Relaxation, fits};
use linker_utils::elf::{Architecture, Choice, InstructionRewrite, LinkFacts, Operands};

/// What a linker knows of a relocation's symbol and of its output: `LinkFacts`. A fact holds where
/// its number is not 0.
#[repr(C)]
#[derive(Clone, Copy)]
pub struct LinkFactNumbers {
    pub is_local: u8,
    pub is_ifunc: u8,
    pub is_undefined_weak: u8,
    pub has_fixed_address: u8,
    pub is_pcrel_link_time_constant: u8,
    pub is_executable: u8,
    pub has_local_exec_base: u8,
    pub may_compress: u8,
    pub is_relaxable: u8,
    pub has_got_high_part: u8,
    pub is_label_relaxable: u8,
    pub toc_base_is_exclusive: u8,
    pub may_change_toc: u8,
    pub has_addresses: u8,
    pub group_fits: u8,
    pub is_class32: u8,
    pub operands: Operands,
}

/// A choice in numbers.
#[repr(C)]
#[derive(Clone, Copy)]
pub struct ChoiceNumbers {
    /// The rewrite's number.
    pub rewrite: u32,
    /// The `r_type` of the relocation that is then written.
    pub relocation: u32,
    /// What becomes of the next relocation: 1 if it is skipped, else 0.
    pub modifier: u32,
    /// How many bytes are to be deleted after the rewrite.
    pub deleted_len: u32,
    /// Where they begin, from the offset on.
    pub deleted_start: u64,
    /// Where another relocation is, from the offset on, whose instruction the rewrite changes too.
    pub other_offset: i64,
    /// The `r_type` that it then has.
    pub other_relocation: u32,
    /// 1 if there is one; else 0, as are both numbers.
    pub has_other: u8,
    /// The rewrite's count of bytes before the field; 0 if it has none.
    pub opcode_len: u8,
    /// Where the relocation is that is skipped, from the offset on; 0 where none is.
    pub skipped_offset: u8,
}

impl LinkFactNumbers {
    #[inline(always)]
    pub(crate) fn facts(&self) -> LinkFacts {
        LinkFacts {
            is_local: self.is_local != 0,
            is_ifunc: self.is_ifunc != 0,
            is_undefined_weak: self.is_undefined_weak != 0,
            has_fixed_address: self.has_fixed_address != 0,
            is_pcrel_link_time_constant: self.is_pcrel_link_time_constant != 0,
            is_executable: self.is_executable != 0,
            has_local_exec_base: self.has_local_exec_base != 0,
            may_compress: self.may_compress != 0,
            is_class32: self.is_class32 != 0,
            is_relaxable: self.is_relaxable != 0,
            has_got_high_part: self.has_got_high_part != 0,
            is_label_relaxable: self.is_label_relaxable != 0,
            toc_base_is_exclusive: self.toc_base_is_exclusive != 0,
            may_change_toc: self.may_change_toc != 0,
            group_fits: self.group_fits != 0,
            has_addresses: self.has_addresses != 0,
            operands: self.operands.completed(),
        }
    }
}

#[inline(always)]
pub(crate) fn in_numbers(chosen: Choice<Relaxation, u32>) -> ChoiceNumbers {
    let (rewrite, opcode_len) = chosen.kind.number();
    let (deleted_start, deleted_len) = match chosen.kind.deleted() {
        Some(bytes) => (bytes.start, bytes.count),
        None => (0, 0),
    };
    let (has_other, other_offset, other_relocation) = match chosen.kind.other_relocation() {
        Some(other) => (1, other.offset, other.relocation),
        None => (0, 0, 0),
    };
    let skipped_offset = match chosen.kind.skipped_offset() {
        Some(offset) => offset as u8,
        None => 0,
    };
    ChoiceNumbers {
        rewrite,
        relocation: chosen.relocation,
        modifier: number_of(chosen.kind.next_modifier()),
        deleted_len,
        deleted_start,
        other_offset,
        other_relocation,
        has_other,
        opcode_len,
        skipped_offset,
    }
}

/// The choice of an architecture's rewrites, in numbers.
macro_rules! chosen_in_numbers {
    ($of:ident $module:ident $names:ident
        ($r_type:expr, $section:expr, $offset:expr, $facts:expr)) => {{
        let name = linker_utils::$module::$names::from_elf($r_type);
        let chosen = linker_utils::$module::choose(name, $section, $offset, $facts);
        in_numbers(Choice {
            kind: Relaxation::$of(chosen.kind),
            relocation: chosen.relocation.r_type(),
        })
    }};
}

/// The choice for a relocation, as `Architecture::choose`, in numbers. In an architecture's arm the
/// compiler drops what is of other architectures' rewrites.
#[inline(always)]
pub(crate) fn choose_in_numbers(
    architecture: Architecture,
    r_type: u32,
    section: &[u8],
    offset: u64,
    facts: &LinkFacts,
) -> ChoiceNumbers {
    by_architecture!(
        architecture,
        chosen_in_numbers(r_type, section, offset, facts)
    )
}

/// Which rewrite a linker makes of the instruction at a relocation, and the relocation after it.
/// `UnknownArchitecture`.
pub fn linker_utils_choose_nonnull(
    machine: u16,
    r_type: u32,
    section: &[u8],
    offset: u64,
    facts: &LinkFactNumbers,
    choice: &mut ChoiceNumbers,
) -> u32 {
    let architecture = or_return!(Architecture::from_machine(machine), UnknownArchitecture);
    *choice = choose_in_numbers(architecture, r_type, section, offset, &facts.facts());
    Status::Success as u32
}

/// Whether the relocation with `r_type` can be rewritten if each other one of its sequence can:
/// with these facts and `group_fits`. False of a machine that isn't known.
pub fn linker_utils_relocation_fits_nonnull(
    machine: u16,
    r_type: u32,
    section: &[u8],
    offset: u64,
    facts: &LinkFactNumbers,
) -> bool {
    let Some(architecture) = Architecture::from_machine(machine) else {
        return false;
    };
    fits(architecture, r_type, section, offset, &facts.facts())
}

/// Whether a choice at the relocation with `r_type` leaves it and its instruction as they are.
/// False of a choice whose rewrite is none of the machine's.
pub fn linker_utils_is_unchanged(
    machine: u16,
    r_type: u32,
    choice: &ChoiceNumbers,
) -> bool {
    let Some(architecture) = Architecture::from_machine(machine) else {
        return false;
    };
    let Some(kind) = Relaxation::from_number(architecture, choice.rewrite, choice.opcode_len) else {
        return false;
    };
    let relocation = choice.relocation;
    Choice { kind, relocation }.is_unchanged(r_type)
}
