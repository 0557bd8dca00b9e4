// SPDX-License-Identifier: MIT OR Apache-2.0
// Made by tools/generate of crates/linker_utils_c/src/rewrites.rt.
//! Rewrites of instructions, by `e_machine` and a rewrite's number.

use crate::architectures::{by_architecture, known};
use crate::status::{Status, or_return};
use linker_utils::architecture::Relaxation;
use linker_utils::elf::{Architecture, EM_X86_64, InstructionRewrite, RewriteWindow};
use linker_utils::relaxation::RelocationModifier;
use linker_utils::{riscv64, x86_64};

// Whether a rewrite, if there is one, can be applied.
#[inline(always)]
fn test_by<R: InstructionRewrite>(rewrite: Option<R>, section: &[u8], offset: u64) -> u32 {
    let named = or_return!(rewrite, UnknownRewrite);
    if !named.can_apply(section, offset) {
        return Status::CannotApply as u32;
    }
    Status::Success as u32
}

// Applies a rewrite, if there is one.
#[inline(always)]
fn apply_by<R: InstructionRewrite>(
    rewrite: Option<R>,
    section: &mut [u8],
    offset: &mut u64,
    addend: &mut i64,
) -> u32 {
    let named = or_return!(rewrite, UnknownRewrite);
    if !named.can_apply(section, *offset) {
        return Status::CannotApply as u32;
    }
    named.apply(section, offset, addend);
    Status::Success as u32
}

// Applies a rewrite of RISC-V. It isn't inlined, so that `linker_utils_apply` stays small: the kit
// drops `inline(always)` of very large functions.
#[inline(never)]
fn apply_riscv(rewrite: u32, section: &mut [u8], offset: &mut u64, addend: &mut i64) -> u32 {
    apply_by(
        riscv64::RewriteKind::from_number(rewrite),
        section,
        offset,
        addend,
    )
}

// Applies a rewrite of x86-64. It isn't inlined, so that `linker_utils_apply` stays small. In this
// order the rewrite and the offset stay in the registers that they have there.
#[inline(never)]
fn apply_x86_64(
    opcode_len: u8,
    rewrite: u32,
    section: &mut [u8],
    addend: &mut i64,
    offset: &mut u64,
) -> u32 {
    apply_by(
        x86_64::RewriteKind::from_number(rewrite, opcode_len),
        section,
        offset,
        addend,
    )
}

// Applies the rewrite of a machine and a number, if there is one.
#[inline(always)]
fn apply_of(
    machine: u16,
    rewrite: u32,
    opcode_len: u8,
    section: &mut [u8],
    offset: &mut u64,
    addend: &mut i64,
) -> u32 {
    let architecture = or_return!(Architecture::from_machine(machine), UnknownArchitecture);
    match architecture {
        Architecture::RiscV => apply_riscv(rewrite, section, offset, addend),
        Architecture::X86_64 => apply_x86_64(opcode_len, rewrite, section, addend, offset),
        _ => by_architecture!(architecture, known(of => {
            apply_by(Relaxation::from_number(of, rewrite, opcode_len), section, offset, addend)
        })),
    }
}

// As `apply_of`, not inlined.
#[inline(never)]
fn apply_any(
    machine: u16,
    rewrite: u32,
    opcode_len: u8,
    section: &mut [u8],
    offset: &mut u64,
    addend: &mut i64,
) -> u32 {
    apply_of(machine, rewrite, opcode_len, section, offset, addend)
}

#[inline(always)]
pub(crate) fn number_of(modifier: RelocationModifier) -> u32 {
    match modifier {
        RelocationModifier::Normal => 0,
        RelocationModifier::SkipNextRelocation => 1,
    }
}

/// Whether `linker_utils_apply` at this offset would succeed: the status is that of the rewrite.
pub fn linker_utils_can_apply_nonnull(
    machine: u16,
    rewrite: u32,
    opcode_len: u8,
    section: &[u8],
    offset: u64,
) -> u32 {
    let architecture = or_return!(Architecture::from_machine(machine), UnknownArchitecture);
    by_architecture!(architecture, known(of => {
        test_by(Relaxation::from_number(of, rewrite, opcode_len), section, offset)
    }))
}

/// Whether the bytes at an offset of a section are an instruction, or a sequence of some, that the
/// rewrite is meant for. `linker_utils_apply` at this offset then succeeds. The error is the first
/// that applies of `UnknownArchitecture`, `UnknownRewrite` and `DoesNotMatch`.
pub fn linker_utils_matches_nonnull(
    machine: u16,
    rewrite: u32,
    opcode_len: u8,
    section: &[u8],
    offset: u64,
) -> u32 {
    let architecture = or_return!(Architecture::from_machine(machine), UnknownArchitecture);
    let named = or_return!(
        Relaxation::from_number(architecture, rewrite, opcode_len),
        UnknownRewrite
    );
    if !named.matches(section, offset) {
        return Status::DoesNotMatch as u32;
    }
    Status::Success as u32
}

/// Rewrites the instruction at an offset of a section, and sets the offset and the addend to those
/// of the relocation that is left. The error is the first that applies of `UnknownArchitecture`,
/// `UnknownRewrite` and `CannotApply`.
pub fn linker_utils_apply_nonnull(
    machine: u16,
    rewrite: u32,
    opcode_len: u8,
    section: &mut [u8],
    offset: &mut u64,
    addend: &mut i64,
) -> u32 {
    // Most relocations take rewrite 0, which changes nothing except on x86-64. So 0 needs no jump
    // through a table, and no room on the stack.
    if machine != EM_X86_64 {
        if rewrite != 0 {
            return apply_any(machine, rewrite, opcode_len, section, offset, addend);
        }
        return apply_of(machine, 0, opcode_len, section, offset, addend);
    }
    apply_of(machine, rewrite, opcode_len, section, offset, addend)
}

/// The window of a rewrite: the bytes that `linker_utils_apply` writes at an offset. It has 0 bytes
/// where the rewrite writes none. The errors are `UnknownArchitecture` and `UnknownRewrite`.
pub fn linker_utils_rewrite_window(
    machine: u16,
    rewrite: u32,
    opcode_len: u8,
    window: &mut RewriteWindow,
) -> u32 {
    let architecture = or_return!(Architecture::from_machine(machine), UnknownArchitecture);
    let named = or_return!(
        Relaxation::from_number(architecture, rewrite, opcode_len),
        UnknownRewrite
    );
    *window = named.window();
    Status::Success as u32
}

/// What becomes of the relocation after that of the rewritten instruction, into `modifier`: 0 where
/// it is applied as usual, 1 where it is skipped. The errors are `UnknownArchitecture` and
/// `UnknownRewrite`.
pub fn linker_utils_next_modifier(
    machine: u16,
    rewrite: u32,
    opcode_len: u8,
    modifier: &mut u32,
) -> u32 {
    let architecture = or_return!(Architecture::from_machine(machine), UnknownArchitecture);
    let named = or_return!(
        Relaxation::from_number(architecture, rewrite, opcode_len),
        UnknownRewrite
    );
    *modifier = number_of(named.next_modifier());
    Status::Success as u32
}
