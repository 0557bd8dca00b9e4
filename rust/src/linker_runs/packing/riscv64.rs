// SPDX-License-Identifier: MIT OR Apache-2.0
// Made by tools/generate of crates/linker_runs/src/packing/riscv64.rt.
//! RISC-V: what a call becomes.

use crate::linker_runs::packing::code::{Code, Template, pair_at, relocated};
use crate::linker_runs::packing::{ItemError, Machine};
use crate::linker_runs::relaxation::Shapes;
use crate::linker_runs::riscv64::link_at;
use crate::linker_runs::shapes::riscv64::{CALL, TAIL_C};
use crate::linker_elf::elf::Row;
use crate::riscv64::{self, RiscVRelocation};

/// What a relocation means that has a row.
#[inline(always)]
fn row_of(name: RiscVRelocation) -> Row {
    match crate::riscv64::row(name) {
        Some(row) => row,
        None => unreachable!(),
    }
}

/// `jal` of distance 0 that links a register.
#[inline(always)]
fn jal(link: u32) -> [u8; 4] {
    (0x6f + link * 128).to_le_bytes()
}

/// `c.j` of distance 0, or `c.jal`, which links x1.
#[inline(always)]
fn short_jump(link: u32) -> [u8; 2] {
    if link == 0 {
        [0x01, 0xa0]
    } else {
        [0x01, 0x20]
    }
}

/// The instruction of which n bytes stay of a call that links a register.
#[inline(always)]
fn template_of(
    machine: Machine,
    section: &[u8],
    offset: u64,
    link: u32,
    kept: u64,
) -> Option<Template> {
    match kept {
        2 if machine.links_short(link) => Some(Template {
            row: row_of(RiscVRelocation::R_RISCV_RVC_JUMP),
            code: Code::Half(short_jump(link)),
        }),
        4 => Some(Template {
            row: row_of(RiscVRelocation::R_RISCV_JAL),
            code: Code::Word(jal(link)),
        }),
        8 => Some(Template {
            row: row_of(RiscVRelocation::R_RISCV_CALL_PLT),
            code: Code::Pair(pair_at(section, offset)),
        }),
        _ => None,
    }
}

/// What a call becomes of which n bytes stay, at an address and for a target's.
#[inline(always)]
pub(crate) fn code_of(
    machine: Machine,
    section: &[u8],
    offset: u64,
    kept: u64,
    place: u64,
    target: u64,
) -> Result<Code, ItemError> {
    let Some(link) = link_at(section, offset) else {
        return Err(ItemError::NotItsInstructions);
    };
    let Some(template) = template_of(machine, section, offset, link, kept) else {
        return Err(ItemError::NoShape);
    };
    match relocated(template, place, target) {
        Some(code) => Ok(code),
        None => Err(ItemError::OutOfReach),
    }
}

/// Whether a call that links a register can have the shapes.
fn are_of_link(machine: Machine, link: u32, shapes: &Shapes) -> bool {
    *shapes == CALL || (machine.links_short(link) && *shapes == TAIL_C)
}

/// Whether a call at an offset can have the shapes.
pub(crate) fn has_shapes(machine: Machine, section: &[u8], offset: u64, shapes: &Shapes) -> bool {
    match link_at(section, offset) {
        Some(link) => are_of_link(machine, link, shapes),
        None => false,
    }
}
