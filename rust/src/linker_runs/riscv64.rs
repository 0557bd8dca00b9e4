// SPDX-License-Identifier: MIT OR Apache-2.0
// Made by tools/generate of crates/linker_runs/src/riscv64.rt.
//! RISC-V: the items that relocations make.

use crate::linker_runs::items::{
    AsRelocation, Relocation, has_bytes, is_marked, relocation_at, unsigned_addend,
};
use crate::linker_runs::packing::Machine;
use crate::linker_runs::relaxation::{Alignment, Item, Shapes, Site};
use crate::linker_runs::shapes::riscv64::{CALL, TAIL_C};
use crate::riscv64::{LinkRegister, RiscVRelocation};

/// Whether a relocation has a name.
#[inline(always)]
fn has_name(relocation: &Relocation, name: RiscVRelocation) -> bool {
    relocation.r_type == name.r_type()
}

/// Whether a relocation is that of a call.
#[inline(always)]
fn is_of_call(relocation: &Relocation) -> bool {
    has_name(relocation, RiscVRelocation::R_RISCV_CALL)
        || has_name(relocation, RiscVRelocation::R_RISCV_CALL_PLT)
}

/// How many bytes of nops an `R_RISCV_ALIGN` has. None where they are not whole nops in the
/// section.
#[inline]
fn nops_of(section: &[u8], relocation: &Relocation) -> Option<u32> {
    if relocation.addend < 0 || relocation.addend > i64::from(u32::MAX) {
        return None;
    }
    let nops = relocation.addend as u32;
    if nops % 2 == 0 && has_bytes(section, relocation.offset, u64::from(nops)) {
        Some(nops)
    } else {
        None
    }
}

/// The alignment of an `R_RISCV_ALIGN` with n bytes of nops.
#[inline]
fn alignment_of(nops: u32, offset: u64) -> Alignment {
    Alignment {
        offset,
        nops,
        alignment: (u64::from(nops) + 1).next_power_of_two(),
        max_skip: None,
    }
}

/// Whether a relocation is an `R_RISCV_ALIGN` that has nops.
#[inline]
fn aligns(relocation: &Relocation) -> bool {
    has_name(relocation, RiscVRelocation::R_RISCV_ALIGN) && relocation.addend != 0
}

/// The index of the next alignment after the relocation at an index, or how many relocations there
/// are.
pub(crate) fn next_alignment<R: AsRelocation>(relocations: &[R], index: usize) -> usize {
    for next in index + 1..relocations.len() {
        if aligns(&relocation_at(relocations, next)) {
            return next;
        }
    }
    relocations.len()
}

/// What has to divide the address of the first of n bytes of nops, so that they are enough:
/// the least power of two that leaves no more to fill.
#[inline]
fn enough_at(nops: u64) -> u64 {
    ((nops + 1).next_power_of_two() - nops).next_power_of_two()
}

/// Whether the relocation at an index may free n bytes, and the next alignment, at an index,
/// has its nops wherever it had them.
#[inline]
fn may_free<R: AsRelocation>(freed: u64, relocations: &[R], index: usize, next: usize) -> bool {
    if next >= relocations.len() {
        return true;
    }
    match unsigned_addend(&relocation_at(relocations, next)) {
        Some(nops) => freed % enough_at(nops) == 0,
        None => true,
    }
}

/// The register that the call at an offset links. None where no call is there.
#[inline]
pub(crate) fn link_at(section: &[u8], offset: u64) -> Option<u32> {
    let base = LinkRegister::OfAuipc.named_at(section, offset)?;
    if base == 0 {
        return None;
    }
    LinkRegister::OfJalr.named_at(section, offset)
}

/// What a call at an index can become that links a register.
#[inline]
fn shapes_of<R: AsRelocation>(
    machine: Machine,
    link: u32,
    section: &[u8],
    relocations: &[R],
    index: usize,
    next: usize,
) -> Shapes {
    let may_compress = relocation_at(relocations, index).may_compress;
    if may_compress && machine.links_short(link) && may_free(6, relocations, index, next) {
        TAIL_C
    } else {
        CALL
    }
}

/// The site of a call's relocation, if it may be relaxed.
#[inline]
fn site_at<R: AsRelocation>(
    machine: Machine,
    section: &[u8],
    base: u64,
    relocations: &[R],
    index: usize,
    next: usize,
) -> Option<Site> {
    let relocation = relocation_at(relocations, index);
    if !is_marked(relocations, index, RiscVRelocation::R_RISCV_RELAX.r_type()) {
        return None;
    }
    let target = relocation.target?;
    let link = link_at(section, relocation.offset)?;
    if !may_free(4, relocations, index, next) {
        return None;
    }
    Some(Site {
        offset: base + relocation.offset,
        len: 8,
        target,
        shapes: shapes_of(machine, link, section, relocations, index, next),
    })
}

/// Whether a relocation is what the psABI allows.
#[inline(always)]
pub(crate) fn is_formed(section: &[u8], relocation: &Relocation) -> bool {
    if !has_bytes(section, relocation.offset, 0) {
        return false;
    }
    if is_of_call(relocation) {
        has_bytes(section, relocation.offset, 8)
    } else if has_name(relocation, RiscVRelocation::R_RISCV_ALIGN) {
        nops_of(section, relocation).is_some()
    } else {
        true
    }
}

/// The item that the relocation at an index makes, if it makes one.
#[inline]
pub(crate) fn item_at<R: AsRelocation>(
    machine: Machine,
    section: &[u8],
    base: u64,
    relocations: &[R],
    index: usize,
    next: usize,
) -> Option<Item> {
    let relocation = relocation_at(relocations, index);
    if is_of_call(&relocation) {
        let site = site_at(machine, section, base, relocations, index, next)?;
        return Some(Item::Site(site));
    }
    if !aligns(&relocation) {
        return None;
    }
    let nops = nops_of(section, &relocation)?;
    Some(Item::Aligned(alignment_of(nops, base + relocation.offset)))
}
