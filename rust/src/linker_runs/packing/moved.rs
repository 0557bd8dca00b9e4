// SPDX-License-Identifier: MIT OR Apache-2.0
// Made by tools/generate of crates/linker_runs/src/packing/moved.rt.
//! The relocations of a packed section.

use crate::linker_runs::items::ItemList;
use crate::linker_runs::packing::Machine;
use crate::linker_runs::relaxation::Item;
use crate::linker_base::packing::{Position, position_from, position_of};
use crate::linker_base::relaxation::RelaxDelta;
use crate::linker_section::relocations::{RELA_LEN, Rela, relocation_at, relocations_len, set_relocation};
#[cfg(feature = "loongarch64")]
use crate::loongarch64::LoongArch64Relocation;
#[cfg(feature = "riscv64")]
use crate::riscv64::RiscVRelocation;

/// The type of a relocation at a site whose instructions became one of n bytes: that of the
/// one instruction. 0 where it isn't that of the site.
#[inline]
fn short_r_type(machine: Machine, kept: u64, r_type: u32) -> u32 {
    match machine {
        #[cfg(feature = "riscv64")]
        Machine::RiscV(_) => {
            if r_type != RiscVRelocation::R_RISCV_CALL.r_type()
                && r_type != RiscVRelocation::R_RISCV_CALL_PLT.r_type()
            {
                0
            } else if kept == 2 {
                RiscVRelocation::R_RISCV_RVC_JUMP.r_type()
            } else {
                RiscVRelocation::R_RISCV_JAL.r_type()
            }
        }
        #[cfg(feature = "loongarch64")]
        Machine::LoongArch64 => {
            if r_type == LoongArch64Relocation::R_LARCH_CALL36.r_type() {
                LoongArch64Relocation::R_LARCH_B26.r_type()
            } else if r_type == LoongArch64Relocation::R_LARCH_PCALA_HI20.r_type() {
                LoongArch64Relocation::R_LARCH_PCREL20_S2.r_type()
            } else {
                0
            }
        }
    }
}

/// The type of the relocation of an alignment.
#[inline]
fn align_r_type(machine: Machine) -> u32 {
    match machine {
        #[cfg(feature = "riscv64")]
        Machine::RiscV(_) => RiscVRelocation::R_RISCV_ALIGN.r_type(),
        #[cfg(feature = "loongarch64")]
        Machine::LoongArch64 => LoongArch64Relocation::R_LARCH_ALIGN.r_type(),
    }
}

/// The type of a relocation at the begin of an item of which n bytes stay.
#[inline]
fn r_type_at_item(machine: Machine, item: &Item, kept: u64, r_type: u32) -> u32 {
    match item {
        Item::Site(site) => {
            if site.shapes.count == 0 || kept == u64::from(site.len) {
                r_type
            } else {
                short_r_type(machine, kept, r_type)
            }
        }
        Item::Aligned(_) => {
            if r_type == align_r_type(machine) {
                0
            } else {
                r_type
            }
        }
    }
}

/// The item that begins at an offset.
#[inline]
fn item_from(items: &ItemList<'_>, offset: u64) -> Option<Item> {
    let index = items.place_of(offset);
    if index >= items.len() {
        return None;
    }
    let item = items.at(index);
    if item.offset() == offset {
        Some(item)
    } else {
        None
    }
}

/// The type of a relocation at a position.
#[inline]
fn r_type_of(
    machine: Machine,
    items: &ItemList<'_>,
    deltas: &[RelaxDelta],
    here: &Position,
    r_type: u32,
) -> u32 {
    let next = position_from(deltas, here, here.input_offset + 1);
    if next.output_offset == here.output_offset {
        return 0;
    }
    match item_from(items, here.input_offset) {
        Some(item) => {
            let end = position_from(deltas, here, item.offset().saturating_add(item.len()));
            let kept = end.output_offset.saturating_sub(here.output_offset);
            r_type_at_item(machine, &item, kept, r_type)
        }
        None => r_type,
    }
}

/// What a relocation of a section becomes once that is packed.
#[inline]
fn moved(
    machine: Machine,
    section: &[u8],
    base: u64,
    items: &ItemList<'_>,
    deltas: &[RelaxDelta],
    begin: &Position,
    relocation: &Rela,
) -> Rela {
    let len = section.len() as u64;
    if relocation.offset > len {
        return *relocation;
    }
    let here = position_of(deltas, base + relocation.offset);
    let r_type = if relocation.offset < len {
        r_type_of(machine, items, deltas, &here, relocation.r_type)
    } else {
        relocation.r_type
    };
    let mut after = *relocation;
    after.offset = here.output_offset.saturating_sub(begin.output_offset);
    after.r_type = r_type;
    after
}

/// Moves the relocations of a section to where they are once that is packed.
pub(crate) fn move_relocations(
    machine: Machine,
    section: &[u8],
    base: u64,
    items: &ItemList<'_>,
    deltas: &[RelaxDelta],
    begin: &Position,
    relocations: &mut [u8],
) {
    let len = relocations_len(relocations) * RELA_LEN;
    let whole = &mut relocations[..len];
    for index in 0..relocations_len(whole) {
        if let Some(before) = relocation_at(whole, index) {
            let after = moved(machine, section, base, items, deltas, begin, &before);
            set_relocation(whole, index, &after);
        }
    }
}
