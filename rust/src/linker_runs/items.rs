// SPDX-License-Identifier: MIT OR Apache-2.0
// Made by tools/generate of crates/linker_runs/src/items.rt.
//! The items of a run that the relocations of a section make, and why none can be made.

mod list;
mod numbers;
mod rewritten;

use alloc::vec::Vec;
use crate::support::*;
use crate::linker_runs::packing::Machine;
use crate::linker_runs::relaxation::Item;
#[cfg(feature = "loongarch64")]
use crate::linker_runs::loongarch64;
#[cfg(feature = "riscv64")]
use crate::linker_runs::riscv64;
pub(crate) use list::ItemList;
pub use numbers::ItemNumbers;
pub use rewritten::{RewrittenItemsError, rewritten_items_into};

/// A relocation of a section.
#[derive(Clone, Copy, Debug, PartialEq, Eq, Hash)]
pub struct Relocation {
    /// Its place, `r_offset`: an offset in the section.
    pub offset: u64,
    /// Its `r_type` in ELF files.
    pub r_type: u32,
    /// Whether it has a symbol: `r_sym` isn't 0.
    pub has_symbol: bool,
    /// Its addend, `r_addend`.
    pub addend: i64,
    /// The input offset in the run that it refers to: S + A, or the PLT entry. None where that
    /// isn't in the run, where bytes between S and S + A may be deleted, or where the linker wants
    /// the instructions to stay as they are.
    pub target: Option<u64>,
    /// The code there may use instructions of RISC-V's C extension: its object's `e_flags` have
    /// `EF_RISCV_RVC`. It means nothing for other architectures.
    pub may_compress: bool,
}

/// A relocation of a section: a [`Relocation`](crate::runs::Relocation), or an element of the caller's own array that says as
/// much.
pub trait AsRelocation: Copy {
    /// The relocation.
    #[must_use]
    fn as_relocation(self) -> Relocation;
}

impl AsRelocation for Relocation {
    #[inline(always)]
    fn as_relocation(self) -> Relocation {
        self
    }
}

/// Why no items are made of relocations.
#[cfg_attr(not(exhaustive), non_exhaustive)]
#[derive(Clone, Copy, Debug, PartialEq, Eq, Hash)]
pub enum ItemsError {
    /// Out of memory for the items.
    OutOfMemory,
    /// The index of the first relocation that isn't what the psABI allows.
    Malformed(usize),
}

impl From<AllocError> for ItemsError {
    fn from(_error: AllocError) -> ItemsError {
        ItemsError::OutOfMemory
    }
}

impl<T> From<AllocFailed<T>> for ItemsError {
    fn from(_error: AllocFailed<T>) -> ItemsError {
        ItemsError::OutOfMemory
    }
}

/// The relocation at an index.
#[inline(always)]
pub(crate) fn relocation_at<R: AsRelocation>(relocations: &[R], index: usize) -> Relocation {
    relocations[index].as_relocation()
}

/// Whether n bytes from an offset on lie in the section.
#[inline(always)]
pub(crate) fn has_bytes(section: &[u8], offset: u64, len: u64) -> bool {
    let section_len = section.len() as u64;
    offset <= section_len && len <= section_len - offset
}

/// Whether the relocation after the one at an index has an `r_type` and is at the same place.
#[inline(always)]
pub(crate) fn is_marked<R: AsRelocation>(relocations: &[R], index: usize, r_type: u32) -> bool {
    if index + 1 >= relocations.len() {
        return false;
    }
    let mark = relocation_at(relocations, index + 1);
    mark.r_type == r_type && mark.offset == relocation_at(relocations, index).offset
}

/// The addend of a relocation, if it isn't below 0.
#[inline(always)]
pub(crate) fn unsigned_addend(relocation: &Relocation) -> Option<u64> {
    if relocation.addend < 0 {
        None
    } else {
        Some(relocation.addend as u64)
    }
}

/// Whether a relocation is what the psABI allows.
#[inline(always)]
fn is_formed(machine: Machine, section: &[u8], relocation: &Relocation) -> bool {
    match machine {
        #[cfg(feature = "riscv64")]
        Machine::RiscV(_) => riscv64::is_formed(section, relocation),
        #[cfg(feature = "loongarch64")]
        Machine::LoongArch64 => loongarch64::is_formed(section, relocation),
    }
}

/// The index of the first relocation that isn't what the psABI allows: one that lies
/// after the section's end, one of a call where less than eight bytes are there
/// (`R_RISCV_CALL`, `R_RISCV_CALL_PLT`, `R_LARCH_CALL36`), or one of an alignment whose
/// nops the addend doesn't tell.
///
/// The addend of `R_RISCV_ALIGN` is a multiple of 2 from 0 up, below 2^32, of bytes in the section.
/// That of `R_LARCH_ALIGN` isn't below 0, its exponent is from 2 to 32, and its nops are a multiple
/// of 4 below 2^32, of bytes in the section.
#[must_use]
pub fn first_malformed<R: AsRelocation>(
    machine: Machine,
    section: &[u8],
    relocations: &[R],
) -> Option<usize> {
    for index in 0..relocations.len() {
        if !is_formed(machine, section, &relocation_at(relocations, index)) {
            return Some(index);
        }
    }
    None
}

/// What a walk that stands at a relocation has to know of those after it: on RISC-V the index of
/// the next alignment. `known` is what it knew before.
#[inline(always)]
fn ahead<R: AsRelocation>(machine: Machine, relocations: &[R], index: usize, known: usize) -> usize {
    match machine {
        #[cfg(feature = "riscv64")]
        Machine::RiscV(_) => {
            if known <= index {
                riscv64::next_alignment(relocations, index)
            } else {
                known
            }
        }
        #[cfg(feature = "loongarch64")]
        Machine::LoongArch64 => known,
    }
}

/// The item that the relocation at an index makes, if it makes one.
#[inline(always)]
fn item_at<R: AsRelocation>(
    machine: Machine,
    section: &[u8],
    base: u64,
    relocations: &[R],
    index: usize,
    ahead: usize,
) -> Option<Item> {
    match machine {
        #[cfg(feature = "riscv64")]
        Machine::RiscV(_) => { riscv64::item_at(machine, section, base, relocations, index, ahead) }
        #[cfg(feature = "loongarch64")]
        Machine::LoongArch64 => loongarch64::item_at(section, base, relocations, index),
    }
}

/// The items of a section, and which relocation makes each.
#[derive(Debug, Clone, PartialEq, Eq)]
pub struct SectionItems {
    /// The items, in the order of the relocations.
    pub items: Vec<ItemNumbers>,
    /// The index of the relocation that makes each.
    pub makers: Vec<usize>,
}

/// `crate::link::section_items`, with more parameters.
#[cfg_attr(debug_assertions, track_caller)]
pub fn section_items<R: AsRelocation>(
    machine: Machine,
    section: &[u8],
    base: u64,
    relocations: &[R],
) -> Result<SectionItems, ItemsError> {
    debug_assert!((base as u128) + (section.len() as u128) < 1 << 64);
    if let Some(index) = first_malformed(machine, section, relocations) {
        return Err(ItemsError::Malformed(index));
    }
    let mut items = Vec::new();
    let mut makers = Vec::new();
    let mut next = 0;
    for index in 0..relocations.len() {
        next = ahead(machine, relocations, index, next);
        if let Some(item) = item_at(machine, section, base, relocations, index, next) {
            items.fallible_push(ItemNumbers::from_item(item))?;
            makers.fallible_push(index)?;
        }
    }
    Ok(SectionItems { items, makers })
}

/// `crate::link::section_items_into`, with more parameters.
#[cfg_attr(debug_assertions, track_caller)]
pub fn section_items_into<R: AsRelocation>(
    machine: Machine,
    section: &[u8],
    base: u64,
    relocations: &[R],
    out: &mut [ItemNumbers],
    makers: &mut [usize],
) -> Result<usize, usize> {
    debug_assert!((base as u128) + (section.len() as u128) < 1 << 64);
    debug_assert!(out.len() == relocations.len());
    debug_assert!(makers.len() == relocations.len());
    if let Some(index) = first_malformed(machine, section, relocations) {
        return Err(index);
    }
    let mut count = 0;
    let mut next = 0;
    for index in 0..relocations.len() {
        next = ahead(machine, relocations, index, next);
        if let Some(item) = item_at(machine, section, base, relocations, index, next) {
            out[count] = ItemNumbers::from_item(item);
            makers[count] = index;
            count += 1;
        }
    }
    Ok(count)
}
