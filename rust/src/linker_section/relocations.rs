// SPDX-License-Identifier: MIT OR Apache-2.0
// Made by tools/generate of crates/linker_section/src/relocations.rt.
//! Relocations as ELF files have them.

use crate::linker_base::rewrite::overwrite;
use crate::linker_base::utils::{u32_from_slice, u64_from_slice};

/// The length of a relocation in a file, of an `Elf64_Rela`.
pub const RELA_LEN: usize = 24;

/// A relocation of a section, `Elf64_Rela` (ELF specification, "Relocation").
#[derive(Clone, Copy, Debug, PartialEq, Eq, Hash)]
pub struct Rela {
    /// Its place, `r_offset`: an offset in the section.
    pub offset: u64,
    /// Its `r_type`: the low 32 bits of `r_info`.
    pub r_type: u32,
    /// The index of its symbol, `r_sym`: the high 32 bits of `r_info`.
    pub symbol: u32,
    /// Its addend, `r_addend`.
    pub addend: i64,
}

/// The word of 4 bytes at an offset.
#[inline(always)]
pub(crate) fn u32_at(bytes: &[u8], at: usize) -> u32 {
    u32_from_slice(&bytes[at..])
}

/// The word of 8 bytes at an offset.
#[inline(always)]
fn u64_at(bytes: &[u8], at: usize) -> u64 {
    u64_from_slice(&bytes[at..])
}

/// The relocation that 24 bytes are.
#[inline(always)]
pub(crate) fn relocation_of(entry: &[u8]) -> Rela {
    Rela {
        offset: u64_from_slice(entry),
        r_type: u32_at(entry, 8),
        symbol: u32_at(entry, 12),
        addend: u64_at(entry, 16) as i64,
    }
}

/// How many relocations there are in the bytes of a section of relocations. Bytes after the last
/// whole one count for nothing.
///
/// ```
/// use linker_utils::section::relocations_len;
///
/// assert_eq!(relocations_len(&[0; 48]), 2);
/// ```
#[must_use]
#[inline(always)]
pub fn relocations_len(relocations: &[u8]) -> usize {
    relocations.len() / RELA_LEN
}

/// The relocations from an index on, which is at most `relocations_len`.
#[inline(always)]
pub(crate) fn relocations_from(relocations: &[u8], index: usize) -> &[u8] {
    &relocations[index * RELA_LEN..]
}

/// The relocation at an index below `relocations_len`, as `relocation_at` says.
#[inline(always)]
pub(crate) fn relocation_in(relocations: &[u8], index: usize) -> Rela {
    relocation_of(&relocations[index * RELA_LEN..][..RELA_LEN])
}

/// Writes a relocation to its 24 bytes.
#[inline(always)]
fn write_relocation(entry: &mut [u8], relocation: &Rela) {
    let addend = relocation.addend as u64;
    overwrite(entry, 0, &relocation.offset.to_le_bytes());
    overwrite(entry, 8, &relocation.r_type.to_le_bytes());
    overwrite(entry, 12, &relocation.symbol.to_le_bytes());
    overwrite(entry, 16, &addend.to_le_bytes());
}

/// Overwrites the relocation with an index below `relocations_len`. All others stay.
///
/// # Requires
///
/// - `index < relocations_len(relocations)`
#[cfg_attr(debug_assertions, track_caller)]
#[inline(always)]
pub fn set_relocation(relocations: &mut [u8], index: usize, relocation: &Rela) {
    debug_assert!(index < relocations_len(relocations));
    let at = index * RELA_LEN;
    write_relocation(&mut relocations[at..at + RELA_LEN], relocation);
}

/// The relocation at an index of the bytes of a section of relocations, which are little-endian and
/// at any alignment. None from `relocations_len` on.
///
/// ```
/// use linker_utils::section::relocation_at;
///
/// // R_X86_64_PC32 at 0x10, of symbol 5, with the addend -4
/// let mut bytes = [0; 24];
/// bytes[0] = 0x10;
/// bytes[8] = 2;
/// bytes[12] = 5;
/// bytes[16..].copy_from_slice(&(-4i64).to_le_bytes());
/// let relocation = relocation_at(&bytes, 0).unwrap();
/// assert_eq!(relocation.offset, 0x10);
/// assert_eq!(relocation.r_type, 2);
/// assert_eq!(relocation.symbol, 5);
/// assert_eq!(relocation.addend, -4);
/// assert_eq!(relocation_at(&bytes, 1), None);
/// ```
#[must_use]
#[inline(always)]
pub fn relocation_at(relocations: &[u8], index: usize) -> Option<Rela> {
    if index < relocations_len(relocations) {
        Some(relocation_in(relocations, index))
    } else {
        None
    }
}

/// The offset of the relocation at an index.
#[inline(always)]
pub(crate) fn offset_at(relocations: &[u8], index: usize) -> u64 {
    relocation_in(relocations, index).offset
}

/// Whether relocations ascend by offset, those at one offset in any order.
///
/// ```
/// use linker_utils::section::is_ascending;
///
/// // of three relocations the second is at 4, and the third at 0
/// let mut relocations = [0; 72];
/// relocations[24] = 4;
/// assert!(is_ascending(&relocations[..48]));
/// assert!(!is_ascending(&relocations));
/// ```
#[must_use]
pub fn is_ascending(relocations: &[u8]) -> bool {
    let mut least = 0;
    for index in 0..relocations_len(relocations) {
        let offset = offset_at(relocations, index);
        if offset < least {
            return false;
        }
        least = offset;
    }
    true
}

/// The index of the first relocation from an offset on, among relocations that ascend by offset; as
/// many as there are if all are before it. It is found by a search in log n steps.
///
/// ```
/// use linker_utils::section::first_from;
///
/// // relocations at 0, 4 and 8
/// let mut relocations = [0; 72];
/// (relocations[24], relocations[48]) = (4, 8);
/// assert_eq!(first_from(&relocations, 4), 1);
/// assert_eq!(first_from(&relocations, 5), 2);
/// assert_eq!(first_from(&relocations, 9), 3);
/// ```
#[must_use]
pub fn first_from(relocations: &[u8], at: u64) -> usize {
    let mut low = 0;
    let mut high = relocations_len(relocations);
    while low < high {
        let middle = low + (high - low) / 2;
        if offset_at(relocations, middle) < at {
            low = middle + 1;
        } else {
            high = middle;
        }
    }
    low
}
