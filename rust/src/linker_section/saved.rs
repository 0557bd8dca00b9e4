// SPDX-License-Identifier: MIT OR Apache-2.0
// Made by tools/generate of crates/linker_section/src/saved.rt.
//! Bytes of a section that are kept until all values are written, and put back otherwise.

use crate::linker_section::fields::ends_pair;
use crate::linker_section::relocations::relocation_in;
use crate::linker_base::utils::u64_from_slice;
use crate::linker_elf::elf::{Architecture, Row};

/// The 8 bytes from an offset on as a word; none where there are fewer.
#[inline(always)]
pub(crate) fn whole_word_at(section: &[u8], offset: u64) -> Option<u64> {
    if section.len() as u64 <= offset {
        return None;
    }
    let rest = &section[offset as usize..];
    if rest.len() < 8 {
        None
    } else {
        Some(u64_from_slice(rest))
    }
}

/// The 8 bytes from an offset on, or fewer at the end of the section, as a word.
#[inline(always)]
pub(crate) fn word_at(section: &[u8], offset: u64) -> u64 {
    match whole_word_at(section, offset) {
        Some(word) => word,
        None => last_word_at(section, offset),
    }
}

/// The bytes from an offset on, of which there are fewer than 8, as a word.
fn last_word_at(section: &[u8], offset: u64) -> u64 {
    if section.len() as u64 <= offset {
        return 0;
    }
    let rest = &section[offset as usize..];
    let mut word = [0u8; 8];
    word[..rest.len()].copy_from_slice(rest);
    u64::from_le_bytes(word)
}

/// Puts a word's bytes in place of those from an offset on.
fn put_word(word: u64, offset: u64, section: &mut [u8]) {
    if (section.len() as u64) < offset {
        return;
    }
    let start = offset as usize;
    let len = (section.len() - start).min(8);
    section[start..start + len].copy_from_slice(&word.to_le_bytes()[..len]);
}

/// The offset from which the bytes of a relocation are kept, by its row and its offset.
fn saved_place(row: Option<Row>, offset: u64) -> u64 {
    match row {
        Some(row) => {
            let info = row.info();
            if ends_pair(info.size, info.kind) {
                offset.wrapping_add(8)
            } else {
                offset
            }
        }
        None => offset,
    }
}

/// Puts the words back that were kept of the relocations below an index, the last first.
pub(crate) fn restore(
    architecture: Architecture,
    relocations: &[u8],
    count: usize,
    memory: &[u64],
    section: &mut [u8],
) {
    let mut index = count;
    while index > 0 {
        index -= 1;
        let relocation = relocation_in(relocations, index);
        let place = saved_place(architecture.row(relocation.r_type), relocation.offset);
        put_word(memory[index], place, section);
    }
}
