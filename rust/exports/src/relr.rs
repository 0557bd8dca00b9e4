// SPDX-License-Identifier: MIT OR Apache-2.0
// Made by tools/generate of crates/linker_utils_c/src/relr.rt.
//! The words of packed relative relocations.

use crate::status::Status;
use linker_utils::source::output::{RelrError, read_relr, write_relr};

/// The status of a call, which also writes how many words or addresses there are, or are needed.
fn status_of(written: Result<usize, RelrError>, needed: &mut usize) -> u32 {
    match written {
        Ok(count) => {
            *needed = count;
            Status::Success as u32
        }
        Err(RelrError::Unaligned) => Status::UnalignedAddress as u32,
        Err(RelrError::NotAscending) => Status::NotAscending as u32,
        Err(RelrError::NoAddress) => Status::NoAddress as u32,
        Err(RelrError::Wraps) => Status::TooLarge as u32,
        Err(RelrError::TooShort(count)) => {
            *needed = count;
            Status::TooShort as u32
        }
    }
}

/// Writes the words that relocate addresses to the beginning of `words`, as `write_relr`, and how
/// many they are to `needed`, with `TooShort` too. The first that applies of `UnalignedAddress` and
/// `NotAscending`, of an address; `TooShort`. Then `words` are unchanged.
pub fn linker_utils_write_relr_nonnull(
    addresses: &[u64],
    words: &mut [u64],
    needed: &mut usize,
) -> u32 {
    status_of(write_relr(addresses, words), needed)
}

/// Writes the addresses that words relocate to the beginning of `addresses`, as `read_relr`, and
/// how many they are to `needed`, with `TooShort` too, `usize::MAX` if those are more. The first
/// that applies of `NoAddress`; `UnalignedAddress` and `TooLarge`, of a word; `TooShort`. Then
/// `addresses` are unchanged.
pub fn linker_utils_read_relr_nonnull(
    words: &[u64],
    addresses: &mut [u64],
    needed: &mut usize,
) -> u32 {
    status_of(read_relr(words, addresses), needed)
}
