// SPDX-License-Identifier: MIT OR Apache-2.0
// Made by tools/generate of crates/linker_utils_c/src/readers.rt.
//! Numbers that bytes begin with.

use crate::status::Status;
use linker_utils::utils;

/// The little-endian number of the first four bytes, into `value`. The error is `TooShort`.
pub fn linker_utils_u32_from_slice_nonnull(bytes: &[u8], value: &mut u32) -> u32 {
    if bytes.len() < 4 {
        return Status::TooShort as u32;
    }
    *value = utils::u32_from_slice(bytes);
    Status::Success as u32
}

/// The little-endian number of the first eight bytes, into `value`. The error is `TooShort`.
pub fn linker_utils_u64_from_slice_nonnull(bytes: &[u8], value: &mut u64) -> u32 {
    if bytes.len() < 8 {
        return Status::TooShort as u32;
    }
    *value = utils::u64_from_slice(bytes);
    Status::Success as u32
}

/// The little-endian number of the first four bytes, into `value`, and how many bytes it took, into
/// `consumed`. The error is `TooShort`.
pub fn linker_utils_read_u32_nonnull(
    bytes: &[u8],
    value: &mut u32,
    consumed: &mut usize,
) -> u32 {
    let mut content: &[u8] = bytes;
    match linker_utils::readers::read_u32(&mut content) {
        Ok(number) => {
            *value = number;
            *consumed = bytes.len() - content.len();
            Status::Success as u32
        }
        Err(_) => Status::TooShort as u32,
    }
}

/// The ULEB128 number that the bytes begin with, into `value`, and how many bytes it took, into
/// `consumed`. The errors are `Uleb128Ended` and `Uleb128TooLarge`.
pub fn linker_utils_read_uleb128_nonnull(
    bytes: &[u8],
    value: &mut u64,
    consumed: &mut usize,
) -> u32 {
    let mut content: &[u8] = bytes;
    match linker_utils::readers::read_uleb128(&mut content) {
        Ok(number) => {
            *value = number;
            *consumed = bytes.len() - content.len();
            Status::Success as u32
        }
        Err(_) if bytes.len() < 10 => Status::Uleb128Ended as u32,
        Err(_) => Status::Uleb128TooLarge as u32,
    }
}
