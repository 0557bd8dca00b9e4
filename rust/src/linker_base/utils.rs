// SPDX-License-Identifier: MIT OR Apache-2.0
// Made by tools/generate of crates/linker_base/src/utils.rt.
//! Little-endian words, byte masks, and readers of words, strings and ULEB128 numbers.
//!
#![doc = include_str!("../../doc/utils.md")]

use alloc::string::String;
use crate::support::*;
#[cfg(feature = "readers")]
use anyhow::{Result, bail, ensure};
#[cfg(feature = "readers")]
use bstr::ByteSlice;

/// The first four bytes as a little-endian number.
///
/// # Requires
///
/// - `4 <= bytes.len()`
#[must_use]
#[cfg_attr(debug_assertions, track_caller)]
#[inline]
pub fn u32_from_slice(bytes: &[u8]) -> u32 {
    debug_assert!(4 <= bytes.len());
    // a copy of a known length is one load
    let mut word = [0u8; 4];
    word.copy_from_slice(&bytes[..4]);
    u32::from_le_bytes(word)
}

/// The first eight bytes as a little-endian number.
///
/// # Requires
///
/// - `8 <= bytes.len()`
#[must_use]
#[cfg_attr(debug_assertions, track_caller)]
#[inline]
pub fn u64_from_slice(bytes: &[u8]) -> u64 {
    debug_assert!(8 <= bytes.len());
    let mut word = [0u8; 8];
    word.copy_from_slice(&bytes[..8]);
    u64::from_le_bytes(word)
}

/// ORs the mask into the first bytes of `dest`. The following bytes are unchanged.
///
/// # Requires
///
/// - `mask_bytes.len() <= dest.len()`
#[cfg_attr(debug_assertions, track_caller)]
pub fn or_from_slice(dest: &mut [u8], mask_bytes: &[u8]) {
    debug_assert!(mask_bytes.len() <= dest.len());
    for (i, mask) in mask_bytes.iter().enumerate() {
        dest[i] |= *mask;
    }
}

/// ANDs the mask into the first bytes of `dest`. The following bytes are unchanged.
///
/// # Requires
///
/// - `mask_bytes.len() <= dest.len()`
#[cfg_attr(debug_assertions, track_caller)]
pub fn and_from_slice(dest: &mut [u8], mask_bytes: &[u8]) {
    debug_assert!(mask_bytes.len() <= dest.len());
    for (i, mask) in mask_bytes.iter().enumerate() {
        dest[i] &= *mask;
    }
}

/// Reads a little-endian number of four bytes, and advances the content past it.
///
/// # Errors
///
/// "Not enough bytes to read u32" with fewer than four bytes. The content is then unchanged.
#[cfg(feature = "readers")]
#[inline]
pub fn read_u32(content: &mut &[u8]) -> Result<u32> {
    let bytes: &[u8] = *content;
    ensure!(bytes.len() >= 4, "Not enough bytes to read u32");
    *content = &bytes[4..];
    Ok(u32_from_slice(bytes))
}

/// Reads a NUL-terminated string, and advances the content past the NUL. Each sequence of bytes
/// that is not UTF-8 becomes U+FFFD.
///
/// # Errors
///
/// "No null terminator found in string", and "Out of memory". The content is then unchanged.
#[cfg(feature = "readers")]
pub fn read_string(content: &mut &[u8]) -> Result<String> {
    let bytes: &[u8] = *content;
    let Some(end) = bytes.find_byte(0) else {
        bail!("No null terminator found in string");
    };
    let Ok(text) = lossy_text(&bytes[..end]) else {
        bail!("Out of memory");
    };
    *content = &bytes[end + 1..];
    Ok(text)
}

#[cfg(feature = "readers")]
fn lossy_text(bytes: &[u8]) -> Result<String, AllocError> {
    bytes.fallible_to_str_lossy()?.fallible_into_owned()
}

/// Reads a ULEB128 number, and advances the content past it. A number has at most ten bytes: seven
/// bits a byte, the lowest first, and each byte but the last is at least 0x80. The tenth is 0 or 1.
/// Padding zeros are accepted.
///
/// ```
/// let mut content: &[u8] = &[0xe5, 0x8e, 0x26, 0x07];
/// assert_eq!(linker_utils::utils::read_uleb128(&mut content).unwrap(), 624485);
/// assert_eq!(content, &[0x07]);
/// ```
///
/// # Errors
///
/// "Failed to read ULEB128 value: ended" if the content ends first, and ".. too large" if the tenth
/// byte is neither 0 nor 1. The content is then unchanged.
#[cfg(feature = "readers")]
#[inline]
pub fn read_uleb128(content: &mut &[u8]) -> Result<u64> {
    let bytes: &[u8] = *content;
    let mut value = 0;
    for (i, byte) in bytes.iter().enumerate() {
        if i == 9 && *byte > 1 {
            bail!("Failed to read ULEB128 value: too large");
        }
        value |= u64::from(*byte & 0x7f) << (7 * i as u64);
        if *byte < 0x80 {
            *content = &bytes[i + 1..];
            return Ok(value);
        }
    }
    bail!("Failed to read ULEB128 value: ended");
}

/// Why a ULEB128 number isn't written.
#[cfg_attr(not(exhaustive), non_exhaustive)]
#[derive(Clone, Copy, PartialEq, Eq, Debug, Hash)]
pub enum Uleb128Error {
    /// The bytes end before the existing number does.
    Ended,
    /// The tenth byte of the existing number is neither 0 nor 1.
    TooLarge,
    /// The value needs more bytes than the existing number has.
    DoesNotFit,
}

/// The index of the last byte of the ULEB128 number that bytes begin with.
fn last_of_uleb128(bytes: &[u8]) -> Result<usize, Uleb128Error> {
    for (i, byte) in bytes.iter().enumerate() {
        if i == 9 && *byte >= 2 {
            return Err(Uleb128Error::TooLarge);
        }
        if *byte < 0x80 {
            return Ok(i);
        }
    }
    Err(Uleb128Error::Ended)
}

/// Writes a value over the ULEB128 number that `dest` begins with, in as many bytes: all but the
/// last are at least 0x80, so that a smaller value is padded with zeros. `read_uleb128` then
/// returns the value; what follows is unchanged. Relocations of ULEB128 numbers are written like
/// this, since what follows the number can't move.
///
/// ```
/// let mut bytes = [0xe5, 0x8e, 0x26, 0x07];
/// linker_utils::utils::write_uleb128(&mut bytes, 5).unwrap();
/// assert_eq!(bytes, [0x85, 0x80, 0x00, 0x07]);
/// ```
///
/// # Errors
///
/// The first that applies of `Ended`, `TooLarge` and `DoesNotFit`. Nothing is written then.
pub fn write_uleb128(dest: &mut [u8], value: u64) -> Result<(), Uleb128Error> {
    let last = last_of_uleb128(dest)?;
    if last < 9 && value >> (7 * last as u64 + 7) != 0 {
        return Err(Uleb128Error::DoesNotFit);
    }
    for i in 0..last {
        dest[i] = 0x80 | (value >> (7 * i as u64) & 0x7f) as u8;
    }
    dest[last] = (value >> (7 * last as u64)) as u8;
    Ok(())
}

/// Bytes begin with at most one ULEB128 number, and the rest after it is determined.
#[doc(hidden)]
pub fn uleb128_has_one_reading() {}
