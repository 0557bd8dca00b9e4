// SPDX-License-Identifier: MIT OR Apache-2.0
// Made by tools/generate of crates/linker_base/src/utils.rt.
//! The readers of numbers of [`utils`](crate::utils) with a typed error: they need no feature and
//! no dependency, and allocate nothing.

use crate::utils::u32_from_slice;
use core::error::Error;
use core::fmt::{Display, Formatter};

/// Why no number is read. It prints what the error of the reader in [`utils`](crate::utils) prints.
#[cfg_attr(not(exhaustive), non_exhaustive)]
#[derive(Debug, Clone, Copy, PartialEq, Eq, Hash)]
pub enum ReadError {
    /// There are fewer than four bytes.
    TooShort,
    /// The bytes end before the ULEB128 number does.
    Ended,
    /// The tenth byte of the ULEB128 number is neither 0 nor 1.
    TooLarge,
}

impl Display for ReadError {
    fn fmt(&self, f: &mut Formatter<'_>) -> core::fmt::Result {
        f.write_str(match self {
            ReadError::TooShort => "Not enough bytes to read u32",
            ReadError::Ended => "Failed to read ULEB128 value: ended",
            ReadError::TooLarge => "Failed to read ULEB128 value: too large",
        })
    }
}

impl Error for ReadError {}

/// The error of each text.
macro_rules! bail {
    ("Not enough bytes to read u32") => {
        return Err(ReadError::TooShort)
    };
    ("Failed to read ULEB128 value: ended") => {
        return Err(ReadError::Ended)
    };
    ("Failed to read ULEB128 value: too large") => {
        return Err(ReadError::TooLarge)
    };
}

macro_rules! ensure {
    ($holds:expr, $text:tt) => {
        if !$holds {
            bail!($text);
        }
    };
}

/// Reads a little-endian number of four bytes, and advances the content past it.
///
/// # Errors
///
/// "Not enough bytes to read u32" with fewer than four bytes. The content is then unchanged.
#[inline]
pub fn read_u32(content: &mut &[u8]) -> Result<u32, ReadError> {
    let bytes: &[u8] = *content;
    ensure!(bytes.len() >= 4, "Not enough bytes to read u32");
    *content = &bytes[4..];
    Ok(u32_from_slice(bytes))
}

/// Reads a ULEB128 number, and advances the content past it. A number has at most ten bytes: seven
/// bits a byte, the lowest first, and each byte but the last is at least 0x80. The tenth is 0 or 1.
/// Padding zeros are accepted.
///
/// ```
/// let mut content: &[u8] = &[0xe5, 0x8e, 0x26, 0x07];
/// assert_eq!(linker_utils::readers::read_uleb128(&mut content).unwrap(), 624485);
/// assert_eq!(content, &[0x07]);
/// ```
///
/// # Errors
///
/// "Failed to read ULEB128 value: ended" if the content ends first, and ".. too large" if the tenth
/// byte is neither 0 nor 1. The content is then unchanged.
#[inline]
pub fn read_uleb128(content: &mut &[u8]) -> Result<u64, ReadError> {
    let bytes: &[u8] = *content;
    let mut value = 0;
    for (i, byte) in bytes.iter().enumerate() {
        if i == 9 && *byte > 1 {
            bail!("Failed to read ULEB128 value: too large");
        }
        value |= u64::from(*byte & 0x7f) << (7 * i as u64);
        if *byte < 0x80 {
            *content = &bytes[i + 1..];
            return Ok(value);
        }
    }
    bail!("Failed to read ULEB128 value: ended");
}
