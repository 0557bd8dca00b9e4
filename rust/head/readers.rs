//! The readers of numbers of [`utils`](crate::utils) with a typed error: they need no feature and
//! no dependency, and allocate nothing.

use crate::utils::u32_from_slice;
use core::error::Error;
use core::fmt::{Display, Formatter};

/// Why no number is read. It prints what the error of the reader in [`utils`](crate::utils) prints.
#[cfg_attr(not(exhaustive), non_exhaustive)]
#[derive(Debug, Clone, Copy, PartialEq, Eq, Hash)]
pub enum ReadError {
    /// There are fewer than four bytes.
    TooShort,
    /// The bytes end before the ULEB128 number does.
    Ended,
    /// The tenth byte of the ULEB128 number is neither 0 nor 1.
    TooLarge,
}

impl Display for ReadError {
    fn fmt(&self, f: &mut Formatter<'_>) -> core::fmt::Result {
        f.write_str(match self {
            ReadError::TooShort => "Not enough bytes to read u32",
            ReadError::Ended => "Failed to read ULEB128 value: ended",
            ReadError::TooLarge => "Failed to read ULEB128 value: too large",
        })
    }
}

impl Error for ReadError {}

/// The error of each text.
macro_rules! bail {
    ("Not enough bytes to read u32") => {
        return Err(ReadError::TooShort)
    };
    ("Failed to read ULEB128 value: ended") => {
        return Err(ReadError::Ended)
    };
    ("Failed to read ULEB128 value: too large") => {
        return Err(ReadError::TooLarge)
    };
}

macro_rules! ensure {
    ($holds:expr, $text:tt) => {
        if !$holds {
            bail!($text);
        }
    };
}
