// SPDX-License-Identifier: MIT OR Apache-2.0
//! Sections as lines of hexadecimal digits.

use crate::support::AllocError;

/// An error of `read_section`.
#[derive(Debug, Clone, Copy, PartialEq, Eq)]
pub enum LineFault {
    /// The line is not an even number of hexadecimal digits.
    BadSection,
    /// Out of memory for the bytes.
    OutOfMemory,
}

/// Decodes a line of hexadecimal digits of either case: two digits a byte, the upper four bits
/// first. An empty line gives no bytes.
///
/// # Errors
///
/// `BadSection` if the length is odd or a byte of the line is no hexadecimal digit; `OutOfMemory`.
pub fn read_section(line: &[u8]) -> Result<Vec<u8>, LineFault> {
    let digit = |byte: &u8| char::from(*byte).to_digit(16).ok_or(LineFault::BadSection);
    if line.len() % 2 != 0 {
        return Err(LineFault::BadSection);
    }
    let mut section = Vec::new();
    section.try_reserve_exact(line.len() / 2).map_err(|_| LineFault::OutOfMemory)?;
    for pair in line.chunks_exact(2) {
        section.push((digit(&pair[0])? << 4 | digit(&pair[1])?) as u8);
    }
    Ok(section)
}

/// Encodes the bytes of a section as hexadecimal digits in lower case: two digits a byte, the upper
/// four bits first.
///
/// # Errors
///
/// Out of memory.
pub fn show_section(section: &[u8]) -> Result<String, AllocError> {
    let mut text = String::new();
    text.try_reserve_exact(section.len().saturating_mul(2))?;
    for byte in section {
        for digit in [byte >> 4, byte & 15] {
            text.push(char::from(b"0123456789abcdef"[usize::from(digit)]));
        }
    }
    Ok(text)
}
