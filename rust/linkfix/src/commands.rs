// SPDX-License-Identifier: MIT OR Apache-2.0
// Made by tools/generate of crates/linkfix/src/commands.rt.
//! Command lines.

/// The greatest number in a command.
const MAX_NUMBER: u64 = i64::MAX as u64;

/// A command line.
#[derive(Clone, Copy)]
pub enum Command {
    /// `del o b`: deletes `bytes` bytes at the input offset `offset`.
    Delete { offset: u64, bytes: u32 },
    /// `in i`: prints the output offset of an input offset.
    ToOutput { input_offset: u64 },
    /// `out y`: prints the input offset of an output offset.
    ToInput { output_offset: u64 },
    /// `call site target`: replaces the call at `site` by one jump to `target`.
    Call { site: u64, target: u64 },
    /// `show`: prints the bytes of the section.
    Show,
    /// `pack`: prints the bytes of the section packed, with each replaced call a jump between the
    /// places that its site and target have there.
    Pack,
}

/// The error of a line that is no command.
#[derive(Clone, Copy)]
pub struct BadLine;

/// Parses a command line. Words are separated by spaces. A line with no word gives `None`.
///
/// # Errors
///
/// `BadLine` if the words are no command.
pub fn parse_command(line: &[u8]) -> Result<Option<Command>, BadLine> {
    let mut words = Words { rest: line };
    let Some(name) = words.next() else {
        return Ok(None);
    };
    let command = match name {
        b"del" => Command::Delete {
            offset: take_number(&mut words)?,
            bytes: take_count(&mut words)?,
        },
        b"in" => Command::ToOutput {
            input_offset: take_number(&mut words)?,
        },
        b"out" => Command::ToInput {
            output_offset: take_number(&mut words)?,
        },
        b"call" => Command::Call {
            site: take_number(&mut words)?,
            target: take_number(&mut words)?,
        },
        b"show" => Command::Show,
        b"pack" => Command::Pack,
        _ => return Err(BadLine),
    };
    match words.next() {
        None => Ok(Some(command)),
        Some(_) => Err(BadLine),
    }
}

/// Parses the next word as a number.
fn take_number(words: &mut Words<'_>) -> Result<u64, BadLine> {
    words.next().and_then(parse_number).ok_or(BadLine)
}

/// Parses the next word as a number below 2^32.
fn take_count(words: &mut Words<'_>) -> Result<u32, BadLine> {
    u32::try_from(take_number(words)?).map_err(|_| BadLine)
}

/// Parses decimal digits as a number up to 2^63 - 1. Accepts leading zeros, and no sign.
fn parse_number(word: &[u8]) -> Option<u64> {
    if word.is_empty() {
        return None;
    }
    let mut value = 0u64;
    for byte in word {
        if !byte.is_ascii_digit() {
            return None;
        }
        let digit = u64::from(*byte - b'0');
        if value > (MAX_NUMBER - digit) / 10 {
            return None;
        }
        value = value * 10 + digit;
    }
    Some(value)
}

/// The rest of a line, as an iterator over its words.
struct Words<'a> {
    rest: &'a [u8],
}

impl<'a> Iterator for Words<'a> {
    type Item = &'a [u8];

    fn next(&mut self) -> Option<&'a [u8]> {
        let (_, line) = self.rest.split_at(spaces_len(self.rest));
        if line.is_empty() {
            return None;
        }
        let (word, rest) = line.split_at(word_len(line));
        self.rest = rest;
        Some(word)
    }
}

/// The number of spaces at the front.
fn spaces_len(line: &[u8]) -> usize {
    line.iter().take_while(|byte| **byte == b' ').count()
}

/// The number of bytes before the first space.
fn word_len(line: &[u8]) -> usize {
    line.iter().take_while(|byte| **byte != b' ').count()
}
