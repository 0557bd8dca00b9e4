// SPDX-License-Identifier: MIT OR Apache-2.0
// Made by tools/generate of crates/linkfix/src/input.rt.
//! The lines of a reader, within a limit on the number of reads.

use crate::support::*;
use std::io::Read;

/// The limit on the number of reads of one input.
pub const MAX_READS: u32 = 1_048_576;

/// The size of the buffer that each read fills, in bytes.
pub const BUFFER_LEN: usize = 4096;

/// An error of `Lines::next_line`.
#[derive(Clone, Copy)]
pub enum InputError {
    /// A read failed, or the input hadn't ended by the last read.
    Read,
    /// Out of memory for the line.
    OutOfMemory,
}

impl From<AllocError> for InputError {
    fn from(_e: AllocError) -> InputError {
        InputError::OutOfMemory
    }
}

/// A reader whose input is taken line by line.
pub struct Lines<R> {
    input: R,
    reads_left: u32,
    has_ended: bool,
    /// The bytes of the last read; `start..end` is in no line yet.
    buffer: [u8; BUFFER_LEN],
    start: usize,
    end: usize,
}

impl<R: Read> Lines<R> {
    /// The lines of `input`. Nothing is read yet.
    pub fn new(input: R) -> Lines<R> {
        Lines {
            input,
            reads_left: MAX_READS,
            has_ended: false,
            buffer: [0; BUFFER_LEN],
            start: 0,
            end: 0,
        }
    }

    /// Replaces `line` by the next line, without its LF and without one CR before the LF. The last
    /// line may lack its LF. Returns `false`, with `line` empty, at the end of the input.
    ///
    /// # Errors
    ///
    /// `Read` if a read fails or the limit of reads is reached; `OutOfMemory` if `line` can't grow.
    pub fn next_line(&mut self, line: &mut Vec<u8>) -> Result<bool, InputError> {
        line.clear();
        loop {
            let buffered = &self.buffer[self.start..self.end];
            if let Some(at) = line_end(buffered) {
                line.fallible_extend_from_slice(&buffered[..at])?;
                self.start += at + 1;
                strip_carriage_return(line);
                return Ok(true);
            }
            line.fallible_extend_from_slice(buffered)?;
            self.start = self.end;
            if !self.refill()? {
                return Ok(!line.is_empty());
            }
        }
    }

    /// Fills the empty buffer by one read. Returns `false` at the end of the input.
    fn refill(&mut self) -> Result<bool, InputError> {
        if self.has_ended {
            return Ok(false);
        }
        if self.reads_left == 0 {
            return Err(InputError::Read);
        }
        self.reads_left -= 1;
        match self.input.read(&mut self.buffer) {
            Ok(count) => {
                self.start = 0;
                self.end = count;
                self.has_ended = count == 0;
                Ok(count > 0)
            }
            Err(_) => Err(InputError::Read),
        }
    }
}

/// The index of the first LF.
fn line_end(bytes: &[u8]) -> Option<usize> {
    bytes.iter().position(|byte| *byte == b'\n')
}

/// Removes one CR from the end.
fn strip_carriage_return(line: &mut Vec<u8>) {
    if line.last() == Some(&b'\r') {
        line.pop();
    }
}
