// SPDX-License-Identifier: MIT OR Apache-2.0
// Made by tools/generate of crates/linkfix/src/program.rt.
//! The program over any reader and writer.

use crate::support::*;
use crate::accepted_calls::AcceptedCalls;
use crate::commands::{BadLine, Command, parse_command};
use crate::input::{InputError, Lines};
use crate::sections::{LineFault, read_section, show_section};
use linker_utils::relaxation::{OutOfMemory, PackError, SectionRelaxDeltas, pack_section};
use linker_utils::riscv64::{CallError, relax_call};
use std::io;
use std::io::{Read, Write};

/// An error that ends the run and is printed as its last line.
#[derive(Clone, Copy)]
enum ReportedError {
    BadSection,
    BadLine,
    BadDeletion,
    TooLarge,
    BadCall,
    Call(CallError),
    OutOfMemory,
}

impl ReportedError {
    /// The line that is printed.
    fn line(self) -> &'static str {
        match self {
            ReportedError::BadSection => "bad section\n",
            ReportedError::BadLine => "bad line\n",
            ReportedError::BadDeletion => "bad deletion\n",
            ReportedError::TooLarge => "too large\n",
            ReportedError::BadCall => "bad call\n",
            ReportedError::Call(CallError::OutOfSection) => "OutOfSection\n",
            ReportedError::Call(CallError::SiteDeleted) => "SiteDeleted\n",
            ReportedError::Call(CallError::OddDistance) => "OddDistance\n",
            ReportedError::Call(CallError::TooFar) => "TooFar\n",
            ReportedError::OutOfMemory => "out of memory\n",
        }
    }
}

/// An error that ends the run.
#[derive(Clone, Copy)]
enum RunError {
    Reported(ReportedError),
    /// A read or a write failed; nothing more is printed.
    Io,
}

impl From<InputError> for RunError {
    fn from(error: InputError) -> RunError {
        match error {
            InputError::Read => RunError::Io,
            InputError::OutOfMemory => RunError::Reported(ReportedError::OutOfMemory),
        }
    }
}

impl From<LineFault> for RunError {
    fn from(error: LineFault) -> RunError {
        RunError::Reported(match error {
            LineFault::BadSection => ReportedError::BadSection,
            LineFault::OutOfMemory => ReportedError::OutOfMemory,
        })
    }
}

impl From<BadLine> for RunError {
    fn from(_e: BadLine) -> RunError {
        RunError::Reported(ReportedError::BadLine)
    }
}

impl From<CallError> for ReportedError {
    fn from(error: CallError) -> ReportedError {
        ReportedError::Call(error)
    }
}

impl From<AllocError> for ReportedError {
    fn from(_e: AllocError) -> ReportedError {
        ReportedError::OutOfMemory
    }
}

impl From<OutOfMemory> for ReportedError {
    fn from(_e: OutOfMemory) -> ReportedError {
        ReportedError::OutOfMemory
    }
}

impl From<ReportedError> for RunError {
    fn from(error: ReportedError) -> RunError {
        RunError::Reported(error)
    }
}

impl From<OutOfMemory> for RunError {
    fn from(_e: OutOfMemory) -> RunError {
        RunError::Reported(ReportedError::OutOfMemory)
    }
}

impl From<io::Error> for RunError {
    fn from(_e: io::Error) -> RunError {
        RunError::Io
    }
}

/// Reads a section and then commands from `input`, executes the commands in order, and prints one
/// line for each to `output`. Returns the exit status: 0 if every command was executed. The first
/// error is printed as the last line, and the status is 1. If a read or a write fails, or the input
/// has not ended after `MAX_READS` reads, nothing more is printed, and the status is 1.
pub fn run<R: Read, W: Write>(input: R, mut output: W) -> u8 {
    run_into(input, &mut output).unwrap_or(1)
}

/// What `run` does, into a writer that is kept. None if a read or a write fails.
fn run_into<R: Read, W: Write>(input: R, output: &mut W) -> Option<u8> {
    match execute_lines(input, output) {
        Ok(()) => Some(0),
        Err(RunError::Reported(error)) => match output.write_all(error.line().as_bytes()) {
            Ok(()) => Some(1),
            Err(_) => None,
        },
        Err(RunError::Io) => None,
    }
}

fn execute_lines<R: Read, W: Write>(
    input: R,
    output: &mut W,
) -> Result<(), RunError> {
    let mut lines = Lines::new(input);
    let mut line = Vec::new();
    lines.next_line(&mut line)?;
    let mut state = SectionState {
        section: read_section(&line)?,
        deltas: SectionRelaxDeltas::new(&[])?,
        calls: AcceptedCalls::new(),
    };
    while lines.next_line(&mut line)? {
        if let Some(command) = parse_command(&line)? {
            state.execute(command, output)?;
        }
    }
    Ok(())
}

/// An input on which a run ends with an error, other than out of memory, can't be executed.
pub fn rejected_inputs_are_not_executed() {}

/// What is printed for a command.
enum CommandResult {
    /// `ok`.
    Done,
    /// A line.
    Line(String),
}

impl CommandResult {
    /// The line, with its end.
    fn line(&self) -> &str {
        match self {
            CommandResult::Done => "ok\n",
            CommandResult::Line(line) => line.as_str(),
        }
    }
}

/// The section that the commands work on, its deletions, and its calls that were made jumps. The
/// bytes that are listed as deleted are still in `section`, so that each command's offsets are
/// input offsets.
struct SectionState {
    section: Vec<u8>,
    deltas: SectionRelaxDeltas,
    calls: AcceptedCalls,
}

impl SectionState {
    /// Executes a command and prints its line.
    fn execute<W: Write>(&mut self, command: Command, output: &mut W) -> Result<(), RunError> {
        let result = self.apply(command)?;
        output.write_all(result.line().as_bytes())?;
        Ok(())
    }

    /// Applies a command, and returns what is printed for it.
    fn apply(&mut self, command: Command) -> Result<CommandResult, ReportedError> {
        match command {
            Command::Delete { offset, bytes } => {
                self.delete(offset, bytes)?;
                Ok(CommandResult::Done)
            }
            Command::ToOutput { input_offset } => {
                let number = self.deltas.input_to_output_offset(input_offset);
                Ok(CommandResult::Line(number_line(number)?))
            }
            Command::ToInput { output_offset } => {
                let number = self.input_offset(output_offset)?;
                Ok(CommandResult::Line(number_line(number)?))
            }
            Command::Call { site, target } => {
                self.call(site, target)?;
                Ok(CommandResult::Done)
            }
            Command::Show => Ok(CommandResult::Line(section_line(&self.section)?)),
            Command::Pack => {
                let packed = self.pack()?;
                Ok(CommandResult::Line(section_line(&packed)?))
            }
        }
    }

    /// Adds a deletion. `BadDeletion` if it overlaps an earlier one, begins at the same offset, or
    /// ends past 2^64 - 1.
    fn delete(&mut self, offset: u64, bytes: u32) -> Result<(), ReportedError> {
        let pair = [(offset, bytes)];
        if !self.deltas.is_mergeable(&pair) {
            return Err(ReportedError::BadDeletion);
        }
        self.deltas.merge_additional(&pair)?;
        Ok(())
    }

    /// The input offset of the kept byte at an output offset. `TooLarge` if it exceeds 2^64 - 1.
    fn input_offset(&self, output_offset: u64) -> Result<u64, ReportedError> {
        if !self.deltas.output_fits(output_offset) {
            return Err(ReportedError::TooLarge);
        }
        Ok(self.deltas.output_to_input_offset(output_offset))
    }

    /// Replaces the call at `site` by one jump to `target`, and accepts it. `BadCall` if its site
    /// is less than 4 from that of an accepted call. Then it adds the call, and then come the
    /// errors of `jump`, with which it takes the call out again.
    fn call(&mut self, site: u64, target: u64) -> Result<(), ReportedError> {
        if !self.calls.are_far_from(site) {
            return Err(ReportedError::BadCall);
        }
        self.calls.fallible_insert(site, target)?;
        if let Err(error) = self.jump(site, target) {
            self.calls.remove(site);
            return Err(ReportedError::Call(error));
        }
        Ok(())
    }

    /// Replaces the call at `site` by one jump to `target`, whose distance counts only kept bytes.
    fn jump(&mut self, site: u64, target: u64) -> Result<(), CallError> {
        relax_call(self.section.as_mut_slice(), &self.deltas, site, target)
    }

    /// The section packed, with the accepted calls made jumps.
    fn pack(&self) -> Result<Vec<u8>, ReportedError> {
        let calls = self.calls.fallible_to_vec()?;
        match pack_section(&self.section, &self.deltas, &calls) {
            Ok(packed) => Ok(packed),
            Err(PackError::OutOfMemory) => Err(ReportedError::OutOfMemory),
            Err(PackError::Call { error, .. }) => Err(ReportedError::Call(error)),
        }
    }
}

/// A number as a line.
fn number_line(number: u64) -> Result<String, AllocError> {
    try_format!("{number}\n")
}

/// The bytes of a section as a line.
fn section_line(section: &[u8]) -> Result<String, AllocError> {
    let mut line = show_section(section)?;
    line.fallible_push('\n')?;
    Ok(line)
}
