// SPDX-License-Identifier: MIT OR Apache-2.0
// Made by tools/generate of crates/linkfix/src/main.rt.
//! Reads the bytes of a section and then commands on it from the standard input, executes the
//! commands and prints one line for each.

#![allow(dead_code, unused_imports, reason = "some are there for contracts alone")]
#![allow(clippy::complexity, clippy::style, reason = "the text is that of the proved source")]

extern crate alloc;

#[macro_use]
mod support;

mod accepted_calls;
mod commands;
mod input;
mod program;
mod sections;

use std::process::ExitCode;

fn main() -> ExitCode {
    ExitCode::from(program::run(std::io::stdin(), std::io::stdout()))
}
