#![no_std]
#![deny(unsafe_code)]
#![allow(dead_code, reason = "each export is a function of its module")]
#![allow(unused_imports, reason = "some are there for contracts alone")]
#![allow(clippy::complexity, clippy::style, reason = "the text is that of the proved source")]
#![allow(clippy::suspicious, reason = "the text is that of the proved source")]

extern crate alloc;

#[macro_use]
#[path = "../../src/support.rs"]
mod support;

#[cfg(feature = "archive")]
mod exported;
#[cfg(feature = "archive")]
mod runtime;
