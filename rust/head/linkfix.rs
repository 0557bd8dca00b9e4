#![allow(dead_code, unused_imports, reason = "some are there for contracts alone")]
#![allow(clippy::complexity, clippy::style, reason = "the text is that of the proved source")]

extern crate alloc;

#[macro_use]
mod support;
