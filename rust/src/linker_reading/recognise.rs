// SPDX-License-Identifier: MIT OR Apache-2.0
// Made by tools/generate of crates/linker_reading/src/recognise.rt.
//! What a linker made of a relocation, by the bytes before and after: which rewrite, which
//! relocation it then wrote, and what stands in its field.

pub mod architecture;
mod engine;
pub mod fields;
mod recognisers;

pub(crate) use self::engine::{deleted_at, put};
pub use self::engine::{
    CANDIDATES, Choices, MAX_WINDOW, Recognised, RecognisedName, recognise, recognise_chosen,
};
pub use self::recognisers::written_choices_are_left;
