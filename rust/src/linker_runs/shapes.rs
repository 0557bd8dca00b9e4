// SPDX-License-Identifier: MIT OR Apache-2.0
// Made by tools/generate of crates/linker_runs/src/shapes.rt.
//! The shapes that the instructions of an architecture can have.

use crate::linker_runs::relaxation::{Shape, Shapes};

#[cfg(feature = "loongarch64")]
pub mod loongarch64;
#[cfg(feature = "riscv64")]
pub mod riscv64;

/// No short shape.
const NONE: Shape = Shape {
    kept: 0,
    max_backward: 0,
    max_forward: 0,
    granularity: 1,
};

/// A deletion that is decided already: n bytes stay wherever the target is.
#[must_use]
pub fn fixed(kept: u32) -> Shapes {
    Shapes {
        short: [NONE, NONE],
        count: 0,
        longest: kept,
    }
}
