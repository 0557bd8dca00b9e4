// SPDX-License-Identifier: MIT OR Apache-2.0
// Made by tools/generate of crates/linker_runs/src/shapes/loongarch64.rt.
//! LoongArch (LoongArch ELF psABI, "Linker Relaxation"; the reaches are those of the reference
//! manual's `b`, `bl` and `pcaddi`).

use super::NONE;
use crate::linker_runs::relaxation::{Shape, Shapes};

/// `b` and `bl`: 28 bits, signed, of which the lowest two are 0.
const BRANCH: Shape = Shape {
    kept: 4,
    max_backward: 1 << 27,
    max_forward: 1 << 27,
    granularity: 4,
};

/// `pcaddi`: 22 bits, signed, of which the lowest two are 0.
const PCADDI: Shape = Shape {
    kept: 4,
    max_backward: 1 << 21,
    max_forward: 1 << 21,
    granularity: 4,
};

/// `R_LARCH_CALL36`, `pcaddu18i` and `jirl`: a `b` or `bl` where it reaches.
pub const CALL36: Shapes = Shapes {
    short: [BRANCH, NONE],
    count: 1,
    longest: 8,
};

/// `R_LARCH_PCALA_HI20` and `_LO12`, `pcalau12i` and `addi.d` of one register: a `pcaddi` where it
/// reaches.
pub const PCALA: Shapes = Shapes {
    short: [PCADDI, NONE],
    count: 1,
    longest: 8,
};

/// The shapes reach exactly the targets that the rows of `R_LARCH_B26` and `R_LARCH_PCREL20_S2` do,
/// whose instructions they stand for, and are as long as these.
#[doc(hidden)]
pub fn reaches_are_exact() {}
