// SPDX-License-Identifier: MIT OR Apache-2.0
// Made by tools/generate of crates/linker_runs/src/shapes/riscv64.rt.
//! RISC-V (RISC-V ELF psABI, "Function Call Relaxation"; the reaches are those of the unprivileged
//! ISA's `jal` and `c.j`).

use super::NONE;
use crate::linker_runs::relaxation::{Shape, Shapes};

/// `jal`: 21 bits, signed, of which the lowest is 0.
const JAL: Shape = Shape {
    kept: 4,
    max_backward: 1 << 20,
    max_forward: 1 << 20,
    granularity: 2,
};

/// `c.j`: 12 bits, signed, of which the lowest is 0.
const C_J: Shape = Shape {
    kept: 2,
    max_backward: 1 << 11,
    max_forward: 1 << 11,
    granularity: 2,
};

/// A call, `auipc` and `jalr`: a `jal` where it reaches.
pub const CALL: Shapes = Shapes {
    short: [JAL, NONE],
    count: 1,
    longest: 8,
};

/// A call whose `jalr` links x0, or x1 on RV32, where the C extension may be used: a `c.j`, or
/// RV32's `c.jal`, or a `jal` where they reach.
pub const TAIL_C: Shapes = Shapes {
    short: [C_J, JAL],
    count: 2,
    longest: 8,
};

/// A call or a tail call where the C extension may not be used: a `jal` where it reaches, as of a
/// call that links a register.
pub const CALL_WITHOUT_C: Shapes = CALL;

/// The shapes reach exactly the targets that the rows of `R_RISCV_JAL` and `R_RISCV_RVC_JUMP` do,
/// whose instructions they stand for, and are as long as these.
#[doc(hidden)]
pub fn reaches_are_exact() {}
