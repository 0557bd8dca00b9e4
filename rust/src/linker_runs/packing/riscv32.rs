// SPDX-License-Identifier: MIT OR Apache-2.0
// Made by tools/generate of crates/linker_runs/src/packing/riscv32.rt.
//! RV32: its short calls.

use crate::linker_runs::packing::Machine;

/// The base instruction set of RISC-V code.
#[derive(Clone, Copy, Debug, PartialEq, Eq, Hash)]
pub enum Isa {
    /// RV32, whose C extension has `c.jal`.
    Rv32,
    /// RV64.
    Rv64,
}

impl Machine {
    /// Whether a jump of two bytes links a register: `c.j` none, and RV32's `c.jal` x1. It is
    /// asked of RISC-V alone.
    #[inline(always)]
    pub(crate) fn links_short(self, link: u32) -> bool {
        match self {
            #[cfg(feature = "riscv64")]
            Machine::RiscV(Isa::Rv32) => link == 0 || link == 1,
            #[cfg(feature = "loongarch64")]
            Machine::LoongArch64 => link == 0,
            #[cfg(feature = "riscv64")]
            Machine::RiscV(Isa::Rv64) => link == 0,
        }
    }
}
