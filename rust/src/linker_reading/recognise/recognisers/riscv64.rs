// SPDX-License-Identifier: MIT OR Apache-2.0
// Made by tools/generate of crates/linker_reading/src/recognise/recognisers/riscv64.rt.
//! What is recognised of RISC-V.

use crate::linker_reading::recognise::engine::RecognisedName;
use crate::architecture::Relaxation;
use crate::riscv64::{RewriteKind, RiscVRelocation};

impl RecognisedName for RiscVRelocation {
    type Kind = RewriteKind;

    fn elf_type(self) -> u32 {
        self.r_type()
    }

    fn relaxation(kind: Self::Kind) -> Relaxation {
        Relaxation::RiscV(kind)
    }
}
