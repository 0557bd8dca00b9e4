// SPDX-License-Identifier: MIT OR Apache-2.0
// Made by tools/generate of crates/linker_reading/src/recognise/recognisers/aarch64.rt.
//! What is recognised of AArch64.

use crate::linker_reading::recognise::engine::RecognisedName;
use crate::aarch64::{AArch64Relocation, RewriteKind};
use crate::architecture::Relaxation;

impl RecognisedName for AArch64Relocation {
    type Kind = RewriteKind;

    fn elf_type(self) -> u32 {
        self.r_type()
    }

    fn relaxation(kind: Self::Kind) -> Relaxation {
        Relaxation::AArch64(kind)
    }
}
