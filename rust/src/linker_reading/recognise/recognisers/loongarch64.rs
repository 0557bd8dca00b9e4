// SPDX-License-Identifier: MIT OR Apache-2.0
// Made by tools/generate of crates/linker_reading/src/recognise/recognisers/loongarch64.rt.
//! What is recognised of LoongArch.

use crate::linker_reading::recognise::engine::RecognisedName;
use crate::architecture::Relaxation;
use crate::loongarch64::{LoongArch64Relocation, RewriteKind};

impl RecognisedName for LoongArch64Relocation {
    type Kind = RewriteKind;

    fn elf_type(self) -> u32 {
        self.r_type()
    }

    fn relaxation(kind: Self::Kind) -> Relaxation {
        Relaxation::LoongArch64(kind)
    }
}
