// SPDX-License-Identifier: MIT OR Apache-2.0
// Made by tools/generate of crates/linker_reading/src/recognise/recognisers/x86_64.rt.
//! What is recognised of x86-64.

use crate::linker_reading::recognise::engine::RecognisedName;
use crate::architecture::Relaxation;
use crate::x86_64::{RewriteKind, X86_64Relocation};

impl RecognisedName for X86_64Relocation {
    type Kind = RewriteKind;

    fn elf_type(self) -> u32 {
        self.r_type()
    }

    fn relaxation(kind: Self::Kind) -> Relaxation {
        Relaxation::X86_64(kind)
    }
}
