// SPDX-License-Identifier: MIT OR Apache-2.0
// Made by tools/generate of crates/linker_reading/src/recognise/recognisers/ppc64.rt.
//! What is recognised of PowerPC64.

use crate::linker_reading::recognise::engine::RecognisedName;
use crate::architecture::Relaxation;
use crate::ppc64::{Ppc64Relocation, RewriteKind};

impl RecognisedName for Ppc64Relocation {
    type Kind = RewriteKind;

    fn elf_type(self) -> u32 {
        self.r_type()
    }

    fn relaxation(kind: Self::Kind) -> Relaxation {
        Relaxation::Ppc64(kind)
    }
}
