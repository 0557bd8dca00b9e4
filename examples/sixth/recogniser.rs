//! What is recognised of the sixth architecture.

use crate::architecture::Relaxation;
use crate::linker_reading::recognise::engine::RecognisedName;
use crate::sixth::{RewriteKind, SixthRelocation};

impl RecognisedName for SixthRelocation {
    type Kind = RewriteKind;

    fn elf_type(self) -> u32 {
        self.r_type()
    }

    fn relaxation(kind: Self::Kind) -> Relaxation {
        Relaxation::Sixth(kind)
    }
}
