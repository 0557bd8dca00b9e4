// SPDX-License-Identifier: MIT OR Apache-2.0
// Made by tools/generate of crates/linker_elf/src/elf/entries.rt.
//! For which relocations a linker makes an entry of the GOT or of the PLT.

use crate::linker_elf::elf::{AnyForm, RelocationKind, RowSize};
#[cfg(feature = "riscv64")]
use crate::linker_elf::elf::RiscVInstruction;

/// Whether the formula names the address of a PLT entry.
#[inline(always)]
pub(crate) fn names_plt_entry(kind: RelocationKind) -> bool {
    matches!(
        kind,
        RelocationKind::PltRelGotBase | RelocationKind::PltRelative
    )
}

/// Whether the symbol labels a high part, whose value is taken.
#[inline(always)]
pub(crate) fn is_of_high_part(size: RowSize) -> bool {
    matches_any!(
        size,
        #[cfg(feature = "riscv64")]
        RowSize::BitMasking { insn: AnyForm::RiscV(RiscVInstruction::IType | RiscVInstruction::SType), .. }
    )
}

impl RelocationKind {
    /// Whether the formula has the address of an entry of the GOT.
    #[must_use]
    #[inline(always)]
    pub fn names_got_entry(self) -> bool {
        matches_any!(
            self,
            RelocationKind::GotRelative
                | RelocationKind::GotRelGotBase
                | RelocationKind::Got
                | RelocationKind::TlsGd
                | RelocationKind::TlsGdGot
                | RelocationKind::TlsGdGotBase
                | RelocationKind::TlsLd
                | RelocationKind::TlsLdGot
                | RelocationKind::TlsLdGotBase
                | RelocationKind::GotTpOff
                | RelocationKind::GotTpOffGot
                | RelocationKind::GotTpOffGotBase
                | RelocationKind::TlsDesc
                | RelocationKind::TlsDescGot
                | RelocationKind::TlsDescGotBase,
            #[cfg(feature = "loongarch64")]
            RelocationKind::GotRelativeLoongArch64
                | RelocationKind::GotTpOffLoongArch64
                | RelocationKind::TlsDescLoongArch64
        )
    }
}

impl RowSize {
    /// Whether the value goes into a branch, conditional or not. False for whole bytes.
    #[must_use]
    #[inline(always)]
    pub fn is_branch(self) -> bool {
        match self {
            RowSize::ByteSize(_) => false,
            RowSize::BitMasking { range, insn } => insn.is_branch(range),
        }
    }
}
