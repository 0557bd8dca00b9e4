// SPDX-License-Identifier: MIT OR Apache-2.0
// Made by tools/generate of crates/linker_utils/src/elf.rt.
//! The vocabulary of relocations, the forms of instructions that hold a value, the interfaces of
//! forms and of rewrites, the architectures, and what a linker knows when it chooses a rewrite.
//!
#![doc = include_str!("../doc/elf.md")]

#[cfg(feature = "ppc64")]
pub use crate::ppc64::Ppc64Instruction;
use crate::linker_base::bit_misc::BitRange;
pub use crate::linker_elf::elf::{
    AllowedRange, AnyForm, ApplyError, Architecture, Bias, Choice, EntryUse, FormulaError,
    HANDLE_UNIT, InstructionForm, InstructionRewrite, Length, LinkFacts, Operands, OtherRelocation,
    PAGE_MASK_4KB, PageMask, PageMaskPattern, RelocateError, RelocationKind, RelocationNumbers,
    RewriteWindow, Row, RowFacts, RowInfo, RowSize, SIZE_2GB, SIZE_2KB, SIZE_4GB, SIZE_4KB, Sign,
    Uleb128PairError, Uleb128Role, Way, WriteError,
};
#[cfg(feature = "aarch64")]
pub use crate::linker_elf::elf::{AArch64Instruction, EM_AARCH64};
#[cfg(feature = "loongarch64")]
pub use crate::linker_elf::elf::{EM_LOONGARCH, LoongArch64Instruction};
#[cfg(feature = "ppc64")]
pub use crate::linker_elf::elf::{EM_PPC64, Ppc64Form};
#[cfg(feature = "riscv64")]
pub use crate::linker_elf::elf::{EM_RISCV, RiscVInstruction};
#[cfg(feature = "x86_64")]
pub use crate::linker_elf::elf::EM_X86_64;

/// The forms of [`AnyForm`](crate::elf::AnyForm) that the crate `linker-utils` has too. No variants are added, nor any
/// forms of PowerPC64, so that a match of all needs no last arm.
#[derive(Debug, Clone, Copy, PartialEq, Eq, Hash, PartialOrd, Ord)]
pub enum RelocationInstruction {
    #[cfg(feature = "aarch64")]
    AArch64(AArch64Instruction),
    #[cfg(feature = "riscv64")]
    RiscV(RiscVInstruction),
    #[cfg(feature = "ppc64")]
    Ppc64(Ppc64Instruction),
    #[cfg(feature = "loongarch64")]
    LoongArch64(LoongArch64Instruction),
}

impl RelocationInstruction {
    /// The same among all forms.
    #[must_use]
    #[inline(always)]
    pub fn form(self) -> AnyForm {
        match self {
            #[cfg(feature = "aarch64")]
            RelocationInstruction::AArch64(insn) => AnyForm::AArch64(insn),
            #[cfg(feature = "riscv64")]
            RelocationInstruction::RiscV(insn) => AnyForm::RiscV(insn),
            #[cfg(feature = "ppc64")]
            RelocationInstruction::Ppc64(insn) => AnyForm::Ppc64(insn.form()),
            #[cfg(feature = "loongarch64")]
            RelocationInstruction::LoongArch64(insn) => AnyForm::LoongArch64(insn),
        }
    }

    /// A form, if the crate `linker-utils` has it.
    #[must_use]
    #[inline(always)]
    pub const fn of(form: AnyForm) -> Option<RelocationInstruction> {
        match form {
            #[cfg(feature = "aarch64")]
            AnyForm::AArch64(insn) => Some(RelocationInstruction::AArch64(insn)),
            #[cfg(feature = "riscv64")]
            AnyForm::RiscV(insn) => Some(RelocationInstruction::RiscV(insn)),
            #[cfg(feature = "ppc64")]
            AnyForm::Ppc64(form) => match Ppc64Instruction::of(form) {
                Some(insn) => Some(RelocationInstruction::Ppc64(insn)),
                None => None,
            },
            #[cfg(feature = "loongarch64")]
            AnyForm::LoongArch64(insn) => Some(RelocationInstruction::LoongArch64(insn)),
        }
    }
}

impl InstructionForm for RelocationInstruction {
    #[inline]
    fn window(self) -> usize {
        self.form().window()
    }

    #[cfg_attr(debug_assertions, track_caller)]
    #[inline]
    fn fits(self, value: u64, bytes: &[u8]) -> bool {
        debug_assert!(self.window() <= bytes.len());
        self.form().fits(value, bytes)
    }

    #[cfg_attr(debug_assertions, track_caller)]
    #[inline]
    fn write(self, value: u64, negative: bool, dest: &mut [u8]) {
        debug_assert!(self.window() <= dest.len());
        debug_assert!(self.fits(value, dest));
        self.form().write(value, negative, dest);
    }

    #[cfg_attr(debug_assertions, track_caller)]
    #[inline]
    fn read(self, bytes: &[u8]) -> (u64, bool) {
        debug_assert!(self.window() <= bytes.len());
        self.form().read(bytes)
    }
}

/// Where a relocation's value is written.
#[derive(Debug, Clone, Copy, PartialEq, Eq, Hash)]
pub enum RelocationSize {
    /// This number of whole bytes.
    ByteSize(u8),
    /// A bit range of the value into an instruction of a form.
    BitMasking {
        range: BitRange,
        insn: RelocationInstruction,
    },
}

impl RelocationSize {
    /// Bits `start` and up, below `end`, into an AArch64 instruction.
    #[cfg(feature = "aarch64")]
    #[must_use]
    pub const fn bit_mask_aarch64(start: u8, end: u8, insn: AArch64Instruction) -> RelocationSize {
        RelocationSize::BitMasking {
            range: BitRange { start, end },
            insn: RelocationInstruction::AArch64(insn),
        }
    }

    /// Bits `start` and up, below `end`, into a RISC-V instruction.
    #[cfg(feature = "riscv64")]
    #[must_use]
    pub const fn bit_mask_riscv(start: u8, end: u8, insn: RiscVInstruction) -> RelocationSize {
        RelocationSize::BitMasking {
            range: BitRange { start, end },
            insn: RelocationInstruction::RiscV(insn),
        }
    }

    /// Bits `start` and up, below `end`, into a PowerPC64 instruction.
    #[cfg(feature = "ppc64")]
    #[must_use]
    pub const fn bit_mask_ppc64(start: u8, end: u8, insn: Ppc64Instruction) -> RelocationSize {
        RelocationSize::BitMasking {
            range: BitRange { start, end },
            insn: RelocationInstruction::Ppc64(insn),
        }
    }

    /// Bits `start` and up, below `end`, into a LoongArch instruction.
    #[cfg(feature = "loongarch64")]
    #[must_use]
    pub const fn bit_mask_loongarch64(start: u8, end: u8, insn: LoongArch64Instruction) -> RelocationSize {
        RelocationSize::BitMasking {
            range: BitRange { start, end },
            insn: RelocationInstruction::LoongArch64(insn),
        }
    }

    /// A row's, if the crate `linker-utils` has its form.
    #[inline(always)]
    const fn of(size: RowSize) -> Option<RelocationSize> {
        match size {
            RowSize::ByteSize(bytes) => Some(RelocationSize::ByteSize(bytes)),
            RowSize::BitMasking { range, insn } => match RelocationInstruction::of(insn) {
                Some(insn) => Some(RelocationSize::BitMasking { range, insn }),
                None => None,
            },
        }
    }
}

/// What a relocation means, as the crate `linker-utils` says it: a [`RowInfo`](crate::elf::RowInfo) of a form that it has.
#[derive(Debug, Clone, Copy, PartialEq, Eq, Hash)]
pub struct RelocationKindInfo {
    /// The formula of its value.
    pub kind: RelocationKind,
    /// Where its value is written.
    pub size: RelocationSize,
    /// The addresses whose offset in the page is cleared.
    pub mask: Option<PageMask>,
    /// The allowed values.
    pub range: AllowedRange,
    /// The value is a multiple of this.
    pub alignment: u64,
    /// Added before the page mask is applied.
    pub bias: Option<Bias>,
    /// Whether a thunk may replace a target that is out of range.
    pub thunkable: bool,
    /// Whether the addend is in the section, and not in the relocation.
    pub implicit_addend: bool,
}

impl RelocationKindInfo {
    /// What a row says, if the crate `linker-utils` has its form.
    #[must_use]
    #[inline(always)]
    pub const fn of(row: RowInfo) -> Option<RelocationKindInfo> {
        match RelocationSize::of(row.size) {
            Some(size) => Some(RelocationKindInfo::of_size(row, size)),
            None => None,
        }
    }

    /// What a row says, with a size.
    #[inline(always)]
    pub(crate) const fn of_size(row: RowInfo, size: RelocationSize) -> RelocationKindInfo {
        RelocationKindInfo {
            kind: row.kind,
            size,
            mask: row.mask,
            range: row.range,
            alignment: row.alignment,
            bias: row.bias,
            thunkable: row.thunkable,
            implicit_addend: row.implicit_addend,
        }
    }
}

/// What a row says, if there is one. The crate `linker-utils` has its form.
#[inline(always)]
pub(crate) const fn upstream(row: Option<RowInfo>) -> Option<RelocationKindInfo> {
    match row {
        Some(row) => RelocationKindInfo::of(row),
        None => None,
    }
}
