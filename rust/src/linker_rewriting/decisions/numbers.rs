// SPDX-License-Identifier: MIT OR Apache-2.0
// Made by tools/generate of crates/linker_rewriting/src/decisions/numbers.rt.
//! Decisions in numbers.

use super::{Decision, Subject};
use crate::linker_rewriting::candidates::Chosen;
use crate::architecture::Relaxation;
use crate::elf::{Architecture, Choice};

/// What becomes of a relocation and of its instruction, in numbers, as C has it. Any numbers are a
/// decision.
#[repr(C)]
#[derive(Default, Clone, Copy, Debug, PartialEq, Eq, Hash)]
pub struct DecisionNumbers {
    /// The addend that the relocation gets before the rewrite, if its fate is 3; else 0.
    pub addend: i64,
    /// The index of the symbol that the relocation gets, if its fate is 3. With the fate 1 a number
    /// of the bytes that the rewrite was decided on, if it is kept; else 0.
    pub symbol: u32,
    /// The rewrite's number; 0 of a relocation whose instruction isn't rewritten, as the fields
    /// below but `fate`.
    pub rewrite: u32,
    /// The relocation's `r_type` after it.
    pub relocation: u32,
    /// `e_machine` of the rewrite's architecture.
    pub machine: u16,
    /// 0 where both stay as they are, 1 where the instruction is rewritten, 2 where the relocation
    /// goes, since the rewrite at another one takes it along, 3 where the instruction is rewritten
    /// and the relocation gets another symbol and addend.
    pub fate: u8,
    /// The rewrite's count of bytes before the field; 0 if it has none.
    pub opcode_len: u8,
}

/// One that rewrites nothing.
#[inline(always)]
fn of_fate(fate: u8) -> DecisionNumbers {
    DecisionNumbers {
        fate,
        ..DecisionNumbers::default()
    }
}

#[inline(always)]
fn machine_of(kind: Relaxation) -> u16 {
    match kind {
        #[cfg(feature = "aarch64")]
        Relaxation::AArch64(_) => Architecture::AArch64.machine(),
        #[cfg(feature = "riscv64")]
        Relaxation::RiscV(_) => Architecture::RiscV.machine(),
        #[cfg(feature = "loongarch64")]
        Relaxation::LoongArch64(_) => Architecture::LoongArch64.machine(),
        #[cfg(feature = "ppc64")]
        Relaxation::Ppc64(_) => Architecture::Ppc64.machine(),
        #[cfg(feature = "x86_64")]
        Relaxation::X86_64(_) => Architecture::X86_64.machine(),
    }
}

/// One that rewrites an instruction.
#[inline(always)]
fn of_choice(fate: u8, choice: Chosen, subject: Subject) -> DecisionNumbers {
    let (rewrite, opcode_len) = choice.kind.number();
    DecisionNumbers {
        addend: subject.addend,
        symbol: subject.symbol,
        rewrite,
        relocation: choice.relocation,
        machine: machine_of(choice.kind),
        fate,
        opcode_len,
    }
}

impl DecisionNumbers {
    /// The rewrite and the relocation after it, if its machine has a rewrite of these numbers.
    #[inline(always)]
    fn choice(self) -> Option<Chosen> {
        let architecture = Architecture::from_machine(self.machine)?;
        let kind = Relaxation::from_number(architecture, self.rewrite, self.opcode_len)?;
        Some(Choice {
            kind,
            relocation: self.relocation,
        })
    }

    /// The decision, [`Decision::Kept`](crate::rewriting::Decision::Kept) where the machine has no rewrite of these numbers.
    #[must_use]
    #[inline(always)]
    pub fn as_decision(self) -> Decision {
        if self.fate == 0 {
            return Decision::Kept;
        }
        if self.fate == 2 {
            return Decision::Consumed;
        }
        let Some(choice) = self.choice() else {
            return Decision::Kept;
        };
        if self.fate == 1 {
            return Decision::Rewritten(choice);
        }
        let subject = Subject {
            symbol: self.symbol,
            addend: self.addend,
        };
        Decision::RewrittenWithSymbol(choice, subject)
    }

    /// The numbers of a decision.
    #[must_use]
    #[inline(always)]
    pub fn from_decision(made: Decision) -> DecisionNumbers {
        match made {
            Decision::Kept => of_fate(0),
            Decision::Consumed => of_fate(2),
            Decision::Rewritten(choice) => of_choice(
                1,
                choice,
                Subject {
                    symbol: 0,
                    addend: 0,
                },
            ),
            Decision::RewrittenWithSymbol(choice, subject) => of_choice(3, choice, subject),
        }
    }

    /// The number of the bytes that it rewrites, if it is kept.
    #[inline(always)]
    pub(crate) fn bytes(self) -> u32 {
        self.symbol
    }

    /// The numbers of a rewrite that is kept, with a number of the bytes that it rewrites.
    #[inline(always)]
    pub(crate) fn from_choice(choice: Chosen, number: u32) -> DecisionNumbers {
        let bytes = Subject {
            symbol: number,
            addend: 0,
        };
        of_choice(1, choice, bytes)
    }
}
