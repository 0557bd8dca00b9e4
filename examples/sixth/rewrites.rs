//! The sixth architecture, whose instructions are those of AArch64. A linker rewrites loads from the GOT.

use crate::linker_base::relaxation::RelocationModifier;
use crate::linker_base::rewrite::{RewriteWindow, has_window, overwrite};
use crate::linker_base::utils::u32_from_slice;
use crate::linker_elf::elf::choice_table::{
    Chosen, ChoiceTable, RewriteSet, Table, by_table, choice_by, conditions,
};
use crate::linker_elf::elf::{Choice, InstructionRewrite, LinkFacts, Operands};
use crate::linker_elf::sixth::SixthRelocation as Names;
pub use crate::linker_elf::sixth::{SixthRelocation, row};

/// The rewrites.
#[derive(Debug, Default, Clone, Copy, PartialEq, Eq, Hash, PartialOrd, Ord)]
pub enum RewriteKind {
    /// Leaves the instruction as it is.
    #[default]
    NoOp,
    /// Turns `ldr` into `add`.
    LdrToAdd,
}

fn word_at(section: &[u8], offset: u64) -> u32 {
    u32_from_slice(&section[offset as usize..])
}

impl RewriteKind {
    #[must_use]
    #[inline(always)]
    pub fn from_number(number: u32) -> Option<RewriteKind> {
        match number {
            0 => Some(RewriteKind::NoOp),
            1 => Some(RewriteKind::LdrToAdd),
            _ => None,
        }
    }

    #[must_use]
    #[inline(always)]
    pub fn number(self) -> u32 {
        self as u32
    }

    #[must_use]
    #[inline]
    pub fn matches(self, section: &[u8], offset: u64) -> bool {
        self.can_apply(section, offset)
    }
}

impl InstructionRewrite for RewriteKind {
    #[inline(always)]
    fn apply(self, section: &mut [u8], offset: &mut u64, _addend: &mut i64) {
        if let RewriteKind::LdrToAdd = self {
            let add = word_at(section, *offset) & 0x001f_ffff | 0x9100_0000;
            overwrite(section, *offset, &add.to_le_bytes());
        }
    }

    #[inline(always)]
    fn can_apply(self, section: &[u8], offset: u64) -> bool {
        match self {
            RewriteKind::NoOp => true,
            RewriteKind::LdrToAdd => {
                has_window(section, offset, 0, 4) && word_at(section, offset) >> 22 == 0x3e5
            }
        }
    }

    #[inline(always)]
    fn window(self) -> RewriteWindow {
        let len = if self.is_no_op() { 0 } else { 4 };
        RewriteWindow { back: 0, len }
    }

    #[inline(always)]
    fn next_modifier(&self) -> RelocationModifier {
        RelocationModifier::Normal
    }

    #[inline(always)]
    fn is_no_op(self) -> bool {
        matches!(self, RewriteKind::NoOp)
    }
}

/// The instructions that an entry is for: what its rewrite is meant for.
#[derive(Debug)]
pub enum Pattern {
    OfRewrite,
}

impl RewriteSet for RewriteKind {
    type Relocation = Names;

    type Originals = Pattern;

    #[inline(always)]
    fn matches_at(self, _originals: &Pattern, section: &[u8], offset: u64) -> bool {
        self.matches(section, offset)
    }

    #[inline(always)]
    fn operands_after(self, _offset: u64, operands: &Operands) -> Operands {
        *operands
    }
}

macro_rules! when {
    // the address itself in place of that of the GOT entry: `adrp` is so many bytes before
    (to_address $back:literal) => {
        conditions!(BOUND + FIXED_DISTANCE, InReachIfKnown(R_SIXTH_PAGE, $back))
    };
}

/// The entries of each relocation.
macro_rules! choices {
    ($make:ident $arguments:tt) => {
        $make! {
            $arguments
            R_SIXTH_GOT_PAGE: [NoOp => R_SIXTH_PAGE, to_address(0)]
            R_SIXTH_GOT_LOAD: [LdrToAdd => R_SIXTH_ADD_LOW, to_address(4)]
        }
    };
}

impl ChoiceTable for RewriteKind {
    #[inline(always)]
    fn entries(name: Names, _section: &[u8], _offset: u64) -> Table<Self> {
        choices!(by_table(when, name, table => table))
    }

    #[inline(never)]
    fn choose_listed(name: Names, section: &[u8], offset: u64, facts: &LinkFacts) -> Chosen<Self> {
        choices!(by_table(when, name, table => choice_by(table, name, section, offset, facts)))
    }
}

#[must_use]
#[inline]
pub fn choose(
    name: SixthRelocation,
    section: &[u8],
    offset: u64,
    facts: &LinkFacts,
) -> Choice<RewriteKind, SixthRelocation> {
    RewriteKind::choose(name, section, offset, facts)
}
