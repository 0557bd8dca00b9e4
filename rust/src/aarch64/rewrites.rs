// SPDX-License-Identifier: MIT OR Apache-2.0
// Made by tools/generate of crates/linker_utils/src/aarch64/rewrites.rt.
//! Relaxation rewrites of AArch64.

use crate::rewrite_rows::WordTest::{AreSame, Is, IsNot};
use crate::rewrite_rows::{are_at, bits, by_row, top};
use crate::linker_base::relaxation::RelocationModifier;
use crate::linker_base::rewrite::RewriteWindow;
use crate::linker_elf::aarch64::AArch64Relocation;
use crate::linker_elf::elf::{InstructionRewrite, OtherRelocation};

/// A rewrite of one instruction, or of a pair (ELF for the Arm 64-bit Architecture, "Relocation
/// optimization"). Except for `AdrpAddToNopAdr` the window is the instruction's 4 bytes, which
/// begin at the offset. The destination register of an instruction is its bits 0 to 4.
#[derive(Debug, Default, Clone, Copy, PartialEq, Eq, Hash, PartialOrd, Ord)]
pub enum RewriteKind {
    /// Leaves the instruction as it is; only the kind of its relocation changes.
    #[default]
    NoOp,
    /// Writes `nop`.
    ReplaceWithNop,
    /// Writes `movz x0, #0, lsl #16`.
    MovzX0Lsl16,
    /// Writes `movk x0, #0`.
    MovkX0,
    /// Writes `movz xN, #0, lsl #16`, with the old instruction's destination register.
    MovzXnLsl16,
    /// Writes `movk xN, #0`, with the old instruction's destination register. Requires that this is
    /// also its source register, bits 5 to 9.
    MovkXn,
    /// Turns `adrp` into `adr`: clears bit 31.
    AdrpToAdr,
    /// Writes `adrp x0` of distance 0.
    AdrpX0,
    /// Writes `ldr x0, [x0]`.
    LdrX0,
    /// Turns `add` into `adr`: clears bits 24, 27 and 31. The immediate is unchanged, and
    /// [`AArch64Instruction::Adr`](crate::aarch64::AArch64Instruction::Adr) only ORs a value into them: the caller clears bits 5 to 23, 29 and
    /// 30 before that write.
    AddToAdr,
    /// Turns `ldr` with an unsigned offset into `adr`: clears bits 24, 27 and 31. The immediate's
    /// old bits are unchanged, as are bits 22, 29 and 30 of the opcode, which are immediate bits of
    /// `adr`: the caller clears bits 5 to 23, 29 and 30 before it writes [`AArch64Instruction::Adr`](crate::aarch64::AArch64Instruction::Adr).
    LdrToAdr,
    /// Turns LDR (immediate), 64 bits with an unsigned offset, into ADD (immediate). Bits 0 to 20
    /// are unchanged. Requires such an instruction.
    LdrToAdd,
    /// Turns `adrp`, 4 bytes before the offset, and `add` into `nop` and `adr` of distance 0, with
    /// the `adrp`'s destination register. The relocation of the `adrp` is then `R_AARCH64_NONE`
    /// (`other_relocation`).
    AdrpAddToNopAdr,
}

/// A test of the instruction at a place: its opcode, and its registers.
macro_rules! test {
    ($at:expr, adrp) => { Is(bits!($at, 0, 0x9f00_0000), 0x9000_0000) };
    // whose immediate isn't shifted
    ($at:expr, add_64) => { Is(bits!($at, 0, 0xffc0_0000), 0x9100_0000) };
    // whose offset is unsigned
    ($at:expr, ldr_64) => { Is(top!($at, 22), 0x3e5) };
    ($at:expr, b) => { Is(top!($at, 26), 0x05) };
    ($at:expr, bl) => { Is(top!($at, 26), 0x25) };
    // whose register is in bits 5 to 9
    ($at:expr, blr) => { Is(top!($at, 10), 0x35_8fc0) };
    ($at:expr, into $register:literal) => { Is(bits!($at, 0, 0x1f), $register) };
    ($at:expr, not_into $register:literal) => { IsNot(bits!($at, 0, 0x1f), $register) };
    ($at:expr, into_first) => { AreSame(bits!(0, 0, 0x1f), bits!($at, 0, 0x1f)) };
    ($at:expr, from $register:literal) => { Is(bits!($at, 5, 0x1f), $register) };
    ($at:expr, from_itself) => { AreSame(bits!($at, 5, 0x1f), bits!($at, 0, 0x1f)) };
    ($at:expr, from_first) => { AreSame(bits!($at, 5, 0x1f), bits!(0, 0, 0x1f)) };
}

/// Tests, each of the first instruction or of the one n bytes after it. Register 31 as a source is
/// the stack pointer, and as a destination of `ldr` it isn't.
macro_rules! tests {
    (required $test:ident) => { Some(test!(0, $test)) };
    (pair_with $second:ident) => {
        tests![adrp, $second at 4, from_itself at 4, not_into 31 at 4, into_first at 4]
    };
    ($($test:ident $($register:literal)? $(at $at:literal)?),*) => {
        [$(test!($crate::rewrite_rows::or!(0; $($at)?), $test $($register)?)),*]
    };
}

pub(super) use test;
pub(super) use tests;

/// The rewrites.
macro_rules! rewrites {
    ($($use:tt)*) => {
        by_row! { tests, $($use)*;
            NoOp { 0 [] }
            ReplaceWithNop { 4 [] keep 0 set 0xd503_201f }
            MovzX0Lsl16 { 4 [adrp, into 0] keep 0 set 0xd2a0_0000 }
            MovkX0 { 4 [ldr_64, from 0] keep 0 set 0xf280_0000 }
            MovzXnLsl16 { 4 [adrp] keep 0x1f set 0xd2a0_0000 }
            MovkXn { 4 [ldr_64, not_into 31] required from_itself keep 0x1f set 0xf280_0000 }
            AdrpToAdr { 4 [adrp] keep 0x7fff_ffff set 0 }
            AdrpX0 { 4 [adrp, into 0] keep 0 set 0x9000_0000 }
            LdrX0 { 4 [ldr_64, from 0] keep 0 set 0xf940_0000 }
            AddToAdr { 4 [add_64, not_into 31] keep 0x76ff_ffff set 0 }
            LdrToAdr { 4 [ldr_64] keep 0x76ff_ffff set 0 }
            LdrToAdd { 4 [not_into 31] required ldr_64 keep 0x001f_ffff set 0x9100_0000 }
            AdrpAddToNopAdr { 8 back 4 [pair_with add_64]
                keep 0 set 0xd503_201f keep 0x1f set 0x1000_0000 }
        }
    };
}

/// Whether `adrp xN` and `add xN, xN, #imm` or `ldr xN, [xN, #imm]`, both of 64 bits, stand next to
/// each other: the second instruction at an offset of the section, and the `adrp` 4 bytes before
/// it. Then the value that `adrp` leaves in xN is used by the second instruction alone, and the two
/// may be rewritten together: to `nop` and `adr`, to another `adrp` and `add`, or to MOVZ and MOVK.
#[must_use]
#[inline]
pub fn is_adrp_pair(section: &[u8], offset: u64) -> bool {
    4 <= offset
        && (are_at(&tests![pair_with add_64], section, offset - 4, 8)
            || are_at(&tests![pair_with ldr_64], section, offset - 4, 8))
}

impl RewriteKind {
    /// The rewrite with a number, its place in the enum. None above the last.
    #[must_use]
    #[inline(always)]
    pub fn from_number(number: u32) -> Option<RewriteKind> {
        rewrites!(numbered number)
    }

    /// The rewrite's number, which `from_number` takes.
    #[must_use]
    #[inline(always)]
    pub fn number(self) -> u32 {
        self as u32
    }

    /// Rewrites the instruction at an offset of a section. All other bytes, the offset and the
    /// addend are unchanged.
    ///
    /// # Requires
    ///
    /// - `self.can_apply(section_bytes, *offset_in_section)`
    #[cfg_attr(debug_assertions, track_caller)]
    #[inline]
    pub fn apply(self, section_bytes: &mut [u8], offset_in_section: &mut u64, addend: &mut i64) {
        debug_assert!(self.can_apply(section_bytes, *offset_in_section));
        let _ = addend;
        let offset = *offset_in_section;
        rewrites!(self, replacement row => row.apply(section_bytes, offset))
    }

    /// Whether `apply` may be called at an offset of a section: the window lies in the section,
    /// and, for `MovkXn` and `LdrToAdd`, the instruction meets their requirement. For the other
    /// kinds the instruction is not tested.
    #[must_use]
    #[inline(always)]
    pub fn can_apply(self, section: &[u8], offset: u64) -> bool {
        rewrites!(self, replacement row => row.can_apply(section, offset))
    }

    /// Whether the instruction at an offset of a section, or the pair that ends there, is one that
    /// the rewrite is meant for: `can_apply`, and the opcodes and registers. `NoOp` is meant for
    /// any offset and `ReplaceWithNop` for any instruction in the section.
    #[must_use]
    pub fn matches(self, section: &[u8], offset: u64) -> bool {
        rewrites!(self, original row => row.is_for(section, offset))
    }

    /// What happens to the next relocation: it is applied as usual.
    #[must_use]
    #[inline]
    pub fn next_modifier(&self) -> RelocationModifier {
        RelocationModifier::Normal
    }

    /// The relocation of another instruction that the rewrite changes too. Whatever relocation is
    /// there becomes the one that is named here, so that it makes no difference whether its value
    /// is written before the rewrite or after it. `None` but for `AdrpAddToNopAdr`: the relocation
    /// of the `adrp`, 4 bytes before the offset, becomes `R_AARCH64_NONE`, since it is a `nop`.
    ///
    /// ```
    /// use linker_utils::aarch64::{AArch64Relocation, RewriteKind};
    ///
    /// let other = RewriteKind::AdrpAddToNopAdr.other_relocation().unwrap();
    /// assert_eq!((other.offset, other.relocation), (-4, AArch64Relocation::R_AARCH64_NONE));
    /// ```
    #[must_use]
    #[inline]
    pub fn other_relocation(self) -> Option<OtherRelocation<AArch64Relocation>> {
        match self {
            RewriteKind::AdrpAddToNopAdr => Some(OtherRelocation {
                offset: -4,
                relocation: AArch64Relocation::R_AARCH64_NONE,
            }),
            _ => None,
        }
    }
}

impl InstructionRewrite for RewriteKind {
    #[cfg_attr(debug_assertions, track_caller)]
    #[inline(always)]
    fn apply(self, section: &mut [u8], offset: &mut u64, addend: &mut i64) {
        debug_assert!(self.can_apply(section, *offset));
        RewriteKind::apply(self, section, offset, addend);
    }

    #[inline(always)]
    fn can_apply(self, section: &[u8], offset: u64) -> bool {
        RewriteKind::can_apply(self, section, offset)
    }

    #[inline]
    fn window(self) -> RewriteWindow {
        rewrites!(self, replacement row => row.window())
    }

    #[inline(always)]
    fn next_modifier(&self) -> RelocationModifier {
        RewriteKind::next_modifier(self)
    }

    #[inline(always)]
    fn is_no_op(self) -> bool {
        matches!(self, RewriteKind::NoOp)
    }
}
