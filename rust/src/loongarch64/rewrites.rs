// SPDX-License-Identifier: MIT OR Apache-2.0
// Made by tools/generate of crates/linker_utils/src/loongarch64/rewrites.rt.
//! LoongArch: relaxation rewrites.

use crate::rewrite_rows::WordTest::{AreSame, DifferWhere, Is, IsEither, IsEitherOrWithin, IsNot};
use crate::rewrite_rows::{bits, by_row, top};
use crate::linker_base::relaxation::RelocationModifier;
use crate::linker_base::rewrite::{DeletedBytes, RewriteWindow, window_is_in};
use crate::linker_elf::elf::InstructionRewrite;

/// A rewrite of one instruction, or of a pair whose second instruction is then deleted. The window
/// is the instruction's 4 bytes, which begin at the offset. The destination register of an
/// instruction is its bits 0 to 4, and the first source register its bits 5 to 9.
///
/// ```
/// use linker_utils::elf::InstructionRewrite;
/// use linker_utils::loongarch64::RewriteKind;
///
/// // `ld.d $a0, $a0, 0` becomes `addi.d $a0, $a0, 0`
/// let (mut ld, mut offset, mut addend) = (0x28c0_0084u32.to_le_bytes(), 0, 0);
/// assert!(RewriteKind::LdToAddi.matches(&ld, offset));
/// RewriteKind::LdToAddi.apply(&mut ld, &mut offset, &mut addend);
/// assert_eq!(u32::from_le_bytes(ld), 0x02c0_0084);
/// ```
#[cfg_attr(not(exhaustive), non_exhaustive)]
#[derive(Default, Clone, Copy, PartialEq, Eq, Debug, Hash, PartialOrd, Ord)]
pub enum RewriteKind {
    /// Leaves the instruction as it is; only the kind of its relocation changes.
    #[default]
    NoOp,
    /// Turns the instruction into `nop`.
    ReplaceWithNop,
    /// Turns `ld.d` into `addi.d`. Bits 0 to 21 are unchanged.
    LdToAddi,
    /// Turns `addi.d` into `ld.d`. Bits 0 to 21 are unchanged.
    AddiToLd,
    /// Turns the `pcalau12i` of a pair into `pcaddi` of distance 0, with its destination register.
    /// The pair's second instruction is deleted for its own relocation.
    PcalaToPcaddi,
    /// Turns the `pcaddu18i` of a call, whose `jirl` links `ra`, into `bl` of distance 0. The
    /// caller deletes the `jirl` after it.
    CallToBl,
    /// Turns the `pcaddu18i` of a tail call, whose `jirl` links no register, into `b` of distance
    /// 0. The caller deletes the `jirl` after it.
    CallToB,
    /// Turns `pcalau12i` into `lu12i.w` of 0, with its destination register.
    PcalaToLu12i,
    /// Turns `addi.d` or `ld.d` into `ori` of 0, with both of its registers.
    LowToOri,
    /// Turns `addi.d` or `ld.d` into `ori` of 0 from `zero`, with its destination register.
    LowToOriZero,
    /// Makes `tp` the source register of the instruction that adds the low part of an offset.
    BaseToTp,
    /// Leaves the instruction as it is; the caller deletes it.
    Delete,
    /// Leaves the `addi.d` of a pair, which adds to its own destination register, as it is; the
    /// caller deletes it.
    DeleteAddi,
}

/// A test of the instruction at a place: its opcode, and its registers.
macro_rules! test {
    ($at:expr, pcalau12i) => { Is(top!($at, 25), 0x0d) };
    ($at:expr, pcaddu18i) => { Is(top!($at, 25), 0x0f) };
    ($at:expr, lu12i_w) => { Is(top!($at, 25), 0x0a) };
    ($at:expr, jirl) => { Is(top!($at, 26), 0x13) };
    ($at:expr, addi_d) => { Is(top!($at, 22), 0x00b) };
    ($at:expr, ld_d) => { Is(top!($at, 22), 0x0a3) };
    ($at:expr, addi_d_or_ld_d) => { IsEither(top!($at, 22), 0x00b, 0x0a3) };
    // what adds a signed immediate of 12 bits to its first source register
    ($at:expr, adds_low) => { IsEitherOrWithin(top!($at, 22), 0x00a, 0x00b, 0x0a0, 0x0b3) };
    // no `st.b`, `st.h`, `st.w` or `st.d` of its own base
    ($at:expr, stores_other) => {
        DifferWhere(top!($at, 22), 0x0a4, 0x0a7, bits!($at, 0, 0x1f), bits!($at, 5, 0x1f))
    };
    ($at:expr, add_d_of_tp) => { Is(top!($at, 10), 0x422) };
    ($at:expr, ld_d_ra_a0_0) => { Is(top!($at, 0), 0x28c0_0081) };
    ($at:expr, jirl_ra_ra_0) => { Is(top!($at, 0), 0x4c00_0021) };
    ($at:expr, into $register:literal) => { Is(bits!($at, 0, 0x1f), $register) };
    ($at:expr, not_into_zero) => { IsNot(bits!($at, 0, 0x1f), 0) };
    ($at:expr, into_first) => { AreSame(bits!(0, 0, 0x1f), bits!($at, 0, 0x1f)) };
    ($at:expr, from $register:literal) => { Is(bits!($at, 5, 0x1f), $register) };
    ($at:expr, from_itself) => { AreSame(bits!($at, 5, 0x1f), bits!($at, 0, 0x1f)) };
    ($at:expr, from_first) => { AreSame(bits!($at, 5, 0x1f), bits!(0, 0, 0x1f)) };
}

/// Tests, each of the first instruction or of the one n bytes after it.
macro_rules! tests {
    (pair_with $second:ident) => {
        tests![pcalau12i, $second at 4, from_itself at 4, not_into_zero at 4, into_first at 4]
    };
    ($($test:ident $($register:literal)? $(at $at:literal)?),*) => {
        [$(test!($crate::rewrite_rows::or!(0; $($at)?), $test $($register)?)),*]
    };
}

pub(super) use test;
pub(super) use tests;

/// The rewrites. Register 1 is `ra`.
macro_rules! rewrites {
    ($($use:tt)*) => {
        by_row! { tests, $($use)*;
            NoOp { 0 [] }
            ReplaceWithNop { 4 [] keep 0 set 0x0340_0000 }
            LdToAddi { 4 [ld_d, from_itself, not_into_zero] keep 0x003f_ffff set 0x02c0_0000 }
            AddiToLd { 4 [addi_d, from_itself, not_into_zero] keep 0x003f_ffff set 0x28c0_0000 }
            PcalaToPcaddi { 8 [pair_with addi_d_or_ld_d] keep 0x1f set 0x1800_0000 }
            CallToBl { 8 [pcaddu18i, not_into_zero, jirl at 4, from_first at 4, into 1 at 4]
                keep 0 set 0x5400_0000 delete 4 }
            CallToB { 8 [pcaddu18i, not_into_zero, jirl at 4, from_first at 4, into 0 at 4]
                keep 0 set 0x5000_0000 delete 4 }
            PcalaToLu12i { 4 [pcalau12i] keep 0x1f set 0x1400_0000 }
            LowToOri { 4 [addi_d_or_ld_d] keep 0x3ff set 0x0380_0000 }
            LowToOriZero { 4 [addi_d_or_ld_d] keep 0x1f set 0x0380_0000 }
            BaseToTp { 4 [adds_low] keep 0xffff_fc1f set 0x40 }
            Delete { 4 [] delete 0 }
            DeleteAddi { 4 [addi_d, from_itself, not_into_zero] delete 0 }
        }
    };
}

impl RewriteKind {
    /// The rewrite with a number, its place in the enum. None above the last.
    #[must_use]
    #[inline(always)]
    pub fn from_number(number: u32) -> Option<RewriteKind> {
        rewrites!(numbered number)
    }

    /// The rewrite's number, which `from_number` takes.
    #[must_use]
    #[inline(always)]
    pub fn number(self) -> u32 {
        self as u32
    }

    /// Whether the instruction that begins at an offset of a section, or the pair, is one that the
    /// rewrite is meant for: `can_apply`, and the opcodes and registers. `NoOp` is meant for any
    /// offset, and `ReplaceWithNop` and `Delete` for any instruction in the section. `BaseToTp` is
    /// meant for `addi.w`, `addi.d`, `preld`, and loads and stores of integers, floating-point
    /// numbers and vectors with a signed offset of 12 bits.
    #[must_use]
    pub fn matches(self, section: &[u8], offset: u64) -> bool {
        rewrites!(self, original row => row.is_for(section, offset))
    }

    /// The bytes to be deleted after the rewrite: the `jirl` of a call after `CallToBl` and
    /// `CallToB`, and the instruction itself for `Delete` and `DeleteAddi`. `None` for the others.
    #[must_use]
    #[inline]
    pub fn deleted(self) -> Option<DeletedBytes> {
        rewrites!(self, replacement row => row.deleted)
    }
}

impl InstructionRewrite for RewriteKind {
    #[cfg_attr(debug_assertions, track_caller)]
    #[inline]
    fn apply(self, section: &mut [u8], offset: &mut u64, _addend: &mut i64) {
        debug_assert!(self.can_apply(section, *offset));
        rewrites!(self, replacement row => row.apply(section, *offset))
    }

    #[inline]
    fn can_apply(self, section: &[u8], offset: u64) -> bool {
        window_is_in(section, offset, self.window())
    }

    #[inline]
    fn window(self) -> RewriteWindow {
        rewrites!(self, replacement row => row.window())
    }

    #[inline]
    fn next_modifier(&self) -> RelocationModifier {
        RelocationModifier::Normal
    }

    #[inline(always)]
    fn is_no_op(self) -> bool {
        matches!(self, RewriteKind::NoOp)
    }
}
