// SPDX-License-Identifier: MIT OR Apache-2.0
// Made by tools/generate of crates/linker_utils/src/ppc64/rewrites.rt.
//! Relaxation rewrites of PowerPC64.

use crate::rewrite_rows::WordTest::{DifferAmong, Is, IsAmong, IsEither, IsNot};
use crate::rewrite_rows::{bits, by_row, top};
use crate::linker_base::relaxation::RelocationModifier;
use crate::linker_base::rewrite::{RewriteWindow, window_is_in};
use crate::linker_elf::elf::InstructionRewrite;
use crate::linker_elf::ppc64::Ppc64Relocation;

/// A rewrite of an instruction, or of a call and the `nop` after it (64-bit ELF V2 ABI for Power,
/// "TOC Optimizations" and "TLS Linkage Optimizations"). The window is the instruction's 4 bytes,
/// or the 8 bytes of a prefixed instruction or of a call and its `nop`. It begins at the offset,
/// but that of `AddToMove` and of `IndexedToDirect` one byte before it. An immediate that a rewrite
/// writes is 0, for the relocation after it, or the number itself where that is `R_PPC64_NONE`.
///
/// ```
/// use linker_utils::elf::InstructionRewrite;
/// use linker_utils::ppc64::RewriteKind;
///
/// // ld 9,0(10) becomes addi 9,10,0
/// let (mut ld, mut offset, mut addend) = (0xe92a_0000u32.to_le_bytes(), 0, 0);
/// assert!(RewriteKind::LdToAddi.matches(&ld, offset));
/// RewriteKind::LdToAddi.apply(&mut ld, &mut offset, &mut addend);
/// assert_eq!(u32::from_le_bytes(ld), 0x392a_0000);
/// ```
#[cfg_attr(not(exhaustive), non_exhaustive)]
#[derive(Default, Clone, Copy, PartialEq, Eq, Debug, Hash, PartialOrd, Ord)]
pub enum RewriteKind {
    /// Leaves the instruction as it is; only the kind of its relocation changes.
    #[default]
    NoOp,
    /// Writes `nop` in place of `addis rT,2`.
    AddisToNop,
    /// Makes register 2, the TOC pointer, the base of an instruction: bits 16 to 20.
    BaseToToc,
    /// Turns `ld rT,x(rA)` into `addi rT,rA,0`.
    LdToAddi,
    /// Turns `pld rT`, relative to the instruction, into `paddi rT,0,0,1`.
    PldToPaddi,
    /// Turns `ld rT` into `addis rT,13,0`, which adds to the thread pointer.
    LdToAddisThread,
    /// Turns `add rT,rA,13` into `addi rT,rA,0`.
    AddToAddi,
    /// Turns an indexed load or store, as `lwzx rT,rA,13`, into that with a displacement, as
    /// `lwz rT,0(rA)`.
    IndexedToD,
    /// Turns `ldx`, `stdx` or `lwax` into `ld`, `std` or `lwa`, whose displacement is in whole
    /// words.
    IndexedToDs,
    /// Turns `addi rT` into `addis rT,13,0`.
    AddiToAddisThread,
    /// Turns `addi rT,rA` into `ld rT,0(rA)`.
    AddiToLd,
    /// Turns the call of `__tls_get_addr` and the `nop` after it into `nop` and `addi 3,3,0`. The
    /// offset is then that of the `addi`, 4 bytes on.
    CallToAddi,
    /// Turns the call of `__tls_get_addr` and the `nop` after it into `nop` and `add 3,3,13`. The
    /// offset is then that of the `add`, 4 bytes on.
    CallToAdd,
    /// Turns the call of `__tls_get_addr` and the `nop` after it into `nop` and `addi 3,3,4096`.
    /// The offset is then that of the `addi`, 4 bytes on.
    CallToAddi4096,
    /// Turns the `nop` after a call into `ld 2,24(1)`, which restores the TOC pointer. The offset
    /// is that of the call, which stays.
    NopToRestoreToc,
    /// Leaves `addis rT,2` as it is; only the kind of its relocation changes.
    KeepAddis,
    /// Turns `addis 2,12`, at the entry of a function, into `lis 2,0`.
    AddisToLis,
    /// Writes `addi 2,2,0` after that. The addend is then 0.
    AddiAfterLis,
    /// Writes `nop` in place of `addis rT,13`.
    AddisThreadToNop,
    /// Makes register 13, the thread pointer, the base of an instruction: bits 16 to 20.
    BaseToThread,
    /// Turns `pld rT`, relative to the instruction, into `paddi rT,13,0`, which adds to the thread
    /// pointer.
    PldToPaddiThread,
    /// Turns `add rT,rA,13` into `mr rT,rA`, or into `nop` where rT is rA. The offset is that of
    /// the instruction's second byte, where `R_PPC64_TLS` of prefixed code stands.
    AddToMove,
    /// Turns an indexed load or store, as `lwzx rT,rA,13` or `ldx rT,rA,13`, into that with the
    /// displacement 0, as `lwz rT,0(rA)` or `ld rT,0(rA)`. The offset is that of the second byte.
    IndexedToDirect,
    /// Turns `paddi rT`, relative to the instruction, into `paddi rT,13,0`.
    PaddiToPaddiThread,
    /// Turns `paddi rT`, relative to the instruction, into `pld rT,0,1`.
    PaddiToPld,
    /// Turns `paddi rT`, relative to the instruction, into `paddi rT,13,4096`.
    PaddiToPaddi4096,
    /// Writes `nop` in place of a call of `__tls_get_addr` by `R_PPC64_REL24_NOTOC`.
    BranchToNop,
    /// Writes `add 3,3,13` in place of a call of `__tls_get_addr` by `R_PPC64_REL24_NOTOC`.
    BranchToAdd,
}

/// A test of the instruction at a place: its opcodes, and its registers. As a base, register 0 is
/// the number 0.
macro_rules! test {
    ($at:expr, opcode $number:literal) => { Is(bits!($at, 26, 0x3f), $number) };
    ($at:expr, prefix $number:literal) => { Is(bits!($at, 18, 0x3fff), $number) };
    // opcode and both registers
    ($at:expr, high $number:literal) => { Is(bits!($at, 16, 0xffff), $number) };
    ($at:expr, low_2 $number:literal) => { Is(bits!($at, 0, 0x3), $number) };
    ($at:expr, low_6 $number:literal) => { Is(bits!($at, 0, 0x3f), $number) };
    ($at:expr, low_6_either $first:literal $second:literal) => {
        IsEither(bits!($at, 0, 0x3f), $first, $second)
    };
    ($at:expr, low_11 $number:literal) => { Is(bits!($at, 0, 0x7ff), $number) };
    ($at:expr, nop) => { Is(top!($at, 0), 0x6000_0000) };
    ($at:expr, into_not $register:literal) => { IsNot(bits!($at, 21, 0x1f), $register) };
    ($at:expr, over $register:literal) => { Is(bits!($at, 16, 0x1f), $register) };
    ($at:expr, over_not $register:literal) => { IsNot(bits!($at, 16, 0x1f), $register) };
    ($at:expr, plus $register:literal) => { Is(bits!($at, 11, 0x1f), $register) };
    // `addi`, `lwz`, `lbz`, `stw`, `stb`, `lhz`, `lha`, `sth`, `lfs`, `lfd`, `stfs` and `stfd`; by
    // the lowest two bits `lq`, `ld`, `lwa`, `std`, `lxsd`, `lxssp`, `lxv`, `stxv`, `stxsd` and
    // `stxssp`
    ($at:expr, accesses) => {
        IsAmong(
            bits!($at, 26, 0x3f),
            bits!($at, 0, 0x3),
            0x4555_1555_0000_4000,
            0x2155_1555_0000_4000,
            0x2755_1555_0000_4000,
            0x2355_1555_0000_4000
        )
    };
    // `stw`, `stb`, `sth` and `std`
    ($at:expr, stores_other) => {
        DifferAmong(
            bits!($at, 26, 0x3f),
            0x4000_1050_0000_0000,
            bits!($at, 21, 0x1f),
            bits!($at, 16, 0x1f)
        )
    };
    // `ldx`, `stdx` and `lwax` where bit 2 is 0, or those of bytes and words, all without update
    ($at:expr, accesses_indexed) => {
        IsAmong(bits!($at, 6, 0x1f), bits!($at, 2, 0x3), 0, 0, 0x411, 0x55_1555)
    };
    // `stwx`, `stbx`, `sthx` and `stdx`
    ($at:expr, stores_other_indexed) => {
        DifferAmong(bits!($at, 6, 0x1f), 0x1050, bits!($at, 21, 0x1f), bits!($at, 16, 0x1f))
    };
}

/// Tests, each of the first instruction or of the one n bytes after it.
macro_rules! tests {
    // the second source register is the thread pointer
    (over_thread $($more:tt)*) => { tests![opcode 31, plus 13, over_not 0, $($more)*] };
    (indexed $($low:tt)*) => {
        tests![over_thread $($low)*, accesses_indexed, stores_other_indexed]
    };
    // `pld` and `paddi`, relative to the instruction
    (pld) => { tests![prefix 0x104, opcode 57 at 4, over 0 at 4] };
    (paddi) => { tests![prefix 0x184, opcode 14 at 4, over 0 at 4] };
    (bl_nop) => { tests![opcode 18, low_2 1, nop at 4] };
    ($($test:ident $($number:literal)* $(at $at:literal)?),*) => {
        [$(test!($crate::rewrite_rows::or!(0; $($at)?), $test $($number)*)),*]
    };
}

/// The rewrites. Opcode 14 is `addi`, 15 `addis`, 18 `b`, 31 that of indexed accesses and `add`, 58
/// `ld`.
macro_rules! rewrites {
    ($($use:tt)*) => {
        by_row! { tests, $($use)*;
            NoOp { 0 [] }
            AddisToNop { 4 [opcode 15, over 2] keep 0 set 0x6000_0000 }
            BaseToToc { 4 [over_not 0, accesses, stores_other] keep 0xffe0_ffff set 0x0002_0000 }
            LdToAddi { 4 [opcode 58, low_2 0, over_not 0] keep 0x03ff_0000 set 0x3800_0000 }
            PldToPaddi { 8 [pld] keep 0 set 0x0610_0000 keep 0x03e0_0000 at 4 set 0x3800_0000 }
            LdToAddisThread { 4 [opcode 58, low_2 0, over_not 0, into_not 0]
                keep 0x03e0_0000 set 0x3c0d_0000 }
            AddToAddi { 4 aligned true [over_thread low_11 0x214] keep 0x03ff_0000 set 0x3800_0000 }
            IndexedToD { 4 aligned true [indexed low_6 0x2e] special ToD }
            IndexedToDs { 4 aligned true [indexed low_6 0x2a] special ToDs }
            AddiToAddisThread { 4 [opcode 14, over_not 0] keep 0x03e0_0000 set 0x3c0d_0000 }
            AddiToLd { 4 [opcode 14, over_not 0] keep 0x03ff_0000 set 0xe800_0000 }
            CallToAddi { 8 [bl_nop] keep 0 set 0x6000_0000 keep 0 set 0x3863_0000 skip 0 moved 4 }
            CallToAdd { 8 [bl_nop] keep 0 set 0x6000_0000 keep 0 set 0x7c63_6a14 skip 0 moved 4 }
            CallToAddi4096 { 8 [bl_nop]
                keep 0 set 0x6000_0000 keep 0 set 0x3863_1000 skip 0 moved 4 }
            NopToRestoreToc { 8 [bl_nop] keep 0xffff_ffff set 0 keep 0 set 0xe841_0018 }
            KeepAddis { 4 [opcode 15, over 2] }
            AddisToLis { 4 [high 0x3c4c] keep 0 set 0x3c40_0000 }
            AddiAfterLis { 4 [high 0x3842] keep 0 set 0x3842_0000 addend 0 }
            AddisThreadToNop { 4 [opcode 15, over 13] keep 0 set 0x6000_0000 }
            BaseToThread { 4 [over_not 0, accesses, stores_other] keep 0xffe0_ffff set 0x000d_0000 }
            PldToPaddiThread { 8 [pld]
                keep 0 set 0x0600_0000 keep 0x03e0_0000 at 4 set 0x380d_0000 }
            AddToMove { 4 back 1 aligned true [over_thread low_11 0x214] special ToMove }
            IndexedToDirect { 4 back 1 aligned true [indexed low_6_either 0x2a 0x2e]
                special ToEither }
            PaddiToPaddiThread { 8 [paddi]
                keep 0 set 0x0600_0000 keep 0x03e0_0000 at 4 set 0x380d_0000 }
            PaddiToPld { 8 [paddi] keep 0 set 0x0410_0000 keep 0x03e0_0000 at 4 set 0xe400_0000 }
            PaddiToPaddi4096 { 8 [paddi]
                keep 0 set 0x0600_0000 keep 0x03e0_0000 at 4 set 0x380d_1000 }
            BranchToNop { 4 [opcode 18, low_2 1] keep 0 set 0x6000_0000 skip 0 }
            BranchToAdd { 4 [opcode 18, low_2 1] keep 0 set 0x7c63_6a14 skip 0 }
        }
    };
}

impl RewriteKind {
    /// The rewrite with a number, its place in the enum. None above the last.
    #[must_use]
    #[inline(always)]
    pub fn from_number(number: u32) -> Option<RewriteKind> {
        rewrites!(numbered number)
    }

    /// The rewrite's number, which `from_number` takes.
    #[must_use]
    #[inline(always)]
    pub fn number(self) -> u32 {
        self as u32
    }

    /// Whether the instruction at an offset of a section is one that the rewrite is meant for:
    /// `can_apply`, and the opcodes and registers. `NoOp` is meant for any offset. No instruction
    /// is meant whose base is register 0, which stands for the number 0, nor an access with update,
    /// which changes its base, nor a store of the base itself. What adds register 13 is meant at a
    /// multiple of 4, and for `AddToMove` and `IndexedToDirect` one byte on, as the ABI places
    /// `R_PPC64_TLS` of prefixed code.
    #[must_use]
    pub fn matches(self, section: &[u8], offset: u64) -> bool {
        rewrites!(self, original row => row.is_for(section, offset))
    }

    /// Where the relocation is that `next_modifier` skips, as [`Relaxation::skipped_offset`](crate::architecture::Relaxation::skipped_offset) says:
    /// that of the call itself, `R_PPC64_REL24` or `R_PPC64_REL24_NOTOC`, at the same offset, which
    /// follows `R_PPC64_TLSGD` or `R_PPC64_TLSLD`.
    #[must_use]
    #[inline]
    pub fn skipped_offset(self) -> Option<u64> {
        rewrites!(self, replacement row => row.skipped)
    }
}

/// Whether a relocation has a type that a `bl` to `__tls_get_addr` has: only such a one may be
/// skipped after a rewrite, where `skipped_offset` says.
#[must_use]
#[inline]
pub fn may_be_skipped(name: Ppc64Relocation) -> bool {
    matches!(
        name,
        Ppc64Relocation::R_PPC64_REL24 | Ppc64Relocation::R_PPC64_REL24_NOTOC
    )
}

impl InstructionRewrite for RewriteKind {
    #[cfg_attr(debug_assertions, track_caller)]
    #[inline]
    fn apply(self, section: &mut [u8], offset: &mut u64, addend: &mut i64) {
        debug_assert!(self.can_apply(section, *offset));
        rewrites!(self, replacement row => {
            row.apply(section, *offset);
            *offset += row.moved;
            *addend = row.addend.unwrap_or(*addend);
        })
    }

    #[inline]
    fn can_apply(self, section: &[u8], offset: u64) -> bool {
        window_is_in(section, offset, self.window())
    }

    #[inline]
    fn window(self) -> RewriteWindow {
        rewrites!(self, replacement row => row.window())
    }

    #[inline]
    fn next_modifier(&self) -> RelocationModifier {
        match self.skipped_offset() {
            Some(_) => RelocationModifier::SkipNextRelocation,
            None => RelocationModifier::Normal,
        }
    }

    #[inline(always)]
    fn is_no_op(self) -> bool {
        matches!(self, RewriteKind::NoOp)
    }
}
