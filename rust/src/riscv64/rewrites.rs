// SPDX-License-Identifier: MIT OR Apache-2.0
// Made by tools/generate of crates/linker_utils/src/riscv64/rewrites.rt.
//! RISC-V: relaxation rewrites.

use crate::rewrite_rows::WordTest::{AddsLow12, AreSame, Is, IsNot};
use crate::rewrite_rows::{bits, by_row};
use crate::linker_base::relaxation::RelocationModifier;
use crate::linker_base::rewrite::{DeletedBytes, RewriteWindow, window_is_in};
use crate::linker_elf::elf::InstructionRewrite;
use crate::linker_elf::riscv64::RiscVRelocation;

/// A rewrite of one instruction, or of a pair whose second instruction is then deleted.
#[cfg_attr(not(exhaustive), non_exhaustive)]
#[derive(Default, Clone, Copy, PartialEq, Eq, Debug, Hash, PartialOrd, Ord)]
pub enum RewriteKind {
    /// Leaves the instruction as it is; only the kind of its relocation changes.
    #[default]
    NoOp,
    /// Writes two `c.nop` in place of four bytes. Requires the C extension.
    ReplaceWithNop,
    /// Turns the `auipc` of an `auipc` and `jalr` pair into a `jal` of distance 0 with the
    /// `auipc`'s destination register (RISC-V ELF psABI, "Function Call Relaxation"). The caller
    /// deletes the `jalr` after it. If the `jalr` links another register than the `auipc`'s, as in
    /// `tail f`, that is not the call's jump: `matches` is the test.
    CallToJal,
    /// Turns the first two bytes of a `lui` into a `c.lui` of immediate 0 with the `lui`'s
    /// destination register. The caller deletes the two bytes after it.
    Hi20ToCLui,
    /// Leaves a `lui` whose immediate is 0 as it is; the caller deletes it.
    Hi20Delete,
    /// Clears bits 15 to 19: the source register of the instruction that adds the low part becomes
    /// x0.
    Lo12Rs1ToZero,
    /// Turns the `auipc` of a tail call, whose `jalr` links no register, into a `jal x0` of
    /// distance 0. The caller deletes the `jalr` after it.
    TailToJal,
    /// Turns the first two bytes of a tail call into a `c.j` of distance 0. Requires the C
    /// extension. The caller deletes the six bytes after it.
    TailToCJ,
    /// Leaves the instruction as it is; the caller deletes its four bytes.
    Delete,
    /// Writes one nop of four bytes, `addi x0, x0, 0`, in place of an instruction.
    ReplaceWithLongNop,
    /// Makes x4, the thread pointer, the source register of the instruction that adds the low part
    /// of an offset: bits 15 to 19.
    BaseToTp,
    /// Turns the `addi a0` of a TLS descriptor into `lui a0` of 0 (RISC-V ELF psABI, "TLS
    /// Descriptors -> Local Exec Relaxation").
    AddiToLui,
    /// Turns it into `auipc a0` of 0 ("TLS Descriptors -> Initial Exec Relaxation").
    AddiToAuipc,
    /// Turns the `jalr t0` of a TLS descriptor into `addi a0, a0, 0`.
    CallToAddi,
    /// Turns it into `addi a0, x0, 0`.
    CallToAddiZero,
    /// Turns it into `ld a0, 0(a0)`.
    CallToLd,
    /// Turns `ld` into `addi`, with both of its registers and its immediate.
    LdToAddi,
    /// Turns `c.lui` into `c.li` of 0, with its destination register: the ISA
    /// reserves the immediate 0 of `c.lui`, which a high part of 0 would need
    /// ("Integer Constant-Generation Instructions").
    CLuiToCLi,
    /// Turns `auipc` into `lui` of 0, with its destination register.
    AuipcToLui,
    /// Turns `ld` into `addi` of 0 and x0, with its destination register.
    LdToAddiZero,
    /// Turns the first two bytes of a call whose `jalr` links x1 into a `c.jal` of distance 0.
    /// Requires RV32 and the C extension: code of RV64 has `c.addiw` of these bits. The caller
    /// deletes the six bytes after it.
    CallToCJal,
}

/// A test of the instruction at a place: its opcode and function, and its registers (RISC-V
/// unprivileged ISA, "Base Instruction Formats").
macro_rules! test {
    ($at:expr, opcode $number:literal) => { Is(bits!($at, 0, 0x7f), $number) };
    ($at:expr, lui) => { test!($at, opcode 0x37) };
    ($at:expr, auipc) => { test!($at, opcode 0x17) };
    // the lowest two bits, and the function, of an instruction of 2 bytes
    ($at:expr, quadrant $number:literal) => { Is(bits!($at, 0, 0x3), $number) };
    ($at:expr, function_of_half $number:literal) => { Is(bits!($at, 13, 0x7), $number) };
    ($at:expr, function $number:literal) => { Is(bits!($at, 12, 0x7), $number) };
    ($at:expr, into $register:literal) => { Is(bits!($at, 7, 0x1f), $register) };
    ($at:expr, not_into $register:literal) => { IsNot(bits!($at, 7, 0x1f), $register) };
    ($at:expr, into_first) => { AreSame(bits!($at, 7, 0x1f), bits!(0, 7, 0x1f)) };
    ($at:expr, from_first) => { AreSame(bits!($at, 15, 0x1f), bits!(0, 7, 0x1f)) };
    // an immediate, or a register and a further function
    ($at:expr, upper $number:literal) => { Is(bits!($at, 20, 0xfff), $number) };
    ($at:expr, adds_low12) => { AddsLow12 };
    // no `sb`, `sh`, `sw` or `sd` of its own base
    ($at:expr, stores_other) => {
        DifferWhere(bits!($at, 0, 0x7f), 0x23, 0x23, bits!($at, 20, 0x1f), bits!($at, 15, 0x1f))
    };
}

/// Tests, each of the first instruction or of the one n bytes after it.
macro_rules! tests {
    // `auipc`, and `jalr` from its register
    (call $($links:tt)*) => {
        tests![
            auipc, opcode 0x67 at 4, function 0 at 4, from_first at 4, $($links)* at 4, not_into 0
        ]
    };
    (ld) => { tests![opcode 0x03, function 3] };
    (add_tp) => { tests![opcode 0x33, function 0, upper 4] };
    (addi_a0) => { tests![opcode 0x13, function 0, into 10] };
    // `jalr t0, 0(rs1)`, which calls the function of a TLS descriptor
    (jalr_t0) => { tests![opcode 0x67, function 0, into 5, upper 0] };
    (c_lui) => { tests![quadrant 1, function_of_half 3, not_into 0, not_into 2] };
    ($($test:ident $($number:literal)? $(at $at:literal)?),*) => {
        [$(test!($crate::rewrite_rows::or!(0; $($at)?), $test $($number)?)),*]
    };
}

pub(super) use test;
pub(super) use tests;

/// The rewrites. Bits 7 to 11 are the destination register, and 15 to 19 the first source register.
macro_rules! rewrites {
    ($($use:tt)*) => {
        by_row! { tests, $($use)*;
            NoOp { 0 [] }
            ReplaceWithNop { 4 [] keep 0 set 0x0001_0001 }
            CallToJal { 8 [call into_first] keep 0xf80 set 0x6f delete 4 skip 0 }
            Hi20ToCLui { 4 [lui, not_into 0, not_into 2]
                keep 0xf80 set 0x6001 half true delete 2 count 2 }
            Hi20Delete { 4 [lui] delete 0 skip 0 }
            Lo12Rs1ToZero { 4 [adds_low12] keep 0xfff0_7fff set 0 }
            TailToJal { 8 [call into 0] keep 0 set 0x6f delete 4 skip 0 }
            TailToCJ { 8 [call into 0] keep 0 set 0xa001 half true delete 2 count 6 skip 0 }
            Delete { 4 [] delete 0 }
            ReplaceWithLongNop { 4 [] keep 0 set 0x13 }
            BaseToTp { 4 [adds_low12] keep 0xfff0_7fff set 0x0002_0000 }
            AddiToLui { 4 [addi_a0] keep 0 set 0x537 }
            AddiToAuipc { 4 [addi_a0] keep 0 set 0x517 }
            CallToAddi { 4 [jalr_t0] keep 0 set 0x0005_0513 }
            CallToAddiZero { 4 [jalr_t0] keep 0 set 0x513 }
            CallToLd { 4 [jalr_t0] keep 0 set 0x0005_3503 }
            LdToAddi { 4 [ld] keep 0xffff_8f80 set 0x13 }
            CLuiToCLi { 2 [c_lui] keep 0xf80 set 0x4001 half true }
            AuipcToLui { 4 [auipc] keep 0xf80 set 0x37 }
            LdToAddiZero { 4 [ld] keep 0xf80 set 0x13 }
            CallToCJal { 8 [call into 1] keep 0 set 0x2001 half true delete 2 count 6 skip 0 }
        }
    };
}

impl RewriteKind {
    /// The rewrite with a number, its place in the enum. None above the last.
    #[must_use]
    #[inline(always)]
    pub fn from_number(number: u32) -> Option<RewriteKind> {
        rewrites!(numbered number)
    }

    /// The rewrite's number, which `from_number` takes.
    #[must_use]
    #[inline(always)]
    pub fn number(self) -> u32 {
        self as u32
    }

    /// Whether the instruction that begins at an offset of a section, or the pair, is one that the
    /// rewrite is meant for: `can_apply`, and the opcodes and registers. `NoOp` is meant for any
    /// offset, and `ReplaceWithNop`, `ReplaceWithLongNop` and `Delete` for any four bytes of the
    /// section. `Lo12Rs1ToZero` and `BaseToTp` are meant for `addi`, `addiw`, `jalr`, loads and
    /// stores, which add the low part, `LdToAddi` and `LdToAddiZero` for `ld`, and `AuipcToLui` for
    /// `auipc`. The instructions of a TLS descriptor are `addi a0, rs1` and `jalr t0, 0(rs1)`.
    /// `CLuiToCLi` needs only two bytes.
    #[inline]
    #[must_use]
    pub fn matches(self, section: &[u8], offset: u64) -> bool {
        rewrites!(self, original row => row.is_for(section, offset))
    }

    /// Where the relocation is that `next_modifier` skips, as [`Relaxation::skipped_offset`](crate::architecture::Relaxation::skipped_offset) says:
    /// the `R_RISCV_RELAX` at the same offset.
    #[must_use]
    #[inline]
    pub fn skipped_offset(self) -> Option<u64> {
        rewrites!(self, replacement row => row.skipped)
    }

    /// The bytes to be deleted after the rewrite. `None` where there are none: only `CallToJal`,
    /// `CallToCJal`, `TailToJal`, `TailToCJ`, `Hi20ToCLui`, `Hi20Delete` and `Delete` have some.
    ///
    /// ```
    /// use linker_utils::riscv64::RewriteKind;
    ///
    /// // the deletion of the jalr of a call at offset 8
    /// let deleted = RewriteKind::CallToJal.deleted().unwrap();
    /// assert_eq!((8 + deleted.start, deleted.count), (12, 4));
    /// ```
    #[must_use]
    #[inline]
    pub fn deleted(self) -> Option<DeletedBytes> {
        rewrites!(self, replacement row => row.deleted)
    }
}

/// Whether a relocation is the mark `R_RISCV_RELAX`: only it is skipped after a rewrite, where
/// `skipped_offset` says.
#[must_use]
#[inline]
pub fn may_be_skipped(name: RiscVRelocation) -> bool {
    matches!(name, RiscVRelocation::R_RISCV_RELAX)
}

impl InstructionRewrite for RewriteKind {
    #[inline]
    #[cfg_attr(debug_assertions, track_caller)]
    fn apply(self, section: &mut [u8], offset: &mut u64, _addend: &mut i64) {
        debug_assert!(self.can_apply(section, *offset));
        rewrites!(self, replacement row => row.apply(section, *offset))
    }

    #[inline(always)]
    fn can_apply(self, section: &[u8], offset: u64) -> bool {
        window_is_in(section, offset, self.window())
    }

    #[inline(always)]
    fn window(self) -> RewriteWindow {
        rewrites!(self, replacement row => row.window())
    }

    #[inline]
    fn next_modifier(&self) -> RelocationModifier {
        match self.skipped_offset() {
            Some(_) => RelocationModifier::SkipNextRelocation,
            None => RelocationModifier::Normal,
        }
    }

    #[inline(always)]
    fn is_no_op(self) -> bool {
        matches!(self, RewriteKind::NoOp)
    }
}
