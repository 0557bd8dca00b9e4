// SPDX-License-Identifier: MIT OR Apache-2.0
// Made by tools/generate of crates/linker_utils/src/x86_64/rewrites.rt.
//! Relaxation rewrites of x86-64.

use super::X86_64Relocation;
use crate::rewrite_rows::or;
use crate::linker_base::relaxation::RelocationModifier;
use crate::linker_base::rewrite::{RewriteWindow, overwrite, window_is_in};
use crate::linker_elf::elf::InstructionRewrite;

/// A rewrite of the instructions around a relocated field of 4 or 8 bytes, whose offset is the
/// field's (x86-64 psABI, "Optimize GOTPCRELX Relocations", and "ELF Handling For Thread-Local
/// Storage"). A variant's number is the count of the instruction's bytes before the field: 2
/// without a prefix, 3 with REX, 4 with REX2, 6 with EVEX. With any other number the prefix is
/// unchanged. The offset becomes that of the field afterwards, and the addend 0 where the field
/// becomes absolute or an offset from the thread pointer.
///
/// ```
/// use linker_utils::elf::InstructionRewrite;
/// use linker_utils::x86_64::RewriteKind;
///
/// // jmp *x@GOTPCREL(%rip) becomes jmp x; nop
/// let (mut section, mut offset, mut addend) = ([0xff, 0x25, 0, 0, 0, 0], 2, -4);
/// assert!(RewriteKind::JmpIndirectToRelative.matches(&section, offset));
/// RewriteKind::JmpIndirectToRelative.apply(&mut section, &mut offset, &mut addend);
/// assert_eq!(section, [0xe9, 0, 0, 0, 0, 0x90]);
/// assert_eq!((offset, addend), (1, -4));
/// ```
#[cfg_attr(not(exhaustive), non_exhaustive)]
#[derive(Default, Clone, Copy, PartialEq, Eq, Debug, Hash, PartialOrd, Ord)]
pub enum RewriteKind {
    /// Turns `mov x@GOTPCREL(%rip), %reg` into `lea x(%rip), %reg`.
    MovIndirectToLea,
    /// Turns `mov x@GOTPCREL(%rip), %reg` into `mov $x, %reg`, where no prefix names the register.
    MovIndirectToAbsolute,
    /// Turns `mov x@GOTPCREL(%rip), %reg` into `mov $x, %reg`.
    RexMovIndirectToAbsolute(u8),
    /// Turns `add x@GOTPCREL(%rip), %reg` into `add $x, %reg`.
    RexAddIndirectToAbsolute(u8),
    /// Turns `sub x@GOTPCREL(%rip), %reg` into `sub $x, %reg`.
    RexSubIndirectToAbsolute(u8),
    /// Turns `cmp x@GOTPCREL(%rip), %reg` into `cmp $x, %reg`.
    RexCmpIndirectToAbsolute(u8),
    /// Turns `call *x@GOTPCREL(%rip)` into `addr32 call x`.
    CallIndirectToRelative,
    /// Turns `jmp *x@GOTPCREL(%rip)` into `jmp x; nop`. The offset becomes 1 less.
    JmpIndirectToRelative,
    /// Leaves the instruction as it is; only the kind of its relocation changes.
    #[default]
    NoOp,
    /// Turns a general-dynamic TLS sequence into a local-exec one.
    TlsGdToLocalExec,
    /// Turns the large code model's general-dynamic TLS sequence into a local-exec one.
    TlsGdToLocalExecLarge,
    /// Turns a local-dynamic TLS sequence into a local-exec one.
    TlsLdToLocalExec,
    /// Turns a local-dynamic TLS sequence whose call goes through the GOT into a local-exec one.
    TlsLdToLocalExecNoPlt,
    /// Turns the large code model's local-dynamic TLS sequence into a local-exec one.
    TlsLdToLocalExec64,
    /// Turns a general-dynamic TLS sequence into an initial-exec one.
    TlsGdToInitialExec,
    /// Turns the `lea` of a TLS descriptor into `mov $x, %reg`.
    TlsDescToLocalExec(u8),
    /// Turns the `lea` of a TLS descriptor into `mov x@GOTTPOFF(%rip), %reg`.
    TlsDescToInitialExec,
    /// Turns the call through a TLS descriptor into a `nop` of two bytes.
    SkipTlsDescCall,
    /// Turns `adc x@GOTPCREL(%rip), %reg` into `adc $x, %reg`.
    RexAdcIndirectToAbsolute(u8),
    /// Turns `and x@GOTPCREL(%rip), %reg` into `and $x, %reg`.
    RexAndIndirectToAbsolute(u8),
    /// Turns `or x@GOTPCREL(%rip), %reg` into `or $x, %reg`.
    RexOrIndirectToAbsolute(u8),
    /// Turns `sbb x@GOTPCREL(%rip), %reg` into `sbb $x, %reg`.
    RexSbbIndirectToAbsolute(u8),
    /// Turns `xor x@GOTPCREL(%rip), %reg` into `xor $x, %reg`.
    RexXorIndirectToAbsolute(u8),
    /// Turns `test %reg, x@GOTPCREL(%rip)` into `test $x, %reg`.
    RexTestIndirectToAbsolute(u8),
}

/// The prefix byte after the register moves from the reg field to the rm field: R moves to B.
#[inline(always)]
fn moved_prefix(n: u8, byte: u8) -> u8 {
    match n {
        3 => byte & !0x04 | (byte & 0x04) >> 2,
        4 => byte & !0x44 | (byte & 0x44) >> 2,
        _ => byte,
    }
}

/// The EVEX byte after the register moves from the reg field to the rm field.
#[inline(always)]
fn moved_evex(byte: u8) -> u8 {
    let high = if byte & 0x80 == 0 {
        (byte | 0x80) & !0x20
    } else {
        byte
    };
    if byte & 0x10 == 0 { high | 0x18 } else { high }
}

/// A ModRM byte whose rm field is the reg field of `byte`, and whose other bits are `others`.
#[inline(always)]
fn moved_modrm(others: u8, byte: u8) -> u8 {
    others + (byte >> 3 & 7)
}

/// Rewrites a prefix byte, an opcode and a ModRM byte.
#[inline(always)]
fn put_prefixed(section: &mut [u8], offset: u64, n: u8, opcode: u8, others: u8) {
    let start = (offset - 3) as usize;
    let front = moved_prefix(n, section[start]);
    let last = moved_modrm(others, section[start + 2]);
    overwrite(section, offset - 3, &[front, opcode, last]);
}

/// Rewrites an operation, with any prefix or none, to take an immediate.
#[inline(always)]
fn put_immediate(section: &mut [u8], offset: u64, n: u8, opcode: u8, others: u8) {
    match n {
        3 => put_prefixed(section, offset, 3, opcode, others),
        4 => put_prefixed(section, offset, 4, opcode, others),
        6 => {
            let start = (offset - 5) as usize;
            let front = moved_evex(section[start]);
            let (second, third) = (section[start + 1], section[start + 2]);
            let last = moved_modrm(others, section[start + 4]);
            overwrite(section, offset - 5, &[front, second, third, opcode, last]);
        }
        _ => {
            let last = moved_modrm(others, section[(offset - 1) as usize]);
            overwrite(section, offset - 2, &[opcode, last]);
        }
    }
}

/// The same, as a call of its own. With `put_immediate` inlined for each operation the kit's
/// compiler doesn't inline `rewrite`, which is then too large.
#[inline]
fn call_put_immediate(section: &mut [u8], offset: u64, n: u8, opcode: u8, others: u8) {
    put_immediate(section, offset, n, opcode, others);
}

/// The masks and values of an instruction's bytes. Each word is that of the definition. With
/// `operand` a ModRM byte, of an address relative to the instruction pointer, and a field follow.
macro_rules! pattern {
    (operand $($byte:tt)*) => { pattern!($($byte)* rip any any any any) };
    ($($byte:tt)*) => { [$(pattern_byte!($byte)),*] };
}

macro_rules! pattern_byte {
    (any) => { (0, 0) };
    (rip) => { (0xc7, 0x05) };
    (rex) => { (0xf3, 0x40) };
    (rex_w) => { (0xfb, 0x48) };
    (rex2) => { (0xb3, 0x00) };
    (rex2_w) => { (0xbb, 0x08) };
    (evex_registers) => { (0x6f, 0x64) };
    (evex_any_v) => { (0x07, 0x04) };
    (evex_no_v) => { (0x7f, 0x7c) };
    ((evex_new_destination $fixed:ident)) => { (0xf3 | $fixed, 0x10) };
    ((evex_same_destination $fixed:ident)) => { (0xfb | $fixed, 0x08) };
    ($value:expr) => { (0xff, $value) };
}

const GENERAL_DYNAMIC: [(u8, u8); 16] = pattern!(
    0x66 0x48 0x8d 0x3d any any any any 0x66 0x66 0x48 0xe8 any any any any
);

const GENERAL_DYNAMIC_BY_GOT: [(u8, u8); 16] = pattern!(
    0x66 0x48 0x8d 0x3d any any any any 0x66 0x48 0xff 0x15 any any any any
);

const LARGE_BY_RBX: [(u8, u8); 22] = pattern!(
    0x48 0x8d 0x3d any any any any 0x48 0xb8 any any any any any any any any 0x48 0x01 0xd8
    0xff 0xd0
);

const LARGE_BY_R15: [(u8, u8); 22] = pattern!(
    0x48 0x8d 0x3d any any any any 0x48 0xb8 any any any any any any any any 0x4c 0x01 0xf8
    0xff 0xd0
);

/// Whether bytes begin with an instruction or a sequence.
#[inline(always)]
fn begins(bytes: &[u8], pattern: &[(u8, u8)]) -> bool {
    if bytes.len() < pattern.len() {
        return false;
    }
    for index in 0..pattern.len() {
        let (mask, value) = pattern[index];
        if bytes[index] & mask != value {
            return false;
        }
    }
    true
}

/// Whether an instruction or a sequence with `back` bytes before the field is in the section, and
/// the field is at the offset.
#[inline(always)]
fn is_original(section: &[u8], offset: u64, back: u64, pattern: &[(u8, u8)]) -> bool {
    if offset < back || (section.len() as u64) < offset - back {
        return false;
    }
    begins(&section[(offset - back) as usize..], pattern)
}

/// Whether one of two is there.
#[inline(always)]
fn is_either(
    section: &[u8],
    offset: u64,
    back: u64,
    first: &[(u8, u8)],
    second: &[(u8, u8)],
) -> bool {
    is_original(section, offset, back, first) || is_original(section, offset, back, second)
}

/// Whether an instruction with an operand relative to the instruction pointer is there, with `n`
/// bytes before the field: no prefix, REX or REX2.
#[inline(always)]
pub(super) fn is_legacy(section: &[u8], offset: u64, n: u8, opcode: u8) -> bool {
    match n {
        2 => is_original(section, offset, 2, &pattern!(operand opcode)),
        3 => is_original(section, offset, 3, &pattern!(operand rex opcode)),
        4 => is_original(section, offset, 4, &pattern!(operand 0xd5 rex2 opcode)),
        _ => false,
    }
}

/// The same, or with EVEX, whose bits `fixed` are 0.
#[inline(always)]
fn is_legacy_or_evex(section: &[u8], offset: u64, n: u8, fixed: u8, opcode: u8) -> bool {
    if n != 6 {
        return is_legacy(section, offset, n, opcode);
    }
    is_either(
        section,
        offset,
        6,
        &pattern!(operand 0x62 evex_registers evex_any_v (evex_new_destination fixed) opcode),
        &pattern!(operand 0x62 evex_registers evex_no_v (evex_same_destination fixed) opcode),
    )
}

/// Whether the `lea` of a TLS descriptor is there.
#[inline(always)]
pub(super) fn is_lea_of_descriptor(section: &[u8], offset: u64, n: u8) -> bool {
    match n {
        3 => is_original(section, offset, 3, &pattern!(operand rex_w 0x8d)),
        4 => is_original(section, offset, 4, &pattern!(operand 0xd5 rex2_w 0x8d)),
        _ => false,
    }
}

/// Makes an edit. LLVM knows that the section doesn't overlap a local array, and writes its bytes
/// by a few stores.
macro_rules! edit {
    ($section:ident, $offset:expr;) => {};
    ($section:ident, $offset:expr; put $back:literal $bytes:tt) => {
        let bytes = $bytes;
        overwrite($section, $offset - $back, &bytes);
    };
    ($section:ident, $offset:expr; $put:ident $($of:tt)*) => { $put($section, $offset, $($of),*); };
}

/// How many bytes before the field the first one is that an edit writes, and how many it writes.
macro_rules! window {
    () => { (0, 0) };
    (put $back:literal $bytes:tt) => { ($back, $bytes.len() as u64) };
    (put_prefixed $($of:tt)*) => { (3, 3) };
    ($put_immediate:ident $n:tt $($of:tt)*) => {
        match $n {
            3 | 4 => (3, 3),
            6 => (5, 5),
            _ => (2, 2),
        }
    };
}

/// Whether what a rewrite is for is there: bytes of which n are before the field, one of two
/// sequences, an instruction that a function tests, or anything.
macro_rules! is_there {
    ($section:ident, $offset:ident;) => { true };
    ($section:ident, $offset:ident; $back:literal $($byte:tt)*) => {
        is_original($section, $offset, $back, &pattern!($($byte)*))
    };
    ($section:ident, $offset:ident; $first:ident or $second:ident after $back:literal) => {
        is_either($section, $offset, $back, &$first, &$second)
    };
    ($section:ident, $offset:ident; $test:ident $first:literal or $second:literal) => {
        $test($section, $offset, $first) || $test($section, $offset, $second)
    };
    ($section:ident, $offset:ident; $is:ident $($of:tt)*) => { $is($section, $offset, $($of),*) };
}

/// What a row says, by the name of what is asked. A row has the rewrite's number, what it is for,
/// and its edit; then the addend after, how far the offset moves on or back, and how many bytes
/// after the offset the relocation is that is skipped, where there are such.
macro_rules! of_row {
    ([number] $n:expr, $number:literal $($row:tt)*) => { ($number, $n) };
    ([is $section:ident $offset:ident] $n:expr, $number:literal [$($is:tt)*] $($row:tt)*) => {
        is_there!($section, $offset; $($is)*)
    };
    ([window] $n:expr, $number:literal $is:tt [$($edit:tt)*] $($row:tt)*) => { window!($($edit)*) };
    (
        $asked:tt $n:expr, $number:literal $is:tt [$($edit:tt)*] $(addend $addend:literal)?
        $(on $on:literal)? $(back $back:literal)? $(skip $skip:literal)?
    ) => {
        after!($asked [$($edit)*] [$($addend)?] [$($on)?] [$($back)?] [$($skip)?])
    };
}

/// What a row says of its edit, and of what is after it.
macro_rules! after {
    ([skip] $edit:tt $new:tt $on:tt $back:tt [$($skip:literal)?]) => { or!(None; $(Some($skip))?) };
    (
        [edit $section:ident $offset:ident $addend:ident] [$($edit:tt)*]
        [$($new:literal)?] [$($on:literal)?] [$($back:literal)?] $skip:tt
    ) => {{
        edit!($section, *$offset; $($edit)*);
        $(*$addend = $new;)?
        $(*$offset += $on;)?
        $(*$offset -= $back;)?
    }};
    (
        [after $offset:ident $addend:expr] $edit:tt
        [$($new:literal)?] [$($on:literal)?] [$($back:literal)?] $skip:tt
    ) => {
        ($offset$(.wrapping_add($on))?$(.saturating_sub($back))?, or!($addend; $($new)?))
    };
}

/// A match over the rewrites or their numbers.
macro_rules! by_row {
    (
        kinds $value:expr, $len:expr;
        $($kind:ident$(($n:ident))? { $number:literal $($row:tt)* })*
    ) => {
        match $value {
            $($number => {
                $(let $n = $len;)?
                RewriteKind::$kind$(($n))?
            })*
            _ => return None,
        }
    };
    ($value:expr => $asked:tt; $($kind:ident$(($n:ident))? { $($row:tt)* })*) => {
        match $value {
            $(RewriteKind::$kind$(($n))? => {
                $(let _ = $n;)?
                of_row!($asked or!(0; $($n)?), $($row)*)
            })*
        }
    };
}

pub(super) use after;
pub(super) use by_row;
pub(super) use of_row;

/// The rewrites. Opcode 0x81 and a ModRM byte are an operation on an immediate, 0xc7 `mov` and 0xf7
/// `test` of one.
macro_rules! rewrites {
    ($($use:tt)*) => {
        by_row! { $($use)*;
            MovIndirectToLea { 0 [is_legacy 2 0x8b] [put 2 [0x8d]] }
            MovIndirectToAbsolute { 1 [is_legacy 2 0x8b] [put_immediate 2 0xc7 0xc0] addend 0 }
            RexMovIndirectToAbsolute(n) { 2 [is_legacy n 0x8b] [put_prefixed n 0xc7 0xc0] addend 0 }
            RexAddIndirectToAbsolute(n) { 3 [is_legacy_or_evex n 0 0x03] [put_immediate n 0x81 0xc0]
                addend 0 }
            RexSubIndirectToAbsolute(n) { 4 [is_legacy n 0x2b] [put_prefixed n 0x81 0xe8] addend 0 }
            RexCmpIndirectToAbsolute(n) { 5 [is_legacy n 0x3b] [put_prefixed n 0x81 0xf8] addend 0 }
            CallIndirectToRelative { 6 [2 0xff 0x15 any any any any] [put 2 [0x67, 0xe8]] }
            JmpIndirectToRelative { 7 [2 0xff 0x25 any any any any]
                [put 2 [0xe9, 0, 0, 0, 0, 0x90]] back 1 }
            NoOp { 8 [] [] }
            // `mov %fs:0, %rax; lea x(%rax), %rax`, before its field
            TlsGdToLocalExec { 9 [GENERAL_DYNAMIC or GENERAL_DYNAMIC_BY_GOT after 4]
                [put 4 [0x64, 0x48, 0x8b, 0x04, 0x25, 0, 0, 0, 0, 0x48, 0x8d, 0x80]]
                addend 0 on 8 skip 8 }
            // the same, its field, and `nopw (%rax,%rax)`
            TlsGdToLocalExecLarge { 10 [LARGE_BY_RBX or LARGE_BY_R15 after 3]
                [put 3 [
                    0x64, 0x48, 0x8b, 0x04, 0x25, 0, 0, 0, 0, 0x48, 0x8d, 0x80, 0, 0, 0, 0, 0x66,
                    0x0f, 0x1f, 0x44, 0, 0
                ]] addend 0 on 9 skip 6 }
            // `mov %fs:0, %rax`, with prefixes that do nothing
            TlsLdToLocalExec { 11
                [3 0x48 0x8d 0x3d any any any any 0xe8 any any any any]
                [put 3 [0x66, 0x66, 0x66, 0x64, 0x48, 0x8b, 0x04, 0x25, 0, 0, 0, 0]] on 5 skip 5 }
            TlsLdToLocalExecNoPlt { 12
                [3 0x48 0x8d 0x3d any any any any 0xff 0x15 any any any any]
                [put 3 [0x66, 0x66, 0x66, 0x66, 0x64, 0x48, 0x8b, 0x04, 0x25, 0, 0, 0, 0]]
                on 5 skip 6 }
            // `nopw %cs:(%rax,%rax)` before it
            TlsLdToLocalExec64 { 13 [LARGE_BY_RBX or LARGE_BY_R15 after 3]
                [put 3 [
                    0x66, 0x66, 0x66, 0x66, 0x2e, 0x0f, 0x1f, 0x84, 0, 0, 0, 0, 0, 0x64, 0x48, 0x8b,
                    0x04, 0x25, 0, 0, 0, 0
                ]] on 15 skip 6 }
            // `mov %fs:0, %rax; add x@GOTTPOFF(%rip), %rax`, before its field
            TlsGdToInitialExec { 14 [GENERAL_DYNAMIC or GENERAL_DYNAMIC_BY_GOT after 4]
                [put 4 [0x64, 0x48, 0x8b, 0x04, 0x25, 0, 0, 0, 0, 0x48, 0x03, 0x05]] on 8 skip 8 }
            TlsDescToLocalExec(n) { 15 [is_lea_of_descriptor n] [put_prefixed n 0xc7 0xc0]
                addend 0 }
            TlsDescToInitialExec { 16 [is_lea_of_descriptor 3 or 4] [put 2 [0x8b]] }
            SkipTlsDescCall { 17 [0 0xff 0x10] [put 0 [0x66, 0x90]] }
            RexAdcIndirectToAbsolute(n) { 18 [is_legacy_or_evex n 4 0x13]
                [call_put_immediate n 0x81 0xd0] addend 0 }
            RexAndIndirectToAbsolute(n) { 19 [is_legacy_or_evex n 0 0x23]
                [call_put_immediate n 0x81 0xe0] addend 0 }
            RexOrIndirectToAbsolute(n) { 20 [is_legacy_or_evex n 0 0x0b]
                [call_put_immediate n 0x81 0xc8] addend 0 }
            RexSbbIndirectToAbsolute(n) { 21 [is_legacy_or_evex n 4 0x1b]
                [call_put_immediate n 0x81 0xd8] addend 0 }
            RexXorIndirectToAbsolute(n) { 22 [is_legacy_or_evex n 0 0x33]
                [call_put_immediate n 0x81 0xf0] addend 0 }
            RexTestIndirectToAbsolute(n) { 23 [is_legacy n 0x85] [call_put_immediate n 0xf7 0xc0]
                addend 0 }
        }
    };
}

pub(super) use rewrites;

impl RewriteKind {
    /// The rewrite with a number, its place in the enum. None above the last. The rewrites that
    /// have a number of bytes before the field take `opcode_len`.
    #[must_use]
    #[inline(always)]
    pub fn from_number(number: u32, opcode_len: u8) -> Option<RewriteKind> {
        Some(rewrites!(kinds number, opcode_len))
    }

    /// The rewrite's number and its count of bytes before the field, which `from_number` takes. The
    /// count is 0 where the variant has none.
    #[must_use]
    #[inline]
    pub fn number(self) -> (u32, u8) {
        rewrites!(self => [number])
    }

    #[inline(always)]
    fn rewrite(self, section: &mut [u8], offset_in_section: &mut u64, addend: &mut i64) {
        rewrites!(self => [edit section offset_in_section addend])
    }

    /// The bytes that `apply` writes; none for `NoOp`. The field whose value is written afterwards
    /// lies after them, as the last 4 of the 16 bytes of a general-dynamic sequence; but
    /// `JmpIndirectToRelative` and `TlsGdToLocalExecLarge` write 0 to their field.
    #[inline(always)]
    #[must_use]
    pub fn window(self) -> RewriteWindow {
        let (back, len) = rewrites!(self => [window]);
        RewriteWindow { back, len }
    }

    /// Whether the instruction or the sequence at an offset is one that the rewrite is for.
    #[inline(always)]
    pub(super) fn is_for(self, section: &[u8], offset: u64) -> bool {
        rewrites!(self => [is section offset])
    }

    /// Whether `apply` may be called at an offset of a section, and the bytes there are an
    /// instruction or a whole sequence that the rewrite is for: its prefix, opcode, ModRM byte and
    /// registers, around fields of any value. A number of bytes before the field for which there is
    /// no such instruction matches nothing, and `NoOp` matches any bytes.
    ///
    /// Bytes before the instruction are not tested: `MovIndirectToLea` takes any prefix, which
    /// stays, and for the others the relocation's type says where the instruction begins. With a
    /// prefix 0x66 for operands of 16 bits assemblers write `R_X86_64_GOTPCREL`, which no rewrite
    /// is for.
    #[must_use]
    pub fn matches(self, section: &[u8], offset: u64) -> bool {
        self.can_apply(section, offset) && self.is_for(section, offset)
    }

    /// Where the relocation is that `next_modifier` skips, as [`Relaxation::skipped_offset`](crate::architecture::Relaxation::skipped_offset) says:
    /// that of the sequence's call, whose field of 4 bytes, or of 8 in a `movabs`, is there.
    /// Without one the next relocation may be that of another call.
    #[must_use]
    #[inline]
    pub fn skipped_offset(self) -> Option<u64> {
        rewrites!(self => [skip])
    }
}

/// Whether a relocation has a type that the call of `__tls_get_addr` has in a sequence of
/// general-dynamic or local-dynamic TLS: only such a one may be skipped after a rewrite, where
/// `skipped_offset` says.
#[must_use]
#[inline]
pub fn may_be_skipped(name: X86_64Relocation) -> bool {
    matches!(
        name,
        X86_64Relocation::R_X86_64_PLT32
            | X86_64Relocation::R_X86_64_PC32
            | X86_64Relocation::R_X86_64_GOTPCREL
            | X86_64Relocation::R_X86_64_GOTPCRELX
            | X86_64Relocation::R_X86_64_PLTOFF64
    )
}

impl InstructionRewrite for RewriteKind {
    // `RexMovIndirectToAbsolute(3)` keeps the register that `mov` names, if bit 0 of the REX byte
    // was clear
    #[cfg_attr(debug_assertions, track_caller)]
    #[inline(always)]
    fn apply(self, section: &mut [u8], offset: &mut u64, addend: &mut i64) {
        debug_assert!(self.can_apply(section, *offset));
        self.rewrite(section, offset, addend);
    }

    #[inline(always)]
    fn can_apply(self, section: &[u8], offset: u64) -> bool {
        window_is_in(section, offset, self.window())
    }

    #[inline]
    fn window(self) -> RewriteWindow {
        RewriteKind::window(self)
    }

    #[inline]
    fn next_modifier(&self) -> RelocationModifier {
        match self.skipped_offset() {
            Some(_) => RelocationModifier::SkipNextRelocation,
            None => RelocationModifier::Normal,
        }
    }

    #[inline(always)]
    fn is_no_op(self) -> bool {
        matches!(self, RewriteKind::NoOp)
    }
}
