// SPDX-License-Identifier: MIT OR Apache-2.0
// Made by tools/generate of crates/linker_reading/src/recognise/fields.rt.
//! The bits of a relocation's field, and bytes that differ in such bits only.

use crate::linker_base::utils::u32_from_slice;
use crate::linker_elf::elf::{RelocateError, RelocationKind, Row, RowSize};

/// Some of the bits of the eight bytes from an offset of a window on.
#[repr(C)]
#[derive(Clone, Copy, Debug, PartialEq, Eq, Hash)]
pub struct FieldBits {
    /// The offset in bytes.
    pub offset: u64,
    /// Bit 0 is the lowest of the byte at the offset, bit 8 that of the next byte.
    pub bits: u64,
}

/// The lowest bits of a number of n bytes, of at most 8.
#[inline(always)]
fn bits_of_bytes(len: usize) -> u64 {
    if len < 8 {
        (1 << (8 * len)) - 1
    } else {
        u64::MAX
    }
}

/// The bits that a write of a row may change in the number that its whole bytes make.
#[inline(always)]
fn number_bits(kind: RelocationKind, len: usize) -> u64 {
    let bits = bits_of_bytes(len);
    match kind {
        RelocationKind::AbsoluteSetWord6
        | RelocationKind::AbsoluteAdditionWord6
        | RelocationKind::AbsoluteSubtractionWord6 => bits & 0x3f,
        _ => bits,
    }
}

/// Which bits of the bytes that `bytes` begins with a write of a row may change, bit 0 the lowest
/// of the first byte. Of an instruction these are the bits of its form, and for `Movnz` those of
/// the opcode that it sets, except at a MOVK; at a `jirl` at `R_LARCH_PCALA_LO12` they are all 16
/// of its immediate. All other bits are the same after each write. Requires the row's window.
///
/// ```
/// use linker_utils::recognise::field_bits;
/// use linker_utils::x86_64::{X86_64Relocation, row};
///
/// let row = row(X86_64Relocation::R_X86_64_PLT32).unwrap();
/// assert_eq!(field_bits(&row, &[0; 4]), 0xffff_ffff);
/// ```
///
/// # Requires
///
/// - `row.window() <= bytes.len()`
#[must_use]
#[cfg_attr(debug_assertions, track_caller)]
pub fn field_bits(row: &Row, bytes: &[u8]) -> u64 {
    debug_assert!(row.window() <= bytes.len());
    let info = row.info();
    match info.size {
        RowSize::ByteSize(len) => number_bits(info.kind, len as usize),
        RowSize::BitMasking { range, insn } => {
            let placed = insn.placed_bits(info.kind, range, bytes);
            insn.written_at(range, bytes).field_mask(placed, bytes)
        }
    }
}

impl FieldBits {
    /// The bits that a write of a row at an offset of a window may change. The window is the whole
    /// one, from its first byte on, and not what begins at the offset. `TooShort` exactly where the
    /// row's window doesn't lie in it.
    ///
    /// ```
    /// use linker_utils::recognise::FieldBits;
    /// use linker_utils::riscv64::{RiscVRelocation, row};
    ///
    /// // the immediate of a `jal` after two bytes
    /// let row = row(RiscVRelocation::R_RISCV_JAL).unwrap();
    /// let jal = [0x01, 0x00, 0xef, 0x00, 0x00, 0x00];
    /// let field = FieldBits::of_row(&row, 2, &jal).unwrap();
    /// assert_eq!((field.offset, field.bits), (2, 0xffff_f000));
    /// ```
    #[inline]
    pub fn of_row(row: &Row, offset: u64, window: &[u8]) -> Result<FieldBits, RelocateError> {
        let row_window = row.window();
        if window.len() < row_window || offset > (window.len() - row_window) as u64 {
            return Err(RelocateError::TooShort);
        }
        Ok(FieldBits {
            offset,
            bits: field_bits(row, &window[offset as usize..]),
        })
    }

    /// Which of the 64 bits from a byte of the window on are these. The byte counts from the
    /// window's first one.
    #[inline(always)]
    fn from_byte(&self, byte: u64) -> u64 {
        if byte < self.offset {
            let above = self.offset - byte;
            if above < 8 {
                self.bits << (8 * above)
            } else {
                0
            }
        } else {
            let below = byte - self.offset;
            if below < 8 {
                self.bits >> (8 * below)
            } else {
                0
            }
        }
    }
}

/// Whether the four bytes from a byte of a window on differ in some bits only in two windows. In a
/// loop LLVM would compute the shifts for every word.
#[inline(never)]
fn differ_in(field: &FieldBits, others: &[FieldBits], byte: u64, a: u32, b: u32) -> bool {
    let mut ignored = field.from_byte(byte);
    for other in others {
        ignored |= other.from_byte(byte);
    }
    u64::from(a ^ b) & !ignored == 0
}

/// The same, where they are mostly equal.
#[inline(always)]
fn is_same_but(field: &FieldBits, others: &[FieldBits], byte: u64, a: u32, b: u32) -> bool {
    a == b || differ_in(field, others, byte, a, b)
}

/// Whether bytes that begin at a byte of a window differ in some bits only.
#[inline(always)]
fn are_same_from(field: &FieldBits, others: &[FieldBits], from: u64, a: &[u8], b: &[u8]) -> bool {
    let words = b.len() / 4;
    for word in 0..words {
        let at = 4 * word;
        let (one, other) = (u32_from_slice(&a[at..]), u32_from_slice(&b[at..]));
        if !is_same_but(field, others, from + at as u64, one, other) {
            return false;
        }
    }
    for at in 4 * words..b.len() {
        let (one, other) = (u32::from(a[at]), u32::from(b[at]));
        if !is_same_but(field, others, from + at as u64, one, other) {
            return false;
        }
    }
    true
}

/// Whether a window differs from another, of which `count` bytes from `start` on are deleted, in
/// some bits only.
#[inline(always)]
pub(crate) fn are_same_but(
    field: &FieldBits,
    others: &[FieldBits],
    start: u64,
    count: u64,
    a: &[u8],
    b: &[u8],
) -> bool {
    let (split, end) = (start as usize, (start + count) as usize);
    (split == 0 || are_same_from(field, others, 0, &a[..split], &b[..split]))
        && are_same_from(field, others, start + count, &a[end..], &b[split..])
}

/// Whether two windows of the same length differ in the field of a row only, which is at their
/// front. False if the lengths differ or the row's window isn't in them.
///
/// ```
/// use linker_utils::recognise::same_but_for;
/// use linker_utils::x86_64::{X86_64Relocation, row};
///
/// let row = row(X86_64Relocation::R_X86_64_PLT32).unwrap();
/// assert!(same_but_for(&row, &[0, 0, 0, 0, 0x90], &[1, 2, 3, 4, 0x90]));
/// assert!(!same_but_for(&row, &[0, 0, 0, 0, 0x90], &[1, 2, 3, 4, 0xcc]));
/// ```
#[must_use]
pub fn same_but_for(row: &Row, a: &[u8], b: &[u8]) -> bool {
    if a.len() != b.len() || a.len() < row.window() {
        return false;
    }
    let field = FieldBits {
        offset: 0,
        bits: field_bits(row, a),
    };
    are_same_but(&field, &[], 0, 0, a, b)
}

/// A write of the value of any row to its window changes bits of the row's field only, which are
/// those that [`field_bits`](crate::recognise::field_bits()) returns.
#[doc(hidden)]
pub fn writes_change_fields() {}
