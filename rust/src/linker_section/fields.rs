// SPDX-License-Identifier: MIT OR Apache-2.0
// Made by tools/generate of crates/linker_section/src/fields.rt.
//! The bytes that relocations write, and which relocations compose.

use crate::linker_section::values::has_value;
use crate::linker_elf::elf::{RelocationKind, RowInfo, RowSize};

/// Whether a row is that of the first of a pair at a ULEB128 number.
#[inline(always)]
pub(crate) fn begins_pair(size: RowSize, kind: RelocationKind) -> bool {
    matches!(size, RowSize::ByteSize(0)) && matches!(kind, RelocationKind::Relative)
}

/// Whether a row is that of the second of such a pair.
#[inline(always)]
pub(crate) fn ends_pair(size: RowSize, kind: RelocationKind) -> bool {
    matches!(
        kind,
        RelocationKind::PairSubtractionULEB128RiscV
            | RelocationKind::PairSubtractionULEB128LoongArch
    ) && matches!(size, RowSize::ByteSize(_))
}

/// Whether a row is that of either.
#[inline(always)]
pub(crate) fn is_of_pair(info: &RowInfo) -> bool {
    begins_pair(info.size, info.kind) || ends_pair(info.size, info.kind)
}

/// How many bytes the ULEB128 number has that bytes begin with, of at most ten.
pub(crate) fn uleb_len(bytes: &[u8]) -> usize {
    let mut len = 0;
    while len < bytes.len() && len < 10 {
        if bytes[len] < 0x80 {
            return len + 1;
        }
        len += 1;
    }
    len
}

/// The bytes of a section that a relocation writes.
#[derive(Clone, Copy, Debug, PartialEq, Eq)]
pub(crate) struct Field {
    /// The offset of its first byte.
    pub(crate) offset: u64,
    /// How many there are.
    pub(crate) len: usize,
    /// The relocation's formula.
    pub(crate) kind: RelocationKind,
}

/// Whether a relocation changes the number that it is at, by addition or subtraction.
#[inline(always)]
fn changes_number(kind: RelocationKind) -> bool {
    matches!(
        kind,
        RelocationKind::AbsoluteAddition | RelocationKind::AbsoluteSubtraction
    )
}

/// And in the low 6 bits of a byte.
#[inline(always)]
fn changes_bits(kind: RelocationKind) -> bool {
    matches!(
        kind,
        RelocationKind::AbsoluteAdditionWord6 | RelocationKind::AbsoluteSubtractionWord6
    )
}

/// Whether the second of two relocations starts from the number that the first leaves.
#[inline(always)]
fn continues(first: RelocationKind, second: RelocationKind) -> bool {
    match first {
        RelocationKind::AbsoluteSet
        | RelocationKind::AbsoluteAddition
        | RelocationKind::AbsoluteSubtraction => changes_number(second),
        RelocationKind::AbsoluteSetWord6
        | RelocationKind::AbsoluteAdditionWord6
        | RelocationKind::AbsoluteSubtractionWord6 => changes_bits(second),
        _ => false,
    }
}

impl Field {
    /// Whether a field at the same offset or after has no byte of this one, or its relocation
    /// continues with this one's number.
    #[inline(always)]
    pub(crate) fn is_clear_of(&self, last: &Field) -> bool {
        let distance = self.offset - last.offset;
        last.len as u64 <= distance || (distance == 0 && self.continues(last))
    }

    /// Whether it is in a section with a length.
    #[inline(always)]
    pub(crate) fn is_within(&self, len: usize) -> bool {
        self.offset <= len as u64 && self.len <= len - self.offset as usize
    }

    /// The last field after this one: the one before it, where this one has no bytes.
    #[inline(always)]
    pub(crate) fn or(self, last: Field) -> Field {
        if self.len == 0 { last } else { self }
    }

    /// Whether a relocation with a field at the same offset continues with this one's number.
    fn continues(&self, last: &Field) -> bool {
        self.len == last.len && continues(last.kind, self.kind)
    }
}
