// SPDX-License-Identifier: MIT OR Apache-2.0
// Made by tools/generate of crates/linker_utils/src/rewrite_rows.rt.
//! Rewrites as data. A row has the instructions that a rewrite is for, what it makes of them, and
//! what is deleted.

use crate::linker_base::rewrite::{DeletedBytes, RewriteWindow, has_window, overwrite};
use crate::linker_base::utils::u32_from_slice;

/// The instruction at an offset, and the one 4 bytes after it, or 0 where there is none.
#[derive(Clone, Copy)]
pub(crate) struct Words {
    /// The one at the offset.
    pub first: u32,
    /// The one after it.
    pub second: u32,
}

/// Bits of one of two instructions.
#[derive(Clone, Copy)]
pub(crate) struct WordBits {
    /// Whether they are bits of the second one.
    pub of_second: bool,
    /// The bit that becomes bit 0 of their number, below 32.
    pub from: u32,
    /// Which bits their number has, unless it has all.
    pub mask: u32,
    /// Whether it has all bits from that one up.
    pub is_top: bool,
}

/// What has to hold of the numbers in bits of instructions.
#[derive(Clone, Copy)]
pub(crate) enum WordTest {
    /// It is this one.
    Is(WordBits, u32),
    /// It isn't this one.
    IsNot(WordBits, u32),
    /// It is one of both.
    IsEither(WordBits, u32, u32),
    /// It is one of both, or from the third up to the last.
    IsEitherOrWithin(WordBits, u32, u32, u32, u32),
    /// Both are the same.
    AreSame(WordBits, WordBits),
    /// Both differ, if another is from the first up to the last.
    DifferWhere(WordBits, u32, u32, WordBits, WordBits),
    /// It is one of a set, by the lowest two bits of another. Number n, below 64, is bit n of it.
    IsAmong(WordBits, WordBits, u64, u64, u64, u64),
    /// Both differ, if another is one of a set.
    DifferAmong(WordBits, u64, WordBits, WordBits),
    /// RISC-V: the first instruction adds a signed immediate of 12 bits to a register.
    AddsLow12,
}

/// How an instruction is made that isn't of kept and set bits (Power ISA, "Instruction Formats").
#[derive(Clone, Copy)]
pub(crate) enum Special {
    /// An indexed access of bytes or words, by a displacement of 0.
    ToD,
    /// One of doublewords or of `lwax`, by a displacement of 0 in whole words.
    ToDs,
    /// Any of these.
    ToEither,
    /// `mr rT,rA` in place of an addition to rA, or `nop` where rT is rA.
    ToMove,
}

/// An instruction that a rewrite writes.
#[derive(Clone, Copy)]
pub(crate) struct WordEdit {
    /// The bits that it has of the first instruction before.
    pub keep: u32,
    /// Or else of the second one.
    pub of_second: bool,
    /// Those that are set then.
    pub set: u32,
    /// How it is made instead, if not by bits that are kept and set.
    pub special: Option<Special>,
}

/// The instructions that a rewrite is for.
#[derive(Clone, Copy)]
pub(crate) struct Original {
    /// How many bytes they have. A rewrite of none is for any offset.
    pub len: u64,
    /// How many bytes before the relocation's offset the first one is.
    pub back: u64,
    /// Whether that is a multiple of 4 bytes from the section's begin.
    pub aligned: bool,
    /// What has to hold of them.
    pub tests: &'static [WordTest],
}

/// What a rewrite writes, and what becomes of other bytes and relocations.
#[derive(Clone, Copy)]
pub(crate) struct Replacement {
    /// How many bytes before the relocation's offset the first instruction is.
    pub back: u64,
    /// What `apply` requires of the instruction before, if anything.
    pub required: Option<WordTest>,
    /// The instructions that it writes in the place of others: none, one or two.
    pub edits: &'static [WordEdit],
    /// Whether it writes one of 2 bytes.
    pub half: bool,
    /// The bytes that are deleted after it.
    pub deleted: Option<DeletedBytes>,
    /// How many bytes after the relocation's offset the relocation is that it skips.
    pub skipped: Option<u64>,
    /// How far it moves the relocation's offset on.
    pub moved: u64,
    /// The addend after it, if that is another.
    pub addend: Option<i64>,
}

/// One of four sets.
#[inline(always)]
fn set_by(by: u32, first: u64, second: u64, third: u64, fourth: u64) -> u64 {
    match by {
        0 => first,
        1 => second,
        2 => third,
        _ => fourth,
    }
}

/// Whether a set has a number.
#[inline(always)]
fn is_among(set: u64, number: u32) -> bool {
    set >> (number % 64) & 1 == 1
}

/// Whether an instruction of RISC-V adds a signed immediate of 12 bits to its source register.
#[inline]
fn adds_low12(word: u32) -> bool {
    let function = (word >> 12) % 8;
    match word % 0x80 {
        0x13 | 0x1b | 0x67 => function == 0,
        0x03 => function < 7,
        0x23 => function < 4,
        0x07 | 0x27 => 0 < function && function < 5,
        _ => false,
    }
}

impl WordBits {
    /// The number in them.
    #[inline(always)]
    fn of(&self, words: Words) -> u32 {
        let word = if self.of_second {
            words.second
        } else {
            words.first
        };
        let number = word >> (self.from % 32);
        if self.is_top {
            number
        } else {
            number & self.mask
        }
    }
}

impl WordTest {
    /// Whether it holds of instructions.
    #[inline(always)]
    pub(crate) fn holds(&self, words: Words) -> bool {
        match *self {
            WordTest::Is(bits, number) => bits.of(words) == number,
            WordTest::IsNot(bits, number) => bits.of(words) != number,
            WordTest::IsEither(bits, first, second) => {
                let number = bits.of(words);
                number == first || number == second
            }
            WordTest::IsEitherOrWithin(bits, first, second, from, to) => {
                let number = bits.of(words);
                (number == first) | (number == second) | (from <= number) & (number <= to)
            }
            WordTest::AreSame(bits, others) => { bits.of(words) == others.of(words) }
            WordTest::DifferWhere(bits, from, to, one, other) => {
                let number = bits.of(words);
                let are_same = one.of(words) == other.of(words);
                !((from <= number) & (number <= to) & are_same)
            }
            WordTest::IsAmong(bits, by, first, second, third, fourth) => {
                let by = by.of(words) % 4;
                let set = set_by(by, first, second, third, fourth);
                is_among(set, bits.of(words))
            }
            WordTest::DifferAmong(bits, set, one, other) => {
                let are_same = one.of(words) == other.of(words);
                !(is_among(set, bits.of(words)) & are_same)
            }
            WordTest::AddsLow12 => adds_low12(words.first),
        }
    }
}

/// Whether up to three tests hold of instructions.
#[inline(always)]
fn few_hold(tests: &'static [WordTest], words: Words) -> bool {
    match tests {
        [] => true,
        [a] => a.holds(words),
        [a, b] => a.holds(words) && b.holds(words),
        [a, b, c, ..] => a.holds(words) && b.holds(words) && c.holds(words),
    }
}

/// Whether all tests hold of instructions. Of constant tests LLVM leaves what they compare: so
/// there is no loop.
#[inline(always)]
pub(crate) fn all_hold(tests: &'static [WordTest], words: Words) -> bool {
    match tests {
        [a, b, c, more @ ..] => {
            a.holds(words) && b.holds(words) && c.holds(words) && few_hold(more, words)
        }
        _ => few_hold(tests, words),
    }
}

/// The instruction at an offset of a section.
#[inline(always)]
pub(crate) fn word_at(section: &[u8], offset: u64) -> u32 {
    u32_from_slice(&section[offset as usize..])
}

/// That of 2 bytes.
#[inline(always)]
fn half_at(section: &[u8], offset: u64) -> u32 {
    let start = offset as usize;
    u32::from(u16::from_le_bytes([section[start], section[start + 1]]))
}

/// The first two instructions of n bytes at an offset of a section.
#[inline(always)]
fn words_at(section: &[u8], offset: u64, len: u64) -> Words {
    Words {
        first: if 4 <= len {
            word_at(section, offset)
        } else if 2 <= len {
            half_at(section, offset)
        } else {
            0
        },
        second: if 8 <= len {
            word_at(section, offset + 4)
        } else {
            0
        },
    }
}

/// Whether instructions of n bytes for which all tests hold are at an offset of a section.
#[inline(always)]
pub(crate) fn are_at(tests: &'static [WordTest], section: &[u8], offset: u64, len: u64) -> bool {
    has_window(section, offset, 0, len) && all_hold(tests, words_at(section, offset, len))
}

/// Target and base register, in their places.
#[inline(always)]
fn registers(word: u32) -> u32 {
    (word >> 16 & 0x3ff) << 16
}

/// An indexed access as one with a displacement of 0. `lwzx` has the number of `lwz` less 32.
#[inline(always)]
fn by_displacement(word: u32) -> u32 {
    (32 + (word >> 6 & 0x1f) << 26) + registers(word)
}

/// The same of `ldx`, `stdx` (4) or `lwax` (10).
#[inline(always)]
fn by_word_displacement(word: u32) -> u32 {
    let access = word >> 6 & 0x1f;
    let opcode = if access == 4 { 62 } else { 58 };
    let low = if access == 10 { 2 } else { 0 };
    (opcode << 26) + registers(word) + low
}

impl Special {
    /// The instruction in place of one.
    #[inline(always)]
    pub(crate) fn of(self, word: u32) -> u32 {
        match self {
            Special::ToD => by_displacement(word),
            Special::ToDs => by_word_displacement(word),
            Special::ToEither => {
                if word & 0x3f == 0x2e {
                    by_displacement(word)
                } else {
                    by_word_displacement(word)
                }
            }
            Special::ToMove => {
                let (to, from) = (word >> 21 & 0x1f, word >> 16 & 0x1f);
                if to == from {
                    0x6000_0000
                } else {
                    0x7c00_0378 + (from << 21) + (to << 16) + (from << 11)
                }
            }
        }
    }
}

impl WordEdit {
    /// The instruction, where the one before is this word.
    #[inline(always)]
    fn of(&self, word: u32) -> u32 {
        match self.special {
            None => word & self.keep | self.set,
            Some(special) => special.of(word),
        }
    }
}

/// The first of two instructions at an offset of a section, or the second.
#[inline(always)]
fn word_of(section: &[u8], start: u64, second: bool) -> u32 {
    if second {
        word_at(section, start + 4)
    } else {
        word_at(section, start)
    }
}

impl Original {
    /// Whether the instructions are at an offset of a section.
    #[inline(always)]
    pub(crate) fn is_for(&self, section: &[u8], offset: u64) -> bool {
        self.len == 0
            || self.back <= offset
                && (!self.aligned || (offset - self.back) % 4 == 0)
                && are_at(self.tests, section, offset - self.back, self.len)
    }
}

impl Replacement {
    /// The bytes that the rewrite writes.
    #[inline(always)]
    pub(crate) fn window(&self) -> RewriteWindow {
        let (back, len) = match self.edits {
            [] => (0, 0),
            [_] => (self.back, if self.half { 2 } else { 4 }),
            [_, _, ..] => (self.back, 8),
        };
        RewriteWindow { back, len }
    }

    /// Whether `apply` may be called at an offset of a section.
    #[inline(always)]
    pub(crate) fn can_apply(&self, section: &[u8], offset: u64) -> bool {
        let RewriteWindow { back, len } = self.window();
        len == 0
            || has_window(section, offset, back, len)
                && match self.required {
                    Some(test) => test.holds(words_at(section, offset - back, len)),
                    None => true,
                }
    }

    /// Rewrites the first instructions, at an offset of a section.
    #[inline(always)]
    pub(crate) fn apply(&self, section: &mut [u8], offset: u64) {
        if let [first, more @ ..] = self.edits {
            let start = offset - self.back;
            match more {
                [] if self.half => {
                    let half = first.of(half_at(section, start));
                    overwrite(section, start, &half.to_le_bytes()[..2]);
                }
                [] => {
                    let word = first.of(u32_from_slice(&section[start as usize..]));
                    overwrite(section, start, &word.to_le_bytes());
                }
                [second, ..] => {
                    let word = first.of(u32_from_slice(&section[start as usize..]));
                    let next = second.of(word_of(section, start, second.of_second));
                    let both = u64::from(word) + (u64::from(next) << 32);
                    overwrite(section, start, &both.to_le_bytes());
                }
            }
        }
    }
}

/// What the row of a rewrite is for. A row has the length of the instructions, how far before the
/// offset they begin, whether they are aligned, their tests, of which the macro `$tests` makes an
/// array, and the one that `apply` requires too. Then it has the bits kept and set of each
/// instruction that is written, those of the second at 4, or how one is made instead, and whether
/// it has 2 bytes; where bytes are deleted, and how many if not 4; where a relocation is skipped;
/// and how far the offset moves, or the addend after.
macro_rules! original {
    (
        $tests:ident $len:literal $(back $back:literal)? $(aligned $aligned:literal)?
        [$($of:tt)*] required $given:ident $($row:tt)*
    ) => {
        $crate::rewrite_rows::original!(
            $tests $len $(back $back)? $(aligned $aligned)? [$given, $($of)*]
        )
    };
    (
        $tests:ident $len:literal $(back $back:literal)? $(aligned $aligned:literal)?
        [$($of:tt)*] $($row:tt)*
    ) => {
        $crate::rewrite_rows::Original {
            len: $len,
            back: $crate::rewrite_rows::or!(0; $($back)?),
            aligned: $crate::rewrite_rows::or!(false; $($aligned)?),
            tests: &$tests![$($of)*],
        }
    };
}

/// What the row of a rewrite writes, deletes and skips.
macro_rules! replacement {
    (
        $tests:ident $len:literal $(back $back:literal)? $(aligned $aligned:literal)?
        [$($of:tt)*] $(required $given:ident)?
        $(keep $keep:literal $(at $at:literal)? set $set:literal)* $(special $special:ident)?
        $(half $half:literal)? $(delete $start:literal $(count $count:literal)?)?
        $(skip $skip:literal)? $(moved $moved:literal)? $(addend $addend:literal)?
    ) => {
        $crate::rewrite_rows::Replacement {
            back: $crate::rewrite_rows::or!(0; $($back)?),
            required: $crate::rewrite_rows::or!(None; $($tests![required $given])?),
            edits: &[
                $($crate::rewrite_rows::WordEdit {
                    keep: $keep,
                    of_second: $crate::rewrite_rows::or!(0; $($at)?) != 0,
                    set: $set,
                    special: None,
                },)*
                $($crate::rewrite_rows::WordEdit {
                    keep: 0,
                    of_second: false,
                    set: 0,
                    special: Some($crate::rewrite_rows::Special::$special),
                },)?
            ],
            half: $crate::rewrite_rows::or!(false; $($half)?),
            deleted: $crate::rewrite_rows::or!(None; $(Some(crate::linker_base::rewrite::DeletedBytes {
                start: $start,
                count: $crate::rewrite_rows::or!(4; $($count)?),
            }))?),
            skipped: $crate::rewrite_rows::or!(None; $(Some($skip))?),
            moved: $crate::rewrite_rows::or!(0; $($moved)?),
            addend: $crate::rewrite_rows::or!(None; $(Some($addend))?),
        }
    };
}

/// Matches a rewrite, and evaluates an expression over one part of its row, which the macro of that
/// name makes: in each arm it is a constant. Or the rewrite with a number.
macro_rules! by_row {
    ($tests:ident, numbered $number:expr; $($kind:ident { $($row:tt)* })*) => {
        match $number {
            $(number if number == RewriteKind::$kind as u32 => Some(RewriteKind::$kind),)*
            _ => None,
        }
    };
    ($tests:ident, $value:expr, $part:ident $row:ident => $use:expr; $($kind:ident { $($of:tt)* })*) => {
        match $value {
            $(RewriteKind::$kind => {
                let $row = &$crate::rewrite_rows::$part!($tests $($of)*);
                $use
            })*
        }
    };
}

/// Bits of the first instruction, or of the one n bytes after it: from one up, those of a mask.
macro_rules! bits {
    ($at:expr, $from:literal, $mask:literal) => {
        $crate::rewrite_rows::WordBits {
            of_second: $at != 0,
            from: $from,
            mask: $mask,
            is_top: false,
        }
    };
}

/// All bits from one up.
macro_rules! top {
    ($at:expr, $from:literal) => {
        $crate::rewrite_rows::WordBits {
            of_second: $at != 0,
            from: $from,
            mask: 0,
            is_top: true,
        }
    };
}

/// A value, or else what stands for none.
macro_rules! or {
    ($none:expr;) => { $none };
    ($none:expr; $value:expr) => { $value };
}

/// The rewrite of the same name, of all that the library has.
macro_rules! same_name {
    ($value:expr => $($kind:ident$(($n:ident))?)*) => {
        match $value {
            $(RelaxationKind::$kind$(($n))? => RewriteKind::$kind$(($n))?,)*
        }
    };
}

pub(crate) use bits;
pub(crate) use by_row;
pub(crate) use or;
pub(crate) use original;
pub(crate) use replacement;
pub(crate) use same_name;
pub(crate) use top;
