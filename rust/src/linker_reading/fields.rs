// SPDX-License-Identifier: MIT OR Apache-2.0
// Made by tools/generate of crates/linker_reading/src/fields.rt.
//! Known bits of a number: of a relocation's value, or of an address.

use crate::linker_base::bit_misc::BitRange;

/// Some bits of a number of 64 bits, a relocation's value or an address.
#[derive(Clone, Copy, Debug, PartialEq, Eq, Hash)]
pub struct FieldValue {
    /// Which bits of the sum of the number and `rounding` are known. Bit 0 is the lowest.
    pub known: BitRange,
    /// Those bits, the first of them at bit 0.
    pub bits: u64,
    /// What was added to the number, modulo 2^64, before its bits were taken.
    pub rounding: u64,
}

/// Bits `start` and up, below `end`, of a number of 64 bits; 0 where there are none.
#[inline(always)]
pub(crate) fn bits_of(number: u64, start: u8, end: u8) -> u64 {
    if start >= end {
        return 0;
    }
    if start > 63 {
        return 0;
    }
    let above = number >> start;
    if end > 63 {
        above
    } else {
        above % (1 << (end - start))
    }
}

/// 2 to a power.
#[inline(always)]
pub(crate) fn power_of_two(exponent: u8) -> u64 {
    1 << exponent
}

impl FieldValue {
    /// Whether some bits are known, none above bit 63, and `bits` has no others. What `read`,
    /// [`solve`](crate::reading::solve()) and [`join`](crate::reading::join()) return is so, and the latter two require it.
    #[must_use]
    pub fn is_proper(&self) -> bool {
        if self.known.start >= self.known.end || self.known.end > 64 {
            return false;
        }
        let (bits, count) = (self.bits, self.known.end - self.known.start);
        count == 64 || bits < power_of_two(count)
    }

    /// Whether a number has the known bits. Of a value, its 64 bits in two's complement are meant.
    #[must_use]
    pub fn is_of(&self, number: u64) -> bool {
        let sum = number.wrapping_add(self.rounding);
        bits_of(sum, self.known.start, self.known.end) == self.bits
    }

    /// The number, if all of its bits are known. `None` where some are not, or none is.
    #[must_use]
    pub fn number(&self) -> Option<u64> {
        if self.known.start == 0 && self.known.end == 64 {
            Some(self.bits.wrapping_sub(self.rounding))
        } else {
            None
        }
    }
}
