// SPDX-License-Identifier: MIT OR Apache-2.0
// Made by tools/generate of crates/linker_base/src/bit_misc.rt.
//! Bits and bit ranges of a 64-bit number. Bit 0 is the least significant one.
//!
#![doc = include_str!("../../doc/bit_misc.md")]

use core::ops::Range;

/// A half-open bit range: bits `start` up to, and not including, `end`.
#[derive(Debug, Clone, Copy, PartialEq, Eq, Hash, PartialOrd, Ord)]
pub struct BitRange {
    /// The first bit.
    pub start: u8,
    /// The first bit above the range.
    pub end: u8,
}

/// Reads bits of a 64-bit number. Positions and counts are in bits.
///
/// ```
/// use linker_utils::bit_misc::BitExtraction;
///
/// assert_eq!(0b1100_0000u64.extract_bit_range(3..8), 0b11000);
/// assert_eq!(0xffeu64.low_bits_signed(12), 2u64.wrapping_neg());
/// ```
pub trait BitExtraction {
    /// The bit at `position`: 0 or 1.
    ///
    /// # Requires
    ///
    /// - `position < 64`
    #[must_use]
    fn extract_bit(self, position: u32) -> u64;

    /// Bits `range.start` up to, and not including, `range.end`, shifted down to bit 0.
    ///
    /// # Requires
    ///
    /// - not_empty: `range.start < range.end`
    /// - in_word: `range.end <= u64::BITS`
    #[must_use]
    fn extract_bit_range(self, range: Range<u32>) -> u64;

    /// The lowest `num_bits` bits.
    ///
    /// # Requires
    ///
    /// - `num_bits < 64`
    #[must_use]
    fn low_bits(self, num_bits: u32) -> u64;

    /// The lowest `num_bits` bits in two's complement, modulo 2^64.
    ///
    /// # Requires
    ///
    /// - not_empty: `0 < num_bits`
    /// - in_word: `num_bits < 64`
    #[must_use]
    fn low_bits_signed(self, num_bits: u32) -> u64;

    /// If bit `sign_bit` is set, the number with every bit above it set too. If it is clear, the
    /// number itself, even if higher bits are set.
    ///
    /// # Requires
    ///
    /// - `sign_bit < 64`
    #[must_use]
    fn sign_extend(self, sign_bit: u32) -> u64;
}

impl BitExtraction for u64 {
    #[cfg_attr(debug_assertions, track_caller)]
    fn extract_bit(self, position: u32) -> u64 {
        debug_assert!(position < 64);
        (self >> position) & 1
    }

    #[cfg_attr(debug_assertions, track_caller)]
    fn extract_bit_range(self, range: Range<u32>) -> u64 {
        debug_assert!(range.start < range.end);
        debug_assert!(range.end <= u64::BITS);
        (self >> range.start) & (u64::MAX >> (64 - (range.end - range.start)))
    }

    #[cfg_attr(debug_assertions, track_caller)]
    fn low_bits(self, num_bits: u32) -> u64 {
        debug_assert!(num_bits < 64);
        self & ((1 << num_bits) - 1)
    }

    #[cfg_attr(debug_assertions, track_caller)]
    fn low_bits_signed(self, num_bits: u32) -> u64 {
        debug_assert!(0 < num_bits);
        debug_assert!(num_bits < 64);
        self.low_bits(num_bits).sign_extend(num_bits - 1)
    }

    #[cfg_attr(debug_assertions, track_caller)]
    fn sign_extend(self, sign_bit: u32) -> u64 {
        debug_assert!(sign_bit < 64);
        if self & (1 << sign_bit) != 0 {
            self | (u64::MAX << sign_bit)
        } else {
            self
        }
    }
}

/// A law: the bits of a number's two's complement, as `extract_bit_range` reads them, are those of
/// the number.
#[doc(hidden)]
pub fn twos_complement_keeps_fields() {}
