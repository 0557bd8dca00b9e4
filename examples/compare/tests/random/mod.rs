// SPDX-License-Identifier: MIT OR Apache-2.0
//! Numbers for mutations, the same in each run.

/// Marsaglia's xorshift of 64 bits with the shifts 13, 7 and 17; its state isn't 0.
pub struct Random(pub u64);

impl Random {
    pub fn below(&mut self, bound: usize) -> usize {
        self.0 ^= self.0 << 13;
        self.0 ^= self.0 >> 7;
        self.0 ^= self.0 << 17;
        (self.0 % bound as u64) as usize
    }
}
