// SPDX-License-Identifier: MIT OR Apache-2.0
//! Random numbers that are the same in each run.

/// SplitMix64.
pub struct Random(pub u64);

impl Random {
    pub fn next(&mut self) -> u64 {
        self.0 = self.0.wrapping_add(0x9e37_79b9_7f4a_7c15);
        let mut number = self.0;
        number = (number ^ (number >> 30)).wrapping_mul(0xbf58_476d_1ce4_e5b9);
        number = (number ^ (number >> 27)).wrapping_mul(0x94d0_49bb_1331_11eb);
        number ^ (number >> 31)
    }

    pub fn below(&mut self, count: usize) -> usize {
        (self.next() >> 33) as usize % count
    }
}

/// Where the addresses lie that `noise` makes.
const DATA: u64 = 0x1_0000_0000;
const DATA_LEN: u64 = 0x10_0000;

/// A number for a register or a word of memory, as a function of another one: half of them are
/// addresses of data, and a quarter are small.
pub fn noise(of: u64) -> u64 {
    let number = Random(of).next();
    match number >> 62 {
        0 => Random(number).next(),
        1 => number & 63,
        _ => DATA + (number & (DATA_LEN - 16)),
    }
}

/// The words of memory from an address on.
pub fn noise_at(address: u64, len: u64) -> Vec<u8> {
    (address..address + len).step_by(8).flat_map(|at| noise(at).to_le_bytes()).collect()
}
