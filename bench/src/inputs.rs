// SPDX-License-Identifier: MIT OR Apache-2.0
//! Random numbers by xorshift, the same in each run.

pub struct Random(u64);

impl Random {
    pub fn new(seed: u64) -> Random {
        Random(seed.wrapping_mul(0x9e37_79b9_7f4a_7c15) | 1)
    }

    pub fn word(&mut self) -> u64 {
        self.0 ^= self.0 << 13;
        self.0 ^= self.0 >> 7;
        self.0 ^= self.0 << 17;
        self.0.wrapping_mul(0x2545_f491_4f6c_dd1d)
    }

    pub fn below(&mut self, bound: u128) -> u64 {
        ((u128::from(self.word()) * bound) >> 64) as u64
    }

    pub fn bytes(&mut self, len: usize) -> Vec<u8> {
        (0..len).map(|_| self.word() as u8).collect()
    }

    pub fn one_of<'a, T>(&mut self, items: &'a [T]) -> &'a T {
        &items[self.below(items.len() as u128) as usize]
    }

    pub fn shuffle<T>(&mut self, items: &mut [T]) {
        for last in (1..items.len()).rev() {
            let other = self.below(last as u128 + 1) as usize;
            items.swap(last, other);
        }
    }
}

/// Deletions of 2, 4 or 6 bytes, some of which touch the next, with the section's length.
pub fn deletions(random: &mut Random, count: usize) -> (Vec<(u64, u32)>, u64) {
    let mut offset = 0;
    let mut list = Vec::with_capacity(count);
    for _ in 0..count {
        offset += 2 * random.below(16);
        let bytes = 2 + 2 * random.below(3) as u32;
        list.push((offset, bytes));
        offset += u64::from(bytes);
    }
    (list, offset + 64)
}

/// Whether an offset lies strictly inside a deletion.
pub fn is_inside(list: &[(u64, u32)], offset: u64) -> bool {
    let below = list.partition_point(|deletion| deletion.0 < offset);
    below > 0 && offset < list[below - 1].0 + u64::from(list[below - 1].1)
}
