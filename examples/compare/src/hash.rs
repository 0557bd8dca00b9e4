// SPDX-License-Identifier: MIT OR Apache-2.0
//! Maps by names and addresses of files, whose hashes are quicker than the standard library's. A file may
//! be made so that its names collide, which makes the program slow, and nothing else.

use std::collections;
use std::hash::{BuildHasherDefault, Hasher};

pub type HashMap<K, V> = collections::HashMap<K, V, BuildHasherDefault<Mixed>>;
pub type HashSet<K> = collections::HashSet<K, BuildHasherDefault<Mixed>>;

/// Each eight bytes are added and multiplied, as rustc's own maps do.
#[derive(Default)]
pub struct Mixed(u64);

impl Hasher for Mixed {
    fn write(&mut self, bytes: &[u8]) {
        let mut words = bytes.chunks_exact(8);
        for word in &mut words {
            self.write_u64(u64::from_le_bytes(word.try_into().expect("eight bytes")));
        }
        let mut last = [0; 8];
        last[..words.remainder().len()].copy_from_slice(words.remainder());
        self.write_u64(u64::from_le_bytes(last));
    }

    fn write_u8(&mut self, number: u8) {
        self.write_u64(number.into());
    }

    fn write_u64(&mut self, number: u64) {
        self.0 = (self.0.rotate_left(5) ^ number).wrapping_mul(0x517c_c1b7_2722_0a95);
    }

    fn write_usize(&mut self, number: usize) {
        self.write_u64(number as u64);
    }

    fn finish(&self) -> u64 {
        // the lowest bits choose the place
        self.0.rotate_left(26)
    }
}
