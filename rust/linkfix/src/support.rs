// SPDX-License-Identifier: MIT OR Apache-2.0
//! What the library has of the calls that allocate, and what only the program needs.

#[macro_use]
#[path = "../../src/support.rs"]
mod of_library;

use alloc::collections::BTreeMap;
use alloc::string::String;
pub(crate) use of_library::*;

/// A map's `insert`, which ends the program where there is no memory: std has none that returns.
pub(crate) trait FallibleMap<K, V> {
    fn fallible_insert(&mut self, key: K, value: V) -> Result<Option<V>, AllocError>;
}

impl<K: Ord, V> FallibleMap<K, V> for BTreeMap<K, V> {
    fn fallible_insert(&mut self, key: K, value: V) -> Result<Option<V>, AllocError> {
        Ok(self.insert(key, value))
    }
}

/// A text's `push`.
pub(crate) trait FallibleString {
    fn fallible_push(&mut self, it: char) -> Result<(), AllocError>;
}

impl FallibleString for String {
    fn fallible_push(&mut self, it: char) -> Result<(), AllocError> {
        self.try_reserve(it.len_utf8())?;
        self.push(it);
        Ok(())
    }
}

/// A formatted text, which ends the program where there is no memory.
macro_rules! try_format {
    ($($said:tt)*) => {
        Ok(alloc::format!($($said)*))
    };
}
