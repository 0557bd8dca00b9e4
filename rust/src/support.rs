// SPDX-License-Identifier: MIT OR Apache-2.0
//! What the proved source has of its standard library and Rust's `alloc` has not: calls that take
//! memory and return an error where there is none, a push that takes none, and what tests name.
#![allow(dead_code, unused_macros, reason = "each of three crates uses a part")]

#[cfg(any(target_pointer_width = "16", target_pointer_width = "32"))]
compile_error!("linker_utils is for targets of 64 bits: it is proved for a `usize` of 64 bits");

use alloc::boxed::Box;
pub(crate) use alloc::collections::TryReserveError as AllocError;
use alloc::string::{String, ToString};
use alloc::vec::Vec;
use core::error::Error;
use core::fmt::Display;

/// A value for which there was no memory.
#[derive(Debug)]
pub(crate) struct AllocFailed<T> {
    pub(crate) value: T,
}

/// Calls that take memory, and one that takes none.
pub(crate) trait Fallible<T>: Sized {
    fn fallible_with_capacity(capacity: usize) -> Result<Self, AllocError>;
    fn fallible_extend_from_slice(&mut self, items: &[T]) -> Result<(), AllocError>
    where
        T: Copy;
    fn fallible_push(&mut self, value: T) -> Result<(), AllocFailed<T>>;
    fn fallible_insert(&mut self, at: usize, value: T) -> Result<(), AllocFailed<T>>;
    /// Pushes a value for which there is room, as the prover has checked.
    fn push_reserved(&mut self, value: T);
}

impl<T> Fallible<T> for Vec<T> {
    #[inline]
    fn fallible_with_capacity(capacity: usize) -> Result<Vec<T>, AllocError> {
        let mut items = Vec::new();
        // else a call that isn't inlined
        if capacity > 0 {
            items.try_reserve_exact(capacity)?;
        }
        Ok(items)
    }

    #[inline]
    fn fallible_extend_from_slice(&mut self, items: &[T]) -> Result<(), AllocError>
    where
        T: Copy,
    {
        self.try_reserve(items.len())?;
        self.extend_from_slice(items);
        Ok(())
    }

    #[inline]
    fn fallible_push(&mut self, value: T) -> Result<(), AllocFailed<T>> {
        self.fallible_insert(self.len(), value)
    }

    #[inline]
    fn fallible_insert(&mut self, at: usize, value: T) -> Result<(), AllocFailed<T>> {
        if self.try_reserve(1).is_err() {
            return Err(AllocFailed { value });
        }
        self.insert(at, value);
        Ok(())
    }

    // With no call that might grow the vector, a loop keeps its fields in registers.
    #[inline(always)]
    fn push_reserved(&mut self, value: T) {
        assert!(self.len() < self.capacity(), "no room");
        self.push(value);
    }
}

/// A vector of the items, or of one item as often as said.
macro_rules! try_vec {
    ($item:expr; $n:expr) => {
        $crate::support::repeated($item, $n)
    };
    ($($item:expr),* $(,)?) => {
        $crate::support::listed([$($item),*])
    };
}

/// Whether a value matches one of several patterns, of which some are of an architecture.
macro_rules! matches_any {
    ($value:expr, $($(#[$of:meta])* $pattern:pat $(if $guard:expr)?),+) => {
        match $value {
            $($(#[$of])* $pattern $(if $guard)? => true,)+
            _ => false,
        }
    };
}

pub(crate) fn listed<T, const N: usize>(items: [T; N]) -> Result<Vec<T>, AllocError> {
    let mut list = Vec::fallible_with_capacity(N)?;
    list.extend(items);
    Ok(list)
}

pub(crate) fn repeated<T: Copy>(item: T, len: usize) -> Result<Vec<T>, AllocError> {
    let mut items = Vec::fallible_with_capacity(len)?;
    items.resize(len, item);
    Ok(items)
}

/// Copies of slices and texts.
pub(crate) trait FallibleCopy<T> {
    fn fallible_to_vec(&self) -> Result<Vec<T>, AllocError>;
}

impl<T: Copy> FallibleCopy<T> for [T] {
    fn fallible_to_vec(&self) -> Result<Vec<T>, AllocError> {
        let mut items = Vec::new();
        items.fallible_extend_from_slice(self)?;
        Ok(items)
    }
}

fn joined<'a>(texts: impl Iterator<Item = &'a str> + Clone) -> Result<String, AllocError> {
    let mut text = String::new();
    text.try_reserve_exact(texts.clone().map(str::len).fold(0, usize::saturating_add))?;
    text.extend(texts);
    Ok(text)
}

/// A text with U+FFFD in place of each sequence of bytes that is not UTF-8, for which no memory is
/// taken before it becomes the caller's.
pub(crate) struct LossyText<'a>(&'a [u8]);

/// What `String::from_utf8_lossy` returns.
pub(crate) trait FallibleText {
    fn fallible_to_str_lossy(&self) -> Result<LossyText<'_>, AllocError>;
}

impl FallibleText for [u8] {
    #[inline]
    fn fallible_to_str_lossy(&self) -> Result<LossyText<'_>, AllocError> {
        Ok(LossyText(self))
    }
}

/// A text that becomes the caller's.
pub(crate) trait FallibleOwned {
    fn fallible_into_owned(self) -> Result<String, AllocError>;
}

impl FallibleOwned for LossyText<'_> {
    // The copy is tested, which is aligned, as the bytes may not be: that takes less time.
    #[inline]
    fn fallible_into_owned(self) -> Result<String, AllocError> {
        let mut copy = Vec::new();
        copy.try_reserve_exact(self.0.len())?;
        copy.extend_from_slice(self.0);
        String::from_utf8(copy).or_else(|_| replaced(self.0))
    }
}

/// A text with U+FFFD for each sequence of bytes that is not UTF-8.
#[cold]
fn replaced(bytes: &[u8]) -> Result<String, AllocError> {
    joined(bytes.utf8_chunks().flat_map(|chunk| {
        [chunk.valid(), if chunk.invalid().is_empty() { "" } else { "\u{fffd}" }]
    }))
}

/// Why a test fails.
pub(crate) type Fail = Box<dyn Error>;

impl<T> From<AllocFailed<T>> for Fail {
    fn from(_error: AllocFailed<T>) -> Fail {
        Fail::from("no memory for a value")
    }
}

/// What a value prints.
pub(crate) struct InlineText<const N: usize>(String);

impl<const N: usize> InlineText<N> {
    pub(crate) fn of(value: impl Display) -> InlineText<N> {
        InlineText(value.to_string())
    }

    pub(crate) fn as_str(&self) -> &str {
        &self.0
    }
}
