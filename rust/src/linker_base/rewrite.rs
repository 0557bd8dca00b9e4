// SPDX-License-Identifier: MIT OR Apache-2.0
// Made by tools/generate of crates/linker_base/src/rewrite.rt.
//! What the rewrites of all architectures share.

/// The bytes that a linker deletes after a rewrite.
#[derive(Clone, Copy, Debug, PartialEq, Eq, Hash)]
pub struct DeletedBytes {
    /// Where they begin, in bytes from the rewrite's offset.
    pub start: u64,
    /// How many they are.
    pub count: u32,
}

/// The window of a rewrite: the bytes that it writes at an offset of a section. It writes none
/// where `len` is 0. All bytes outside the window stay as they are.
///
/// ```
/// use linker_utils::elf::RewriteWindow;
/// use linker_utils::x86_64::RewriteKind;
///
/// // jmp *x@GOTPCREL(%rip), with its field at offset 2, becomes jmp x; nop
/// let window = RewriteKind::JmpIndirectToRelative.window();
/// assert_eq!(window, RewriteWindow { back: 2, len: 6 });
/// ```
#[repr(C)]
#[derive(Default, Clone, Copy, Debug, PartialEq, Eq, Hash)]
pub struct RewriteWindow {
    /// How many bytes before the rewrite's offset the window begins.
    pub back: u64,
    /// How many bytes it has.
    pub len: u64,
}

/// Whether the `len` bytes that begin `back` bytes below `offset` lie in the section.
#[must_use]
#[inline(always)]
pub fn has_window(section: &[u8], offset: u64, back: u64, len: u64) -> bool {
    let section_len = section.len() as u64;
    back <= offset && len <= section_len && offset - back <= section_len - len
}

/// Whether the window of a rewrite at an offset lies in the section. One of 0 bytes does anywhere.
#[must_use]
#[inline(always)]
pub fn window_is_in(section: &[u8], offset: u64, window: RewriteWindow) -> bool {
    window.len == 0 || has_window(section, offset, window.back, window.len)
}

/// Overwrites bytes at an offset of the section.
///
/// # Requires
///
/// - `(at as u128) + (bytes.len() as u128) <= (section.len() as u128)`
#[cfg_attr(debug_assertions, track_caller)]
#[inline(always)]
pub fn overwrite(section: &mut [u8], at: u64, bytes: &[u8]) {
    debug_assert!((at as u128) + (bytes.len() as u128) <= (section.len() as u128));
    let start = at as usize;
    section[start..start + bytes.len()].copy_from_slice(bytes);
}
