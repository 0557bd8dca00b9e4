// SPDX-License-Identifier: MIT OR Apache-2.0
//! What an archive of ordinary Rust needs beside the library: memory from `malloc`, and an end
//! where a test of the compiler's fails, as of an index.
#![allow(unsafe_code, reason = "it calls the C library")]

use core::alloc::{GlobalAlloc, Layout};
use core::ffi::c_void;
use core::panic::PanicInfo;
use core::ptr::null_mut;

unsafe extern "C" {
    fn malloc(size: usize) -> *mut c_void;
    fn realloc(block: *mut c_void, size: usize) -> *mut c_void;
    fn free(block: *mut c_void);
    safe fn abort() -> !;
}

/// What each block of `malloc` is aligned to.
const ALIGNMENT: usize = 2 * size_of::<usize>();

struct Heap;

#[global_allocator]
static HEAP: Heap = Heap;

// SAFETY: a block that `malloc` or `realloc` returns has the size, and is aligned to `ALIGNMENT`. A
// block that needs more is rejected. The caller hands back only blocks of these functions.
unsafe impl GlobalAlloc for Heap {
    unsafe fn alloc(&self, layout: Layout) -> *mut u8 {
        if layout.align() > ALIGNMENT {
            return null_mut();
        }
        unsafe { malloc(layout.size()).cast() }
    }

    unsafe fn dealloc(&self, block: *mut u8, _layout: Layout) {
        unsafe { free(block.cast()) }
    }

    unsafe fn realloc(&self, block: *mut u8, _layout: Layout, size: usize) -> *mut u8 {
        unsafe { realloc(block.cast(), size).cast() }
    }
}

#[panic_handler]
fn panic(_why: &PanicInfo<'_>) -> ! {
    abort()
}

/// The unwind tables of Rust's own libraries name it. Nothing unwinds here, and so nothing calls
/// it.
#[unsafe(no_mangle)]
extern "C" fn rust_eh_personality() -> ! {
    abort()
}
