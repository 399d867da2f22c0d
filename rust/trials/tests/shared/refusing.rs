//! The system's allocator, which refuses and counts blocks and their bytes as a test asks.

use std::alloc::{GlobalAlloc, Layout, System};

/// What a test asks for: whether the next allocation is refused, and a function that counts an allocated (1) or freed (-1) block, and by how
/// many bytes what is in use grows.
pub struct Refusing {
    pub is_refused: fn() -> bool,
    pub count: fn(i64, i64),
}

fn bytes(size: usize) -> i64 {
    i64::try_from(size).unwrap_or(i64::MAX)
}

// SAFETY: each block is the system's, of the same layout; a refusal is null, as the trait has it.
unsafe impl GlobalAlloc for Refusing {
    unsafe fn alloc(&self, layout: Layout) -> *mut u8 {
        if (self.is_refused)() {
            return std::ptr::null_mut();
        }
        (self.count)(1, bytes(layout.size()));
        // SAFETY: the caller meets the precondition, which is the same.
        unsafe { System.alloc(layout) }
    }

    unsafe fn dealloc(&self, at: *mut u8, layout: Layout) {
        (self.count)(-1, -bytes(layout.size()));
        // SAFETY: the block is the system's, of this layout.
        unsafe { System.dealloc(at, layout) }
    }

    unsafe fn realloc(&self, at: *mut u8, layout: Layout, size: usize) -> *mut u8 {
        if (self.is_refused)() {
            return std::ptr::null_mut();
        }
        (self.count)(0, bytes(size) - bytes(layout.size()));
        // SAFETY: the block is the system's, of this layout.
        unsafe { System.realloc(at, layout, size) }
    }
}
