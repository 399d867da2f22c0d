//! `libfreeze_queue`, the queue for C: `freeze_queue.h` declares its functions. They are erased from the
//! proved sources of `crates/freeze_queue_c`.
#![cfg_attr(not(test), no_std)]

extern crate alloc;

pub mod erased;
pub mod lanes;

#[cfg(not(test))]
#[global_allocator]
static MEMORY: c_memory::Memory = c_memory::Memory;

/// No unwinding thread leaves Rust for C.
#[cfg(not(test))]
#[panic_handler]
fn panicked(_: &core::panic::PanicInfo<'_>) -> ! {
    c_memory::end()
}
