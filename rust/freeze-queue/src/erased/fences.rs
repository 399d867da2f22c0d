// A stand-in for the heavy fence of the sources, which does nothing there, written by hand: tools/erase leaves it alone.
//! An asymmetric pair of fences: one that costs a thread nothing, and one that is a barrier on each processor on which a thread of
//! this process runs. It is Linux's membarrier(2), private and expedited.
#![allow(unsafe_code)] // a system call

use core::sync::atomic::Ordering::SeqCst;
use core::sync::atomic::{AtomicU8, compiler_fence};

/// Keeps the compiler from moving a thread's loads and stores over this place. The heavy fence does the rest.
#[inline(always)]
pub fn light_fence() {
    compiler_fence(SeqCst);
}

/// Whether the process has the heavy fence, once it was asked.
static HAS_FENCE: AtomicU8 = AtomicU8::new(UNKNOWN);
const UNKNOWN: u8 = 0;
const YES: u8 = 1;
const NO: u8 = 2;

/// Returns whether this process has the heavy fence: the same at each call. It doesn't on another system, with an old kernel, or if a filter
/// refuses the first registration, or the fence that is tried after it.
pub fn has_heavy_fence() -> bool {
    if HAS_FENCE.load(SeqCst) == UNKNOWN {
        let is_made =
            linux::membarrier(linux::REGISTER_PRIVATE_EXPEDITED) && linux::membarrier(linux::PRIVATE_EXPEDITED);
        let found = if is_made { YES } else { NO };
        let _earlier = HAS_FENCE.compare_exchange(UNKNOWN, found, SeqCst, SeqCst);
    }
    HAS_FENCE.load(SeqCst) == YES
}

/// A barrier on each processor on which a thread of this process runs. A process without it needs none, since its steps are
/// sequentially consistent.
///
/// # Panics
///
/// Panics if the system call is refused that was allowed when the first queue was made.
pub fn heavy_fence() {
    let is_made = !has_heavy_fence()
        || linux::membarrier(linux::PRIVATE_EXPEDITED)
        || (linux::membarrier(linux::REGISTER_PRIVATE_EXPEDITED) && linux::membarrier(linux::PRIVATE_EXPEDITED));
    assert!(is_made, "membarrier(2) was allowed when the first queue was made, and is refused now");
}

#[cfg(all(
    target_os = "linux",
    not(miri),
    any(target_arch = "x86_64", target_arch = "aarch64", target_arch = "riscv64")
))]
mod linux {
    use core::ffi::{c_int, c_long, c_uint};

    pub(super) const PRIVATE_EXPEDITED: c_int = 1 << 3;
    pub(super) const REGISTER_PRIVATE_EXPEDITED: c_int = 1 << 4;
    const NUMBER: c_long = if cfg!(target_arch = "x86_64") { 324 } else { 283 };

    unsafe extern "C" {
        fn syscall(number: c_long, ...) -> c_long;
    }

    /// Whether the call was made.
    pub(super) fn membarrier(command: c_int) -> bool {
        let (no_flags, any_processor): (c_uint, c_int) = (0, 0);
        // SAFETY: the call reads no memory of the process.
        unsafe { syscall(NUMBER, command, no_flags, any_processor) == 0 }
    }
}

#[cfg(not(all(
    target_os = "linux",
    not(miri),
    any(target_arch = "x86_64", target_arch = "aarch64", target_arch = "riscv64")
)))]
mod linux {
    pub(super) const PRIVATE_EXPEDITED: i32 = 0;
    pub(super) const REGISTER_PRIVATE_EXPEDITED: i32 = 0;

    pub(super) fn membarrier(_command: i32) -> bool {
        false
    }
}
