// A stand-in for the kit's crossbeam_utils, written by hand: tools/erase leaves it alone.
//! Pauses between tries, values on cache lines of their own, and (in [`sync`]) threads that sleep until an event.

use std::cell::Cell;
use std::hint::spin_loop;
use std::ops::Deref;
use std::thread::yield_now;

pub mod sync;

/// From this step on a pause grows no longer, and `snooze` yields.
const SPIN_STEPS: u32 = 6;

/// After this step a caller had better sleep.
const YIELD_STEPS: u32 = 10;

/// Ever longer pauses between the tries of one thread.
#[derive(Debug)]
pub struct Backoff {
    step: Cell<u32>,
}

impl Backoff {
    /// No pause yet.
    #[inline]
    pub const fn new() -> Backoff {
        Backoff { step: Cell::new(0) }
    }

    fn pause(step: u32) {
        for _ in 0..1u32 << step.min(SPIN_STEPS) {
            spin_loop();
        }
    }

    /// Pauses for a try that another thread has just won.
    #[inline]
    pub fn spin(&self) {
        let step = self.step.get();
        Backoff::pause(step);
        if step <= SPIN_STEPS {
            self.step.set(step + 1);
        }
    }

    /// Pauses for a try that another thread has to make way for: after some pauses it yields.
    #[inline]
    pub fn snooze(&self) {
        let step = self.step.get();
        if step <= SPIN_STEPS {
            Backoff::pause(step);
        } else {
            yield_now();
        }
        if step <= YIELD_STEPS {
            self.step.set(step + 1);
        }
    }

    /// Whether the caller had better sleep than pause again.
    #[inline]
    pub fn is_completed(&self) -> bool {
        self.step.get() > YIELD_STEPS
    }
}

/// A value that shares its 128 bytes with no other.
#[derive(Debug)]
#[repr(align(128))]
pub struct CachePadded<T> {
    value: T,
}

impl<T> CachePadded<T> {
    /// This value.
    pub const fn new(value: T) -> CachePadded<T> {
        CachePadded { value }
    }
}

impl<T> Deref for CachePadded<T> {
    type Target = T;

    #[inline]
    fn deref(&self) -> &T {
        &self.value
    }
}
