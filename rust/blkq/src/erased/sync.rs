// A stand-in for types of the kit's library, written by hand: tools/erase leaves it alone.
//! The means by which threads wait: a lock, a condition, and the one atomic number that [`crossbeam_utils`] reads without its lock.
//! Nothing else of the queue waits, so a scheduler that steps through waits takes the place of this file.
//!
//! [`crossbeam_utils`]: crate::erased::crossbeam_utils

use std::sync::PoisonError;
use std::time::Duration;

pub use std::sync::MutexGuard;
pub use std::sync::atomic::AtomicUsize;

/// A value that one thread has at a time. It isn't poisoned: if the thread that has it panics, the others get it as it is.
#[derive(Debug)]
pub struct Mutex<T>(std::sync::Mutex<T>);

impl<T> Mutex<T> {
    /// A value that no thread has.
    pub const fn new(value: T) -> Mutex<T> {
        Mutex(std::sync::Mutex::new(value))
    }

    /// The value, once no other thread has it.
    #[inline]
    pub fn lock(&self) -> MutexGuard<'_, T> {
        self.0.lock().unwrap_or_else(PoisonError::into_inner)
    }

    /// The value, which no thread has any more.
    pub fn into_inner(self) -> T {
        self.0.into_inner().unwrap_or_else(PoisonError::into_inner)
    }
}

/// A condition that threads sleep on. A thread may wake with no call, so it looks again.
#[derive(Debug)]
pub struct Condvar(std::sync::Condvar);

impl Condvar {
    /// No thread sleeps.
    pub const fn new() -> Condvar {
        Condvar(std::sync::Condvar::new())
    }

    /// Lets the lock go, sleeps, and takes the lock again.
    pub fn wait<'a, T>(&self, guard: MutexGuard<'a, T>) -> MutexGuard<'a, T> {
        self.0.wait(guard).unwrap_or_else(PoisonError::into_inner)
    }

    /// The same, for a time at most.
    pub fn wait_timeout<'a, T>(&self, guard: MutexGuard<'a, T>, time: Duration) -> MutexGuard<'a, T> {
        self.0.wait_timeout(guard, time).unwrap_or_else(PoisonError::into_inner).0
    }

    /// Wakes one thread that sleeps.
    pub fn notify_one(&self) {
        self.0.notify_one();
    }

    /// Wakes all threads that sleep.
    pub fn notify_all(&self) {
        self.0.notify_all();
    }
}

/// A token, which any thread gives, and which the one thread that parks takes.
#[derive(Debug)]
pub struct Parker {
    is_there: Mutex<bool>,
    given: Condvar,
}

impl Parker {
    /// The token is missing.
    pub const fn new() -> Parker {
        Parker { is_there: Mutex::new(false), given: Condvar::new() }
    }

    /// Sleeps until the token is there, and takes it.
    pub fn park(&self) {
        let mut is_there = self.is_there.lock();
        while !*is_there {
            is_there = self.given.wait(is_there);
        }
        *is_there = false;
    }

    /// The same, for a time at most. It may return early.
    pub fn park_timeout(&self, time: Duration) {
        let mut is_there = self.is_there.lock();
        if !*is_there {
            is_there = self.given.wait_timeout(is_there, time);
        }
        *is_there = false;
    }

    /// Gives the token, and wakes the thread that sleeps.
    pub fn unpark(&self) {
        *self.is_there.lock() = true;
        self.given.notify_one();
    }
}
