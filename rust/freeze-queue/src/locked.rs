//! A lock that the thread sanitizer sees. A standard library that isn't built for the sanitizer hides a contended mutex from
//! it. So under `--cfg freeze_queue_tsan` the thread that has the lock also performs an atomic operation, first and
//! last.
//! Without this option the extra steps don't exist.
use crate::sync::{Condvar, Mutex, MutexGuard};
use std::ops::{Deref, DerefMut};
use std::sync::{PoisonError, TryLockError};
use std::time::Instant;

/// A value that one thread has at a time. If that thread panics, the next one finds the value as it is.
pub(crate) struct Lock<T> {
    value: Mutex<T>,
    #[cfg(freeze_queue_tsan)]
    steps: std::sync::atomic::AtomicU64,
}

const HELD: &str = "the lock is held";

impl<T> Lock<T> {
    pub(crate) const fn new(value: T) -> Lock<T> {
        Lock {
            value: Mutex::new(value),
            #[cfg(freeze_queue_tsan)]
            steps: std::sync::atomic::AtomicU64::new(0),
        }
    }

    /// Takes the lock.
    #[inline]
    pub(crate) fn lock(&self) -> Locked<'_, T> {
        self.locked(self.value.lock().unwrap_or_else(PoisonError::into_inner))
    }

    /// Takes the lock, unless a thread has it.
    pub(crate) fn try_lock(&self) -> Option<Locked<'_, T>> {
        match self.value.try_lock() {
            Ok(guard) => Some(self.locked(guard)),
            Err(TryLockError::Poisoned(poisoned)) => Some(self.locked(poisoned.into_inner())),
            Err(TryLockError::WouldBlock) => None,
        }
    }

    #[inline]
    fn locked<'l>(&'l self, guard: MutexGuard<'l, T>) -> Locked<'l, T> {
        self.step();
        Locked { guard: Some(guard), of: self }
    }

    #[cfg_attr(not(freeze_queue_tsan), expect(clippy::unused_self, reason = "it has a number under the sanitizer"))]
    fn step(&self) {
        #[cfg(freeze_queue_tsan)]
        self.steps.fetch_add(1, std::sync::atomic::Ordering::SeqCst);
    }

    /// The value of a lock that nobody else has.
    pub(crate) fn into_inner(self) -> T {
        self.value.into_inner().unwrap_or_else(PoisonError::into_inner)
    }
}

/// The value, as long as this thread has the lock.
pub(crate) struct Locked<'l, T> {
    guard: Option<MutexGuard<'l, T>>,
    of: &'l Lock<T>,
}

impl<'l, T> Locked<'l, T> {
    /// Releases the lock, sleeps until notified, and takes the lock again. Returns whether that was before the deadline.
    pub(crate) fn sleep(mut self, on: &Condvar, deadline: Option<Instant>) -> (Locked<'l, T>, bool) {
        let (guard, of) = (self.guard.take().expect(HELD), self.of);
        drop(self); // the last step, before the lock is released
        let Some(deadline) = deadline else {
            return (of.locked(on.wait(guard).unwrap_or_else(PoisonError::into_inner)), true);
        };
        let left = deadline.saturating_duration_since(Instant::now());
        let (guard, late) = on.wait_timeout(guard, left).unwrap_or_else(PoisonError::into_inner);
        (of.locked(guard), !late.timed_out())
    }
}

impl<T> Deref for Locked<'_, T> {
    type Target = T;

    #[inline]
    fn deref(&self) -> &T {
        self.guard.as_ref().expect(HELD)
    }
}

impl<T> DerefMut for Locked<'_, T> {
    #[inline]
    fn deref_mut(&mut self) -> &mut T {
        self.guard.as_mut().expect(HELD)
    }
}

/// The last step is made before the guard is dropped.
impl<T> Drop for Locked<'_, T> {
    #[inline]
    fn drop(&mut self) {
        self.of.step();
    }
}
