//! Std's lock and condition, by turns.

use super::state::Until;
use super::thread::of_actor;
use std::ops::{Deref, DerefMut};
use std::panic::Location;
use std::sync::{LockResult, PoisonError, TryLockError, TryLockResult};
use std::time::Duration;

/// As std's.
#[derive(Debug, Default)]
pub struct Mutex<T> {
    value: std::sync::Mutex<T>,
}

/// As std's.
#[derive(Debug)]
pub struct MutexGuard<'a, T> {
    lock: &'a Mutex<T>,
    /// None once it was let go.
    guard: Option<std::sync::MutexGuard<'a, T>>,
}

impl<T> Mutex<T> {
    /// As std's.
    pub const fn new(value: T) -> Mutex<T> {
        Mutex { value: std::sync::Mutex::new(value) }
    }

    fn address(&self) -> usize {
        std::ptr::from_ref(self).addr()
    }

    /// The lock's guard, of an actor that has its turn with it.
    fn guard(&self) -> LockResult<MutexGuard<'_, T>> {
        match self.value.lock() {
            Ok(guard) => Ok(MutexGuard { lock: self, guard: Some(guard) }),
            Err(why) => Err(PoisonError::new(MutexGuard { lock: self, guard: Some(why.into_inner()) })),
        }
    }

    /// As std's.
    ///
    /// # Errors
    ///
    /// As std's.
    #[track_caller]
    pub fn lock(&self) -> LockResult<MutexGuard<'_, T>> {
        let at = Location::caller();
        of_actor(|board, actor| board.locks(actor, self.address(), at));
        self.guard()
    }

    /// As std's.
    ///
    /// # Errors
    ///
    /// As std's.
    #[track_caller]
    pub fn try_lock(&self) -> TryLockResult<MutexGuard<'_, T>> {
        let at = Location::caller();
        if of_actor(|board, actor| board.tries_lock(actor, self.address(), at)) == Some(false) {
            return Err(TryLockError::WouldBlock);
        }
        self.guard().map_err(TryLockError::Poisoned)
    }

    /// As std's.
    ///
    /// # Errors
    ///
    /// As std's.
    pub fn into_inner(self) -> LockResult<T> {
        self.value.into_inner()
    }
}

impl<T> Deref for MutexGuard<'_, T> {
    type Target = T;

    fn deref(&self) -> &T {
        self.guard.as_ref().expect("it wasn't let go")
    }
}

impl<T> DerefMut for MutexGuard<'_, T> {
    fn deref_mut(&mut self) -> &mut T {
        self.guard.as_mut().expect("it wasn't let go")
    }
}

impl<T> Drop for MutexGuard<'_, T> {
    fn drop(&mut self) {
        if self.guard.take().is_some() {
            of_actor(|board, actor| board.unlocks(actor, self.lock.address()));
        }
    }
}

/// As std's.
#[derive(Debug, Default)]
pub struct Condvar {
    /// It has an address of its own.
    place: u8,
}

/// As std's.
#[derive(Clone, Copy, Debug)]
pub struct WaitTimeoutResult(bool);

impl WaitTimeoutResult {
    /// As std's.
    #[must_use]
    pub fn timed_out(&self) -> bool {
        self.0
    }
}

/// What a wait with a deadline returns.
type TimedResult<'a, T> = LockResult<(MutexGuard<'a, T>, WaitTimeoutResult)>;

fn late<T>((guard, is_late): (LockResult<MutexGuard<'_, T>>, bool)) -> TimedResult<'_, T> {
    match guard {
        Ok(guard) => Ok((guard, WaitTimeoutResult(is_late))),
        Err(why) => Err(PoisonError::new((why.into_inner(), WaitTimeoutResult(is_late)))),
    }
}

impl Condvar {
    /// As std's.
    #[must_use]
    pub const fn new() -> Condvar {
        Condvar { place: 0 }
    }

    fn address(&self) -> usize {
        std::ptr::from_ref(&self.place).addr()
    }

    fn sleep<'a, T>(
        &self,
        mut guard: MutexGuard<'a, T>,
        until: Until,
        at: &'static Location<'static>,
    ) -> (LockResult<MutexGuard<'a, T>>, bool) {
        let lock = guard.lock;
        drop(guard.guard.take());
        let ids = (self.address(), lock.address());
        let is_late = of_actor(|board, actor| board.sleeps(actor, ids, until, at)).expect("an actor");
        (lock.guard(), is_late)
    }

    /// As std's.
    ///
    /// # Errors
    ///
    /// As std's.
    #[track_caller]
    pub fn wait<'a, T>(&self, guard: MutexGuard<'a, T>) -> LockResult<MutexGuard<'a, T>> {
        self.sleep(guard, Until::Notified, Location::caller()).0
    }

    /// As std's, but that the deadline may pass at any moment.
    ///
    /// # Errors
    ///
    /// As std's.
    #[track_caller]
    pub fn wait_timeout<'a, T>(&self, guard: MutexGuard<'a, T>, _patience: Duration) -> TimedResult<'a, T> {
        late(self.sleep(guard, Until::AnyMoment, Location::caller()))
    }

    /// As `wait_timeout`, but that the deadline passes only once no other actor can go on.
    ///
    /// # Errors
    ///
    /// As std's.
    #[track_caller]
    pub fn wait_until_standstill<'a, T>(&self, guard: MutexGuard<'a, T>) -> TimedResult<'a, T> {
        late(self.sleep(guard, Until::Standstill, Location::caller()))
    }

    /// As std's.
    #[track_caller]
    pub fn notify_one(&self) {
        let at = Location::caller();
        of_actor(|board, actor| board.notifies(actor, self.address(), false, at));
    }

    /// As std's.
    #[track_caller]
    pub fn notify_all(&self) {
        let at = Location::caller();
        of_actor(|board, actor| board.notifies(actor, self.address(), true, at));
    }
}
