//! Std's means by which threads wait. A thread can be woken in vain as often as its test says, counts how often it notifies a
//! condition, and says when it is about to take a lock or to sleep, and how long it slept with a timeout.

use crate::gate::Hook;
use std::cell::{Cell, RefCell};
pub(crate) use std::sync::MutexGuard;
pub(crate) use std::sync::atomic::AtomicU32;
use std::sync::mpsc::Sender;
use std::sync::{LockResult, MutexGuard as Guard, TryLockResult};
pub(crate) use std::thread::{Thread, current, sleep};
use std::time::{Duration, Instant};

/// Each wait sleeps at once.
pub(crate) const MOST_PATIENCE: Duration = Duration::ZERO;

thread_local! {
    static IN_VAIN: Cell<u64> = const { Cell::new(0) };
    static SLEPT: Cell<u64> = const { Cell::new(0) };
    static NOTIFIED: Cell<u64> = const { Cell::new(0) };
    static TIMED: RefCell<Vec<Timed>> = const { RefCell::new(Vec::new()) };
    /// What this thread runs before it takes a lock.
    pub(crate) static BEFORE_LOCK: Hook = Hook::default();
    /// What this thread runs before a sleep that isn't in vain. If it sleeps on a condition, it has the lock.
    pub(crate) static BEFORE_SLEEP: Hook = Hook::default();
}

/// By what a thread sleeps.
#[derive(Clone, Copy, Debug, PartialEq, Eq)]
pub(crate) enum Means {
    Condition,
    Park,
}

/// A sleep with a timeout: how long it may last, and how long it lasted at least.
#[derive(Clone, Copy, Debug)]
pub(crate) struct Timed {
    pub(crate) means: Means,
    pub(crate) left: Duration,
    pub(crate) lasted: Duration,
}

/// The sleeps of this thread with a timeout, since the last call of this.
pub(crate) fn timed_sleeps() -> Vec<Timed> {
    TIMED.take()
}

/// Sleeps with a timeout: for a millisecond if that is in vain. Returns nothing then.
fn sleep_timed<R>(means: Means, left: Duration, sleeps: impl FnOnce() -> R) -> Option<R> {
    let began = Instant::now();
    let slept = if is_in_vain() {
        sleep(Duration::from_millis(1));
        None
    } else {
        BEFORE_SLEEP.with(Hook::run);
        Some(sleeps())
    };
    let lasted = began.elapsed();
    TIMED.with_borrow_mut(|all| all.push(Timed { means, left, lasted }));
    slept
}

/// This thread's next sleeps end at once, so many of them; with a timeout, soon.
pub(crate) fn wake_in_vain(times: u64) {
    IN_VAIN.set(times);
    SLEPT.set(0);
}

/// Sends a message before the next sleep of this thread that isn't in vain.
pub(crate) fn tells_its_sleep(sleeps: Sender<()>) {
    BEFORE_SLEEP.with(|hook| hook.set(move || sleeps.send(()).unwrap()));
}

/// How often this thread slept since then.
pub(crate) fn slept() -> u64 {
    SLEPT.get()
}

/// How often this thread notified a condition since the last call of this.
pub(crate) fn notified() -> u64 {
    NOTIFIED.replace(0)
}

/// Whether a sleep of this thread ends at once.
fn is_in_vain() -> bool {
    SLEPT.set(SLEPT.get() + 1);
    let left = IN_VAIN.get();
    IN_VAIN.set(left.saturating_sub(1));
    left > 0
}

pub(crate) struct Mutex<T>(std::sync::Mutex<T>);

impl<T> Mutex<T> {
    pub(crate) const fn new(value: T) -> Mutex<T> {
        Mutex(std::sync::Mutex::new(value))
    }

    pub(crate) fn lock(&self) -> LockResult<Guard<'_, T>> {
        let _ending = BEFORE_LOCK.try_with(Hook::run);
        self.0.lock()
    }

    pub(crate) fn try_lock(&self) -> TryLockResult<Guard<'_, T>> {
        self.0.try_lock()
    }

    pub(crate) fn into_inner(self) -> LockResult<T> {
        self.0.into_inner()
    }
}

/// Whether a sleep on a condition ended by its timeout.
pub(crate) struct TimedOut(bool);

impl TimedOut {
    pub(crate) fn timed_out(&self) -> bool {
        self.0
    }
}

pub(crate) struct Condvar(std::sync::Condvar);

impl Condvar {
    pub(crate) const fn new() -> Condvar {
        Condvar(std::sync::Condvar::new())
    }

    pub(crate) fn wait<'l, T>(&self, guard: Guard<'l, T>) -> LockResult<Guard<'l, T>> {
        if is_in_vain() {
            return Ok(guard);
        }
        BEFORE_SLEEP.with(Hook::run);
        self.0.wait(guard)
    }

    pub(crate) fn wait_timeout<'l, T>(
        &self,
        guard: Guard<'l, T>,
        left: Duration,
    ) -> LockResult<(Guard<'l, T>, TimedOut)> {
        let mut guard = Some(guard);
        let slept = sleep_timed(Means::Condition, left, || {
            let (guard, late) = self.0.wait_timeout(guard.take().unwrap(), left).unwrap();
            (guard, TimedOut(late.timed_out()))
        });
        Ok(slept.unwrap_or_else(|| (guard.take().unwrap(), TimedOut(false))))
    }

    pub(crate) fn notify_all(&self) {
        NOTIFIED.set(NOTIFIED.get() + 1);
        self.0.notify_all();
    }
}

pub(crate) fn park() {
    if !is_in_vain() {
        BEFORE_SLEEP.with(Hook::run);
        std::thread::park();
    }
}

pub(crate) fn park_timeout(left: Duration) {
    sleep_timed(Means::Park, left, || std::thread::park_timeout(left));
}
