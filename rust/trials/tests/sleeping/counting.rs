//! The waits of `blkq`. They count by thread the wakes of one waiter, and tell that a thread sleeps.

use blkq::erased::sync::Parker as Bed;
use blkq::erased::wait_queue as waits;
use std::cell::Cell;
use std::thread::LocalKey;
use std::time::Duration;

/// What a thread does at a moment of its wait.
type Call = Box<dyn Fn()>;

thread_local! {
    static WAKES: Cell<u64> = const { Cell::new(0) };
    static BEFORE_SLEEP: Cell<Option<Call>> = const { Cell::new(None) };
    static AFTER_WAKE: Cell<Option<Call>> = const { Cell::new(None) };
    /// Whether this thread's limited sleeps end after a while.
    static TIME_PASSES: Cell<bool> = const { Cell::new(false) };
}

/// Returns how often this thread was to wake a waiter since the last call of this.
pub fn wakes() -> u64 {
    WAKES.replace(0)
}

/// Calls the first once this thread has announced a sleep and looked in vain, and the second once it was woken.
pub fn at_sleeps(before: impl Fn() + 'static, after: impl Fn() + 'static) {
    BEFORE_SLEEP.set(Some(Box::new(before)));
    AFTER_WAKE.set(Some(Box::new(after)));
}

/// Lets this thread's limited sleeps end after a while. Until then they have no limit.
pub fn let_time_pass() {
    TIME_PASSES.set(true);
}

fn call(at: &'static LocalKey<Cell<Option<Call>>>) {
    if let Some(call) = at.take() {
        call();
        at.set(Some(call));
    }
}

/// Waiting threads.
pub struct WaitQueue(waits::WaitQueue);

#[allow(clippy::new_without_default)]
impl WaitQueue {
    pub const fn new() -> WaitQueue {
        WaitQueue(waits::WaitQueue::new())
    }

    pub fn wake_one(&self) {
        WAKES.set(WAKES.get() + 1);
        self.0.wake_one();
    }

    pub fn wake_all(&self) {
        WAKES.set(WAKES.get() + 1);
        self.0.wake_all();
    }

    pub fn tries(&self) -> waits::Tries<'_> {
        self.0.tries()
    }

    pub fn announced_tries(&self) -> Tries<'_> {
        Tries { tries: self.0.announced_tries(), has_looked: false }
    }
}

/// The turns of a thread whose waits are all announced.
pub struct Tries<'w> {
    tries: waits::Tries<'w>,
    has_looked: bool,
}

impl Iterator for Tries<'_> {
    type Item = ();

    fn next(&mut self) -> Option<()> {
        if !self.has_looked {
            self.has_looked = true;
            return self.tries.next();
        }
        call(&BEFORE_SLEEP);
        let turn = self.tries.next();
        call(&AFTER_WAKE);
        turn
    }
}

/// A bed for one thread.
pub struct Parker(Bed);

#[allow(clippy::new_without_default)]
impl Parker {
    pub const fn new() -> Parker {
        Parker(Bed::new())
    }

    pub fn park(&self) {
        call(&BEFORE_SLEEP);
        self.0.park();
        call(&AFTER_WAKE);
    }

    pub fn park_timeout(&self, time: Duration) {
        if !TIME_PASSES.get() {
            return self.park();
        }
        call(&BEFORE_SLEEP);
        self.0.park_timeout(time);
        call(&AFTER_WAKE);
    }

    pub fn unpark(&self) {
        WAKES.set(WAKES.get() + 1);
        self.0.unpark();
    }
}
