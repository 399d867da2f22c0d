//! The waits of `blkq`, counting wakes and the looks of waiters.

use blkq::erased::wait_queue as waits;
use std::sync::atomic::{AtomicU64, Ordering::SeqCst};

/// Waiting threads, and the number of wakes.
pub struct WaitQueue {
    waits: waits::WaitQueue,
    pub ones: AtomicU64,
    pub alls: AtomicU64,
    pub looks: AtomicU64,
}

#[allow(clippy::new_without_default)]
impl WaitQueue {
    pub const fn new() -> WaitQueue {
        let [ones, alls, looks] = [const { AtomicU64::new(0) }; 3];
        WaitQueue { waits: waits::WaitQueue::new(), ones, alls, looks }
    }

    pub fn wake_one(&self) {
        self.ones.fetch_add(1, SeqCst);
        self.waits.wake_one();
    }

    pub fn wake_all(&self) {
        self.alls.fetch_add(1, SeqCst);
        self.waits.wake_all();
    }

    pub fn tries(&self) -> impl Iterator<Item = ()> {
        self.waits.tries().inspect(|()| self.note_look())
    }

    pub fn announced_tries(&self) -> impl Iterator<Item = ()> {
        self.waits.announced_tries().inspect(|()| self.note_look())
    }

    fn note_look(&self) {
        self.looks.fetch_add(1, SeqCst);
    }
}
