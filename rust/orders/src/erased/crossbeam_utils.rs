//! Pauses between tries, which are no steps. Threads sleep as in blkq, by the same file.

use std::cell::Cell;

#[path = "../../../blkq/src/erased/crossbeam_utils/sync.rs"]
pub mod sync;

/// One try comes before the wait is announced.
#[derive(Debug)]
pub struct Backoff {
    is_completed: Cell<bool>,
}

impl Backoff {
    pub const fn new() -> Backoff {
        Backoff { is_completed: Cell::new(false) }
    }

    pub fn snooze(&self) {
        self.is_completed.set(true);
    }

    pub fn is_completed(&self) -> bool {
        self.is_completed.get()
    }
}
