//! What a check notes.

use super::thread::of_actor;
use std::sync::atomic::{AtomicU64, Ordering::SeqCst};

/// A number that a check sets and looks at, within the step before it: no other actor comes between.
#[derive(Debug, Default)]
pub struct Noted(AtomicU64);

impl Noted {
    /// Looks at it.
    pub fn get(&self) -> u64 {
        self.touch(false);
        self.0.load(SeqCst)
    }

    /// Sets it.
    pub fn set(&self, value: u64) {
        self.touch(true);
        self.0.store(value, SeqCst);
    }

    fn touch(&self, changes: bool) {
        of_actor(|board, _| board.touches(std::ptr::from_ref(self).addr(), changes));
    }
}
