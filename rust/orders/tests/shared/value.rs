//! A value that counts the threads that are at it, by numbers that are no turns.

use orders::turns::pause;
use std::sync::atomic::{AtomicU32, Ordering::SeqCst};

#[derive(Default)]
pub struct Value {
    readers: AtomicU32,
    writers: u32,
    pub changes: u32,
}

impl Value {
    pub fn is_read(&self) {
        let seen = self.changes;
        self.readers.fetch_add(1, SeqCst);
        pause();
        assert_eq!((self.writers, self.changes), (0, seen), "it changes while it is read");
        self.readers.fetch_sub(1, SeqCst);
    }

    pub fn is_changed(&mut self) {
        self.writers += 1;
        pause();
        assert_eq!((*self.readers.get_mut(), self.writers), (0, 1), "it is lent twice");
        self.changes += 1;
        self.writers -= 1;
    }
}
