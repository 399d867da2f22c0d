//! Items that only proofs name.

/// A value.
#[derive(Clone)]
pub struct Counted<T> {
    count: u32,
    item: T,
}

// Does nothing, and is no law: it has no clause.
pub fn nothing() {}

impl<T> Counted<T> {
    pub fn count(&self) -> u32 {
        self.count
    }

    pub fn count_again(&self) -> u32 {
        // A call stays: it may do something, and no list says that it is for proofs alone.
        let _count = self.count();
        self.count
    }

    /// # Preconditions
    ///
    /// - `unread` is 0.
    pub fn with(item: T, unread: u32) -> Counted<T> {
        debug_assert!(unread == 0);
        Counted { count: 0, item }
    }
}
