//! Names as allocators and handles have them, of other types.

pub struct Held {
    pub alloc: u32,
    pub held: u32,
}

fn sum(alloc: u32, rt: u32) -> u32 {
    alloc + rt
}

impl Held {
    /// How many are held.
    pub fn count(&self) -> u32 {
        self.held
    }

    /// # Preconditions
    ///
    /// - `self.count()` is at least 1.
    /// - `self.alloc + rt` is less than `2^32`.
    pub fn all(&self, rt: u32) -> u32 {
        debug_assert!(1 <= self.count());
        let alloc = self.alloc;
        sum(alloc, sum(self.alloc, rt))
    }
}
