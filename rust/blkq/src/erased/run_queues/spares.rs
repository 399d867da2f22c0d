// Erased from crates/run_queues/src/spares.rt by tools/erase: edit that file.
//! The queue of items that aren't in use.

use crate::erased::crossbeam_queue::Pass;
use crate::erased::fallible::AllocError;
use crate::erased::run_queues::ruled_queue::RuledQueue;

/// A queue of items that threads take and put back. Contracts know of an item what its type's invariant says: if every value of the
/// type is free and belongs to one owner, the queue holds free items of that owner.
///
/// The thread that takes is woken once half of the spares are back, or if those who put expect no more soon.
pub struct SpareQueue<T> {
    line: RuledQueue<T>,
    /// The number of spares for which a thread that sleeps is woken.
    enough: usize,
}

/// The right to take from a queue of spare items, which comes with the queue and which one thread has.
pub struct Taker<T> {
    seat: Pass<T>,
    taken: u64,
}

/// How many items a thread put back into a queue.
pub struct PutCount<T> {
    seat: Pass<T>,
    put: u64,
}

impl<T> SpareQueue<T> {
    /// Returns a queue with room for `room` items, and the right to take from it. All its memory is taken here.
    ///
    /// # Preconditions
    ///
    /// - `room` is at least 1.
    pub fn new(room: usize) -> Result<(SpareQueue<T>, Taker<T>), AllocError> {
        debug_assert!(0 < room);
        let enough = room.div_ceil(2);
        let (line, seat) = RuledQueue::new(room, enough > 1)?;
        Ok((SpareQueue { line, enough }, Taker { seat, taken: 0 }))
    }

    /// Returns the number of items for which there is room.
    pub fn room(&self) -> usize {
        self.line.ring.capacity()
    }

    /// Returns a count of what a thread puts back here, 0 so far.
    pub fn put_count(&self) -> PutCount<T> {
        PutCount { seat: self.line.ring.pass(), put: 0 }
    }

    /// Puts an item back after those that are there, and counts it. Waits while there is no room.
    ///
    /// # Preconditions
    ///
    /// - `count` belongs to `self.id`.
    /// - `count.count + 1` is less than `2^64`.
    pub fn put(&self, count: &mut PutCount<T>, item: T) {
        self.line.push_as(&mut count.seat, item);
        count.put += 1;
        self.line.wake_if_filled(&mut count.seat, self.enough);
    }

    /// Wakes the thread that takes, if it sleeps. Call this if no more spares come soon.
    pub fn wake_taker(&self) {
        self.line.sleepers.wake();
    }

    /// Takes the first item if there is one now, and counts it.
    ///
    /// # Preconditions
    ///
    /// - `taker` belongs to `self.id`.
    /// - `taker.count + 1` is less than `2^64`.
    pub fn try_take(&self, taker: &mut Taker<T>) -> Option<T> {
        let item = self.line.pop_now_as(&mut taker.seat)?;
        taker.taken += 1;
        Some(item)
    }

    /// Returns how many looks are worthwhile before a sleep.
    pub fn looks(&self) -> u32 {
        self.line.looks()
    }

    /// Looks for an item for some microseconds, and counts it.
    ///
    /// # Preconditions
    ///
    /// - `taker` belongs to `self.id`.
    /// - `taker.count + 1` is less than `2^64`.
    pub fn look(&self, taker: &mut Taker<T>) -> Option<T> {
        let item = self.line.look_as(&mut taker.seat)?;
        taker.taken += 1;
        Some(item)
    }

    /// Takes the first item, and counts it. Sleeps while there is none; look first if one is to come soon.
    ///
    /// # Preconditions
    ///
    /// - `taker` belongs to `self.id`.
    /// - `taker.count + 1` is less than `2^64`.
    pub fn take(&self, taker: &mut Taker<T>) -> T {
        taker.taken += 1;
        self.line.patience.in_vain();
        self.line.sleep_as(&mut taker.seat)
    }
}
