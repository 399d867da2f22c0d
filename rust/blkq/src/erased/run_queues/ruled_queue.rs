// Erased from crates/run_queues/src/ruled_queue.rt by tools/erase: edit that file.
//! A queue under a rule, at which a thread sleeps if it finds no item or no room.

use crate::erased::crossbeam_queue::{Pass, RuledArrayQueue};
use crate::erased::crossbeam_utils::CachePadded;
use crate::erased::fallible::AllocError;
use crate::erased::run_queues::sleepers::{Patience, Sleepers};
use crate::erased::wait_queue::WaitQueue;
use std::sync::atomic::{AtomicBool, Ordering};

/// Maximum number of tries of one look.
const TRIES: u32 = 128;

/// A queue under a rule, and the threads that sleep at it.
///
/// A push and a pop each take effect at one step, and take no lock. A thread that finds nothing looks again a few times, as long as
/// that is worthwhile ([`Patience`]), unless another thread does. Then it announces that it will sleep, looks once more, and sleeps. A
/// thread that wakes others looks for such announcements after its push, so one of the two sees the other.
///
/// A push wakes nobody: its caller does, by need.
pub(crate) struct RuledQueue<T> {
    pub(crate) ring: RuledArrayQueue<T>,
    /// The threads that wait for an item.
    pub(crate) sleepers: Sleepers,
    /// The threads that wait for room.
    taken: WaitQueue,
    pub(crate) patience: CachePadded<Patience>,
    /// Whether a thread is looking for an item. More would be in each other's way, and in the way of the thread that pushes.
    is_looked_at: CachePadded<AtomicBool>,
}

impl<T> RuledQueue<T> {
    /// Returns a queue with room for `room` items, and its first pass. `is_timed` is as at [`Sleepers::new`].
    ///
    /// # Preconditions
    ///
    /// - `room` is at least 1.
    /// - `P.holds([], P.first ∷ [])`.
    pub(crate) fn new(room: usize, is_timed: bool) -> Result<(RuledQueue<T>, Pass<T>), AllocError> {
        debug_assert!(0 < room);
        let (ring, pass) = RuledArrayQueue::ruled(room)?;
        let line = RuledQueue {
            ring,
            sleepers: Sleepers::new(is_timed),
            taken: WaitQueue::new(),
            patience: CachePadded::new(Patience::new()),
            is_looked_at: CachePadded::new(AtomicBool::new(false)),
        };
        Ok((line, pass))
    }

    /// Pushes an item, and waits while there is no room. Wakes a sleeper if there is none, which makes room.
    ///
    /// # Preconditions
    ///
    /// - `IsPassOf(self.ring, pass)`.
    /// - `MayPush(P.holds, ruled_capacity(self.ring), pass, item, M.then, M.fact)`.
    pub(crate) fn push_as(&self, pass: &mut Pass<T>, item: T) {
        let mut item = item;
        for _ in self.taken.tries() {
            match self.ring.push_as(pass, item) {
                Ok(()) => return,
                Err(back) => item = back,
            }
            self.sleepers.wake();
        }
        unreachable!()
    }

    /// Takes the first item, and waits while there is none.
    ///
    /// # Preconditions
    ///
    /// - `IsPassOf(self.ring, pass)`.
    /// - `MayPop(P.holds, pass, M.then, M.fact)`.
    pub(crate) fn pop_as(&self, pass: &mut Pass<T>) -> T {
        if let Some(item) = self.pop_now_as(pass) {
            return item;
        }
        if let Some(item) = self.look_alone_as(pass) {
            return item;
        }
        self.sleep_as(pass)
    }

    /// Takes the first item if there is one now. Returns `None` only if there was none at one moment of the call.
    ///
    /// # Preconditions
    ///
    /// - `IsPassOf(self.ring, pass)`.
    /// - `MayPop(P.holds, pass, M.then, M.fact)`.
    pub(crate) fn pop_now_as(&self, pass: &mut Pass<T>) -> Option<T> {
        let item = self.ring.pop_as(pass)?;
        self.taken.wake_one();
        Some(item)
    }

    /// Returns how many looks are worthwhile before a sleep.
    pub(crate) fn looks(&self) -> u32 {
        self.patience.tries().div_ceil(TRIES)
    }

    /// Tries to take the first item a few times, with a pause before each try.
    ///
    /// # Preconditions
    ///
    /// - `IsPassOf(self.ring, pass)`.
    /// - `MayPop(P.holds, pass, M.then, M.fact)`.
    pub(crate) fn look_as(&self, pass: &mut Pass<T>) -> Option<T> {
        for tried in 0..self.patience.tries().min(TRIES) {
            Patience::pause();
            if let Some(item) = self.pop_now_as(pass) {
                self.patience.found(tried);
                return Some(item);
            }
        }
        None
    }

    // Looks for an item as long as that is worthwhile, unless another thread does.
    //
    // # Preconditions
    //
    // - `IsPassOf(self.ring, pass)`.
    // - `MayPop(P.holds, pass, M.then, M.fact)`.
    fn look_alone_as(&self, pass: &mut Pass<T>) -> Option<T> {
        if self.is_looked_at.load(Ordering::SeqCst) || self.is_looked_at.swap(true, Ordering::SeqCst) {
            return None;
        }
        let item = self.find_as(pass);
        self.is_looked_at.store(false, Ordering::SeqCst);
        item
    }

    // Looks for an item as long as that is worthwhile.
    //
    // # Preconditions
    //
    // - `IsPassOf(self.ring, pass)`.
    // - `MayPop(P.holds, pass, M.then, M.fact)`.
    fn find_as(&self, pass: &mut Pass<T>) -> Option<T> {
        for _look in 0..self.looks() {
            if let Some(item) = self.look_as(pass) {
                return Some(item);
            }
        }
        self.patience.in_vain();
        None
    }

    /// Takes the first item, and sleeps while there is none.
    ///
    /// # Preconditions
    ///
    /// - `IsPassOf(self.ring, pass)`.
    /// - `MayPop(P.holds, pass, M.then, M.fact)`.
    pub(crate) fn sleep_as(&self, pass: &mut Pass<T>) -> T {
        let mut sleeper = self.sleepers.join();
        loop {
            sleeper.turn();
            if let Some(item) = sleeper.look_as(&self.ring, pass) {
                sleeper.rise();
                self.taken.wake_one();
                return item;
            }
        }
    }

    /// Wakes a sleeper if there are so many items.
    ///
    /// # Preconditions
    ///
    /// - `IsPassOf(self.ring, pass)`.
    pub(crate) fn wake_if_filled(&self, pass: &mut Pass<T>, enough: usize) {
        if self.sleepers.count() > 0 && self.ring.len_as(pass) >= enough {
            self.sleepers.wake();
        }
    }
}
