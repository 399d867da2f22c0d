// Erased from crates/freeze_queue/src/shared.rt by tools/erase: edit that file.
//! A freezer that threads share.

mod held;

use crate::erased::freeze_queue::freezer::Freezer;
use crate::erased::freeze_queue::queue::BlockQueue;
use crate::erased::queue_core::FreezeFault;
use crate::erased::sync::{Mutex, MutexGuard};
use held::Held;

/// A freezer with its queue.
///
/// A thread that got it from a [`SharedFreezer`] holds the lock: other threads that want the freezer, even only to read its depth,
/// wait until the guard is dropped. So `freezer.freeze` and `freezer.wait_drained` through the guard block them for the whole
/// drain. This deadlocks if the drain waits for one of them: for example, for a thread that reads the depth while its tag is
/// entered. `SharedFreezer::freeze` and `wait_drained` sleep with no lock held.
pub struct Pair<'q> {
    pub freezer: Freezer,
    pub queue: &'q BlockQueue,
}

/// A freezer that threads share behind a lock. Linux: `mq_freeze_lock` (include/linux/blkdev.h).
pub struct SharedFreezer<'q> {
    pair: Mutex<Pair<'q>>,
}

impl<'q> SharedFreezer<'q> {
    /// Puts a freezer and its queue behind a lock.
    ///
    /// # Preconditions
    ///
    /// - `freezer` belongs to `queue`.
    pub fn new(freezer: Freezer, queue: &'q BlockQueue) -> SharedFreezer<'q> {
        SharedFreezer { pair: Mutex::new(Pair { freezer, queue }) }
    }

    /// Takes the lock. Until the guard is dropped, no other thread gets the freezer or the queue from here.
    pub fn lock(&self) -> MutexGuard<'_, Pair<'q>> {
        self.pair.lock()
    }

    /// Freezes the queue, waits until it is drained, and returns its lock. The lock is taken only for each look, so that other
    /// threads can read, freeze and thaw meanwhile.
    ///
    /// Fails with DepthFull or WornOut, and with NotFrozen if others have thawed the queue meanwhile.
    ///
    /// Linux: `blk_mq_freeze_queue`, which releases `mq_freeze_lock` before it waits (block/blk-mq.c).
    pub fn freeze(&self) -> Result<MutexGuard<'_, Pair<'q>>, FreezeFault> {
        self.start_freeze()?;
        self.wait_drained()
    }

    /// Takes the lock, for the shared freezer's own calls.
    fn hold(&self) -> Held<'_, 'q> {
        Held::of(self.lock())
    }

    /// Begins a freeze, with the lock taken briefly.
    fn start_freeze(&self) -> Result<u32, FreezeFault> {
        let mut held = self.hold();
        held.start_freeze()
    }

    /// Waits until the queue is drained, in the same way, and returns its lock. Fails with NotFrozen, also if others have thawed
    /// the queue meanwhile.
    ///
    /// Linux: `blk_mq_freeze_queue_wait` (block/blk-mq.c).
    pub fn wait_drained(&self) -> Result<MutexGuard<'_, Pair<'q>>, FreezeFault> {
        let queue = self.hold().queue();
        for _ in queue.drained.tries() {
            if let Some(held) = self.look()? {
                return Ok(held.into_guard());
            }
        }
        unreachable!()
    }

    /// Looks under the lock, and keeps it if the queue is drained.
    fn look(&self) -> Result<Option<Held<'_, 'q>>, FreezeFault> {
        let mut held = self.hold();
        if held.look()? {
            return Ok(Some(held));
        }
        Ok(None)
    }

    /// Returns the freezer and its queue.
    pub fn into_inner(self) -> Pair<'q> {
        self.pair.into_inner()
    }
}
