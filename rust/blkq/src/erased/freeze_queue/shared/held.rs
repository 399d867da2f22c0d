// Erased from crates/freeze_queue/src/shared/held.rt by tools/erase: edit that file.
//! What a shared freezer does while it holds its lock.

use super::Pair;
use crate::erased::freeze_queue::queue::BlockQueue;
use crate::erased::queue_core::FreezeFault;
use crate::erased::sync::MutexGuard;

/// The lock of a shared freezer, as its own calls use it. No clause relates the state under a lock after a call to the state before
/// it. So each thing that they do under the lock is a call here, whose contract says exactly what it leaves there.
pub(super) struct Held<'g, 'q> {
    guard: MutexGuard<'g, Pair<'q>>,
}

impl<'g, 'q> Held<'g, 'q> {
    /// Keeps a lock that was taken.
    pub(super) fn of(guard: MutexGuard<'g, Pair<'q>>) -> Held<'g, 'q> {
        Held { guard }
    }

    /// Returns the lock, for the caller.
    pub(super) fn into_guard(self) -> MutexGuard<'g, Pair<'q>> {
        self.guard
    }

    /// Returns the queue.
    pub(super) fn queue(&self) -> &'q BlockQueue {
        self.guard.queue
    }

    /// Begins a freeze, and returns the depth. Fails with DepthFull or WornOut.
    pub(super) fn start_freeze(&mut self) -> Result<u32, FreezeFault> {
        let pair = &mut *self.guard;
        pair.freezer.start_freeze(pair.queue)
    }

    /// Returns whether one look finds the queue drained. Fails with NotFrozen.
    pub(super) fn look(&mut self) -> Result<bool, FreezeFault> {
        let pair = &mut *self.guard;
        if pair.freezer.depth() == 0 {
            return Err(FreezeFault::NotFrozen);
        }
        Ok(pair.freezer.poll_drained(pair.queue))
    }
}
