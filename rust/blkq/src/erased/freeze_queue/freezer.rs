// Erased from crates/freeze_queue/src/freezer.rt by tools/erase: edit that file.
//! The freezer: it freezes a queue, waits until it is drained, sets its limits and thaws it.

use crate::erased::crossbeam_utils::Backoff;
use crate::erased::crossbeam_utils::sync::Parker;
use crate::erased::freeze_queue::queue::BlockQueue;
use crate::erased::queue_core::{self, FreezeFault, Limits, Mode};

/// Number of looks, with ever longer pauses, before the freezer parks: a drain is often short. `Backoff` would yield from the next
/// pause on, which gives the processor away for a whole time slice if other programs want it.
const LOOKS: u32 = 7;

/// The one freezer of a queue: it counts freezes, and sets the limits while the queue is drained.
///
/// It moves between threads by ownership; [`SharedFreezer`](crate::erased::freeze_queue::SharedFreezer) shares it.
pub struct Freezer {
    pub(crate) core: queue_core::Freezer,
    /// Where the freezer sleeps until the queue is drained. A parker serves one sleeper, and one thread at a time has
    /// the freezer.
    pub(crate) parker: Parker,
}

impl Freezer {
    /// Returns the number of freezes that aren't thawed yet, 0 to 1,000. The queue is live if it is 0.
    ///
    /// Linux: `mq_freeze_depth` (include/linux/blkdev.h).
    #[inline]
    pub fn depth(&self) -> u32 {
        self.core.depth()
    }

    /// Returns the limits in force.
    #[inline]
    pub fn limits(&self) -> Limits {
        self.core.limits()
    }

    /// Begins a freeze, and returns the depth. The first freeze kills the gate: from then on no tag enters, except by
    /// `try_enter_frozen`. Fails with DepthFull or WornOut.
    ///
    /// Linux: `blk_freeze_queue_start` (block/blk-mq.c).
    ///
    /// # Preconditions
    ///
    /// - `self` belongs to `queue`.
    pub fn start_freeze(&mut self, queue: &BlockQueue) -> Result<u32, FreezeFault> {
        // If the kill drained the queue, no thread sleeps for it: the last thaw woke all threads that waited for a drain. The put of
        // a biased tag comes later.
        let frozen = self.core.start_freeze(&queue.core)?;
        let _put = queue.tell(frozen.reclaimed);
        Ok(frozen.depth)
    }

    /// Returns whether one look finds the queue frozen and drained. Once it has returned true, it does so until the last thaw.
    ///
    /// Linux: `percpu_ref_is_zero` in `blk_mq_freeze_queue_wait` (block/blk-mq.c).
    ///
    /// # Preconditions
    ///
    /// - `self` belongs to `queue`.
    pub fn poll_drained(&mut self, queue: &BlockQueue) -> bool {
        self.core.poll_drained(&queue.core)
    }

    /// Freezes the queue, waits until it is drained, and returns the depth. Fails with DepthFull or WornOut.
    ///
    /// Linux: `blk_mq_freeze_queue` (block/blk-mq.c).
    ///
    /// # Preconditions
    ///
    /// - `self` belongs to `queue`.
    pub fn freeze(&mut self, queue: &BlockQueue) -> Result<u32, FreezeFault> {
        let depth = self.start_freeze(queue)?;
        self.sleep_until_drained(queue);
        Ok(depth)
    }

    /// Waits until a frozen queue is drained. Fails with NotFrozen. To freeze several queues, begin all freezes first, and then
    /// wait for one after another.
    ///
    /// Linux: `blk_mq_freeze_queue_wait` (block/blk-mq.c).
    ///
    /// # Preconditions
    ///
    /// - `self` belongs to `queue`.
    pub fn wait_drained(&mut self, queue: &BlockQueue) -> Result<(), FreezeFault> {
        if self.depth() == 0 {
            return Err(FreezeFault::NotFrozen);
        }
        self.sleep_until_drained(queue);
        Ok(())
    }

    /// Looks until the queue is drained, and parks between two looks once it has paused often enough. The last put wakes it; a wake
    /// left over from an earlier drain costs one look.
    ///
    /// # Preconditions
    ///
    /// - `self` belongs to `queue`.
    fn sleep_until_drained(&mut self, queue: &BlockQueue) {
        let pauses = Backoff::new();
        let mut looks = LOOKS;
        loop {
            if self.poll_drained(queue) {
                return;
            }
            if looks > 0 {
                looks -= 1;
                pauses.snooze();
            } else {
                self.parker.park();
            }
        }
    }

    /// Sets the limits of a drained queue. Fails with NotFrozen or NotDrained.
    ///
    /// Linux: from 6.9 on `queue_limits_commit_update` (block/blk-settings.c), under a freeze.
    ///
    /// # Preconditions
    ///
    /// - `self` belongs to `queue`.
    /// - `limits.hw()` is `self.queue.hardware`.
    pub fn set(&mut self, queue: &BlockQueue, limits: Limits) -> Result<(), FreezeFault> {
        self.core.set(&queue.core, limits)
    }

    /// Counts in this mode from now on, or once the queue is thawed if it is frozen. Depth and limits don't change.
    ///
    /// Linux: `percpu_ref_switch_to_atomic_sync`, `percpu_ref_switch_to_percpu` (lib/percpu-refcount.c).
    ///
    /// # Preconditions
    ///
    /// - `self` belongs to `queue`.
    pub fn mode(&mut self, queue: &BlockQueue, mode: Mode) {
        self.core.mode(&queue.core, mode);
    }

    /// Ends a freeze, and returns the depth that is left. The last thaw revives the gate, whether or not the queue is drained.
    /// Fails with NotFrozen.
    ///
    /// Linux: `blk_mq_unfreeze_queue` (block/blk-mq.c).
    ///
    /// # Preconditions
    ///
    /// - `self` belongs to `queue`.
    pub fn thaw(&mut self, queue: &BlockQueue) -> Result<u32, FreezeFault> {
        let thawed = self.core.thaw(&queue.core)?;
        if thawed.live {
            queue.wake_all(&self.core);
        }
        Ok(thawed.depth)
    }
}
