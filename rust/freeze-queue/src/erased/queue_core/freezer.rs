// Erased from crates/queue_core/src/freezer.rt by tools/erase: edit that file.
//! The freezer: it freezes a queue, sets its limits and thaws it.

use crate::erased::bias_lanes::{Fenced, Freezer as LaneFreezer};
use crate::erased::percpu_gate::{Control, Mode, Put};
use crate::erased::queue_core::at_gate::put_once;
use crate::erased::queue_core::fault::FreezeFault;
use crate::erased::queue_core::limit_words::{LIMIT_WORDS, store_words};
use crate::erased::queue_core::parked::ParkedPass;
use crate::erased::queue_core::queue::BlockQueue;
use crate::erased::queue_core::tag::Tag;
use crate::erased::queue_limits::Limits;

/// Maximum number of freezes under way at once.
pub const MOST_DEPTH: u32 = 1_000;

/// The result of starting a freeze.
#[derive(Clone, Copy, Debug, PartialEq, Eq)]
pub struct Frozen {
    /// The number of freezes that aren't thawed yet, including this freeze.
    pub depth: u32,
    /// `Last` if this freeze found nobody in the queue: it is drained, and no other call returns that. Otherwise call
    /// `poll_drained`; if it returns false, a later put or refused try returns `Last`, unless the queue is thawed first.
    pub put: Put,
    /// `Last` if the put of a tag that this freeze found biased and idle was the last.
    pub reclaimed: Put,
}

/// The result of a thaw.
#[derive(Clone, Copy, Debug, PartialEq, Eq)]
pub struct Thawed {
    /// The number of freezes that are left.
    pub depth: u32,
    /// Whether the queue is live again: then the threads that wait to enter have to be woken.
    pub live: bool,
}

/// The one freezer of a queue: it counts freezes, and sets the limits while the queue is drained.
///
/// It moves between threads by ownership.
pub struct Freezer {
    control: Control<LIMIT_WORDS>,
    depth: u32,
    limits: Limits,
    lanes: LaneFreezer<ParkedPass>,
}

impl Freezer {
    /// The freezer of a new queue that counts on its slots.
    ///
    /// # Preconditions
    ///
    /// - `control` is `after_switch(Slots, fresh_control(control.gate, control.passes(), to_words(limits)))`.
    /// - `control.gate.start` is `Atomic`.
    /// - `lanes.lanes.key` is `control.gate`.
    /// - `lanes.view` is `new_freezer`.
    /// - `lanes.out` is `[]`.
    pub(crate) fn new(control: Control<LIMIT_WORDS>, limits: Limits, lanes: LaneFreezer<ParkedPass>) -> Freezer {
        Freezer { control, depth: 0, limits, lanes }
    }

    /// The number of freezes that aren't thawed yet: 0 to 1,000. The queue is live if it is 0. Linux: `mq_freeze_depth`
    /// (include/linux/blkdev.h).
    #[inline]
    pub fn depth(&self) -> u32 {
        self.depth
    }

    /// The number of tags that the freezer hasn't taken back: all of the queue's, until the queue ends.
    #[inline]
    pub fn tags(&self) -> u32 {
        self.control.passes()
    }

    /// The limits in force.
    #[inline]
    pub fn limits(&self) -> Limits {
        self.limits
    }

    /// Begins a freeze. Returns the depth, and `Last` if this call drained the queue. The first freeze kills the gate,
    /// so that no tag enters from then on, except to look; then it takes the bias of each idle tag away. Refuses with
    /// DepthFull or WornOut. Linux: `blk_freeze_queue_start` (block/blk-mq.c).
    ///
    /// # Preconditions
    ///
    /// - `self` belongs to `queue`.
    pub fn start_freeze(&mut self, queue: &BlockQueue) -> Result<Frozen, FreezeFault> {
        if self.depth >= MOST_DEPTH {
            return Err(FreezeFault::DepthFull);
        }
        let put = if self.depth == 0 {
            let put = self.control.kill(&queue.gate).map_err(|_| FreezeFault::WornOut)?;
            self.lanes.freeze(&queue.lanes);
            put
        } else {
            Put::NotLast
        };
        self.depth += 1;
        let reclaimed = if self.depth == 1 { self.reclaim_all(queue) } else { Put::NotLast };
        Ok(Frozen { depth: self.depth, put, reclaimed })
    }

    /// Takes the bias of each idle tag away. Returns `Last` if one of their puts was the last.
    ///
    /// # Preconditions
    ///
    /// - `self` belongs to `queue`.
    /// - `self.depth()` is at least 1.
    fn reclaim_all(&mut self, queue: &BlockQueue) -> Put {
        debug_assert!(0 < self.depth());
        if !queue.has_parked() {
            return Put::NotLast;
        }
        let fenced = self.lanes.fence();
        let mut last = Put::NotLast;
        for lane in 0..queue.lanes.count() {
            if self.reclaim(queue, lane, &fenced) == Put::Last {
                last = Put::Last;
            }
        }
        last
    }

    /// Looks at a lane behind the fence of this freeze, and drops the reference of the pass that is parked in it, if its owner is out.
    ///
    /// # Preconditions
    ///
    /// - `self` belongs to `queue`.
    /// - `lane` is less than `queue.lanes.id.slots`.
    /// - `self.depth()` is at least 1.
    /// - `fenced` is `epoch_after(self.depth(), self.kills)`.
    fn reclaim(&mut self, queue: &BlockQueue, lane: usize, fenced: &Fenced) -> Put {
        debug_assert!(0 < self.depth());
        if self.lanes.look(&queue.lanes, lane, fenced) {
            return Put::NotLast;
        }
        let Some(mut parked) = self.lanes.reclaim(&queue.lanes, lane) else {
            return Put::NotLast;
        };
        if parked.pass.held() == 1 {
            queue.count_back();
        }
        let put = put_once(&mut parked.pass, &queue.gate, parked.slot);
        self.lanes.restore(&queue.lanes, lane, parked);
        put
    }

    /// Whether one look finds the queue frozen and drained. Once it has returned true it does so until the last thaw.
    /// Linux: `percpu_ref_is_zero` in `blk_mq_freeze_queue_wait` (block/blk-mq.c).
    ///
    /// # Preconditions
    ///
    /// - `self` belongs to `queue`.
    pub fn poll_drained(&mut self, queue: &BlockQueue) -> bool {
        self.control.is_zero(&queue.gate)
    }

    /// Sets the limits of a drained queue. Refuses with NotFrozen or NotDrained. Linux: from 6.9 on
    /// `queue_limits_commit_update` (block/blk-settings.c), under a freeze.
    ///
    /// # Preconditions
    ///
    /// - `self` belongs to `queue`.
    /// - `limits.hw()` is `self.queue.hardware`.
    pub fn set(&mut self, queue: &BlockQueue, limits: Limits) -> Result<(), FreezeFault> {
        if self.depth == 0 {
            return Err(FreezeFault::NotFrozen);
        }
        if !self.poll_drained(queue) {
            return Err(FreezeFault::NotDrained);
        }
        store_words(&mut self.control, &queue.gate, limits.to_words());
        self.limits = limits;
        Ok(())
    }

    /// Counts in this mode from now on; if the queue is frozen, once it is thawed. Depth and limits stay. Linux:
    /// `percpu_ref_switch_to_atomic_sync`, `percpu_ref_switch_to_percpu` (lib/percpu-refcount.c).
    ///
    /// # Preconditions
    ///
    /// - `self` belongs to `queue`.
    pub fn mode(&mut self, queue: &BlockQueue, mode: Mode) {
        let switched = match mode {
            Mode::Atomic => self.control.switch_to_atomic(&queue.gate),
            Mode::Slots => self.control.switch_to_slots(&queue.gate),
        };
        debug_assert!(switched.is_ok());
    }

    /// Ends a freeze. Returns the depth that is left, and whether the queue is live again: then the threads that wait
    /// to enter have to be woken. The last thaw revives the gate, drained or not. Refuses with NotFrozen. Linux:
    /// `blk_mq_unfreeze_queue` (block/blk-mq.c).
    ///
    /// # Preconditions
    ///
    /// - `self` belongs to `queue`.
    pub fn thaw(&mut self, queue: &BlockQueue) -> Result<Thawed, FreezeFault> {
        if self.depth == 0 {
            return Err(FreezeFault::NotFrozen);
        }
        self.depth -= 1;
        if self.depth == 0 {
            let revived = self.control.resurrect(&queue.gate);
            debug_assert!(revived.is_ok());
            self.lanes.thaw(&queue.lanes);
        }
        Ok(Thawed { depth: self.depth, live: self.depth == 0 })
    }

    /// Takes a tag back.
    ///
    /// # Preconditions
    ///
    /// - `self` belongs to `queue`.
    /// - `tag` belongs to `queue`.
    /// - `tag.entered()` is `false`.
    pub(crate) fn take_back(&mut self, queue: &BlockQueue, tag: Tag) {
        debug_assert!(!tag.entered());
        self.control.retire(&queue.gate, tag.into_pass());
    }

    /// The control of a freezer that ends.
    pub(crate) fn into_control(self) -> Control<LIMIT_WORDS> {
        self.control
    }
}
