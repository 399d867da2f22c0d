// Erased from crates/freeze_queue/src/queue.rt by tools/erase: edit that file.
//! The queue that tags enter and leave, and where threads wait for it.

use crate::erased::crossbeam_utils::sync::{Parker, Unparker};
use crate::erased::fallible::TryClone;
use crate::erased::freeze_queue::enter::Enter;
use crate::erased::freeze_queue::freezer::Freezer;
use crate::erased::percpu_core::SLOT_LIMIT;
use crate::erased::queue_core::{self, Entry, Limits, MOST_TAGS, Memory, Put, Tag};
use crate::erased::wait_queue::WaitQueue;

/// A queue, its freezer and its tags.
pub type NewQueue = (BlockQueue, Freezer, Vec<Tag>);

/// A queue that requests enter and leave and that can be frozen. Threads share it by reference. Linux: `struct
/// request_queue` (include/linux/blkdev.h).
pub struct BlockQueue {
    pub(crate) core: queue_core::BlockQueue,
    /// Wakes the freezer, which parks until the queue is drained.
    pub(crate) freezer: Unparker,
    /// The threads that wait for the drain by a shared freezer. Linux: `mq_freeze_wq`, on which all threads wait.
    pub(crate) drained: WaitQueue,
    /// The threads that wait to enter.
    pub(crate) thawed: WaitQueue,
}

impl BlockQueue {
    /// Returns a live queue with these limits that counts on its slots (1 to 512), its freezer, and this many tags (1 to 1,023),
    /// none of which is entered. Returns Memory if memory is refused.
    ///
    /// Linux: `blk_mq_init_queue`, from 6.9 on `blk_mq_alloc_queue` (block/blk-mq.c).
    ///
    /// # Preconditions
    ///
    /// - `slots` is from 1 to `SLOT_LIMIT`.
    /// - `tags` is from 1 to `MOST_TAGS`.
    pub fn new(limits: Limits, slots: u32, tags: u32) -> Result<NewQueue, Memory> {
        debug_assert!(1 <= slots);
        debug_assert!(slots <= SLOT_LIMIT);
        debug_assert!(1 <= tags);
        debug_assert!(tags <= MOST_TAGS);
        let parker = Parker::try_new()?;
        let unparker = parker.unparker().try_clone()?;
        let (core, freezer, made) = queue_core::BlockQueue::new(limits, slots, tags)?;
        let queue = BlockQueue { core, freezer: unparker, drained: WaitQueue::new(), thawed: WaitQueue::new() };
        let freezer = Freezer { core: freezer, parker };
        Ok((queue, freezer, made))
    }

    /// Returns the number of slots, 1 to 512.
    #[inline]
    pub fn slots(&self) -> u32 {
        self.core.slots()
    }

    /// Wakes the threads that wait for the drain, if this put was the last: they then find the queue drained.
    #[inline]
    pub(crate) fn tell(&self, put: Put) -> Put {
        if put == Put::Last {
            self.wake_drained(put);
        }
        put
    }

    /// Wakes the threads that wait for the drain, after the last put. Any other put wakes nobody.
    ///
    /// # Preconditions
    ///
    /// - `put` is `Last`.
    #[inline]
    fn wake_drained(&self, _put: Put) {
        self.freezer.unpark();
        self.drained.wake_all();
    }

    /// Wakes all waiters, after the freezer has revived the gate: a thread woken earlier would be refused, and might be asleep
    /// again by the time the gate is live. A thread that waits for the drain of a freeze that has ended sees no freeze in progress.
    ///
    /// # Preconditions
    ///
    /// - `freezer` belongs to `self`.
    /// - `freezer.live` is `true`.
    pub(crate) fn wake_all(&self, _freezer: &queue_core::Freezer) {
        self.thawed.wake_all();
        self.drained.wake_all();
    }

    /// Enters unless the queue is frozen. Linux: `blk_queue_enter` with BLK_MQ_REQ_NOWAIT (block/blk-core.c).
    ///
    /// A refused try holds a reference briefly, and so delays the drain; for that reason `enter` backs off. In Linux
    /// `percpu_ref_tryget_live` looks at its mark first, and counts nothing if it is set.
    ///
    /// # Preconditions
    ///
    /// - `tag` belongs to `self`.
    /// - `slot` is less than `self.slots()`.
    /// - `tag.entered()` is `false`.
    #[inline]
    pub fn try_enter(&self, tag: &mut Tag, slot: u32) -> Enter {
        debug_assert!(slot < self.slots());
        debug_assert!(!tag.entered());
        match self.core.try_enter(tag, slot) {
            Entry::Entered => Enter::Entered,
            Entry::Refused(put) => {
                let _put = self.tell(put);
                Enter::Again
            }
        }
    }

    /// Enters a queue that may be frozen, to look at the requests in flight, unless it is drained. Until the tag leaves, it holds
    /// off the drain and may read the limits.
    ///
    /// Linux: `percpu_ref_tryget` of `q_usage_counter`, as for timeouts and iterating over tags (block/blk-mq.c,
    /// block/blk-mq-tag.c).
    ///
    /// # Preconditions
    ///
    /// - `tag` belongs to `self`.
    /// - `slot` is less than `self.slots()`.
    /// - `tag.entered()` is `false`.
    #[inline]
    pub fn try_enter_frozen(&self, tag: &mut Tag, slot: u32) -> Enter {
        debug_assert!(slot < self.slots());
        debug_assert!(!tag.entered());
        match self.core.try_enter_frozen(tag, slot) {
            Entry::Entered => Enter::Entered,
            Entry::Refused(put) => {
                let _put = self.tell(put);
                Enter::Again
            }
        }
    }

    /// Enters, and waits while the queue is frozen. Linux: `blk_queue_enter` (block/blk-core.c), which sleeps on
    /// `mq_freeze_wq`.
    ///
    /// # Preconditions
    ///
    /// - `tag` belongs to `self`.
    /// - `slot` is less than `self.slots()`.
    /// - `tag.entered()` is `false`.
    #[inline]
    pub fn enter(&self, tag: &mut Tag, slot: u32) {
        debug_assert!(slot < self.slots());
        debug_assert!(!tag.entered());
        if self.try_enter(tag, slot) == Enter::Again {
            self.enter_once_thawed(tag, slot);
        }
    }

    // Waits between its tries. Separate from `enter`, so that `enter` on a live queue is one try and nothing else.
    //
    // # Preconditions
    //
    // - `tag` belongs to `self`.
    // - `slot` is less than `self.slots()`.
    // - `tag.entered()` is `false`.
    fn enter_once_thawed(&self, tag: &mut Tag, slot: u32) {
        debug_assert!(slot < self.slots());
        debug_assert!(!tag.entered());
        for _ in self.thawed.tries() {
            if self.try_enter(tag, slot) == Enter::Entered {
                return;
            }
        }
        unreachable!()
    }

    /// Leaves. Returns `Last` if this was the last put of a freeze: then the queue is drained. Linux: `blk_queue_exit`
    /// (block/blk-core.c).
    ///
    /// # Preconditions
    ///
    /// - `tag` belongs to `self`.
    /// - `slot` is less than `self.slots()`.
    /// - `tag.entered()` is `true`.
    #[inline]
    pub fn leave(&self, tag: &mut Tag, slot: u32) -> Put {
        debug_assert!(slot < self.slots());
        debug_assert!(tag.entered());
        self.tell(self.core.leave(tag, slot))
    }

    /// Returns the limits in force, for an entered tag. They are the same at each call until it leaves, whichever threads make the
    /// calls.
    ///
    /// # Preconditions
    ///
    /// - `tag` belongs to `self`.
    /// - `tag.entered()` is `true`.
    #[inline]
    pub fn limits(&self, tag: &mut Tag) -> Limits {
        debug_assert!(tag.entered());
        self.core.limits(tag)
    }
}
