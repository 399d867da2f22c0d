// Erased from crates/freeze_queue/src/lanes.rt by tools/erase: edit that file.
//! Entering and leaving with a biased tag, which keeps its reference between requests.

use crate::erased::freeze_queue::queue::BlockQueue;
use crate::erased::queue_core::{BiasedEntry, BiasedTag, Put};

impl BlockQueue {
    /// Wakes the threads that wait for the drain, if an attempt that was refused put the last reference.
    #[inline]
    fn told(&self, entry: BiasedEntry) -> BiasedEntry {
        if let BiasedEntry::Refused(put) = entry {
            let _put = self.tell(put);
        }
        entry
    }

    /// Enters unless the queue is frozen: by the tag's lane if it is biased, otherwise by the gate on this slot.
    ///
    /// Linux: `blk_queue_enter` with BLK_MQ_REQ_NOWAIT (block/blk-core.c).
    ///
    /// # Preconditions
    ///
    /// - `queue_of(tag)` is `self`.
    /// - `slot` is less than `self.slots()`.
    /// - `in_now(tag)` is `false`.
    #[inline]
    pub fn try_enter_by_lane(&self, tag: &mut BiasedTag, slot: u32) -> BiasedEntry {
        debug_assert!(slot < self.slots());
        self.told(tag.try_enter(&self.core, slot))
    }

    /// Enters, and waits while the queue is frozen. Linux: `blk_queue_enter` (block/blk-core.c).
    ///
    /// # Preconditions
    ///
    /// - `queue_of(tag)` is `self`.
    /// - `slot` is less than `self.slots()`.
    /// - `in_now(tag)` is `false`.
    #[inline]
    pub fn enter_by_lane(&self, tag: &mut BiasedTag, slot: u32) {
        debug_assert!(slot < self.slots());
        if self.try_enter_by_lane(tag, slot) != BiasedEntry::Entered {
            self.enter_by_lane_once_thawed(tag, slot);
        }
    }

    // Waits between its tries, as `enter_once_thawed` does.
    //
    // # Preconditions
    //
    // - `queue_of(tag)` is `self`.
    // - `slot` is less than `self.slots()`.
    // - `in_now(tag)` is `false`.
    fn enter_by_lane_once_thawed(&self, tag: &mut BiasedTag, slot: u32) {
        debug_assert!(slot < self.slots());
        for _ in self.thawed.tries() {
            if self.try_enter_by_lane(tag, slot) == BiasedEntry::Entered {
                return;
            }
        }
        unreachable!()
    }

    /// Enters a queue that may be frozen, to look at the requests in flight, unless it is drained. The tag isn't biased afterwards.
    ///
    /// Linux: `percpu_ref_tryget` of `q_usage_counter`, as for timeouts and iterating over tags (block/blk-mq.c,
    /// block/blk-mq-tag.c).
    ///
    /// # Preconditions
    ///
    /// - `queue_of(tag)` is `self`.
    /// - `slot` is less than `self.slots()`.
    /// - `in_now(tag)` is `false`.
    #[inline]
    pub fn look_in(&self, tag: &mut BiasedTag, slot: u32) -> BiasedEntry {
        debug_assert!(slot < self.slots());
        self.told(tag.try_enter_frozen(&self.core, slot))
    }

    /// Leaves, by the tag's lane if it is in by it. If `keep` is true and the queue isn't frozen, a tag with no bias is biased from then
    /// on. Returns `Last` if this was the last put of a freeze: then the queue is drained.
    ///
    /// Linux: `blk_queue_exit` (block/blk-core.c).
    ///
    /// # Preconditions
    ///
    /// - `queue_of(tag)` is `self`.
    /// - `slot` is less than `self.slots()`.
    /// - `in_now(tag)` is `true`.
    #[inline]
    pub fn leave_by_lane(&self, tag: &mut BiasedTag, slot: u32, keep: bool) -> Put {
        debug_assert!(slot < self.slots());
        self.tell(tag.leave(&self.core, slot, keep))
    }

    /// Ends the bias of a tag that has no request in by its lane; if it is entered at the gate, it leaves. Returns None while a freezer
    /// has its reference in hand, which takes a few steps, and never under the lock of a shared freezer: then call again.
    ///
    /// # Preconditions
    ///
    /// - `queue_of(tag)` is `self`.
    /// - `slot` is less than `self.slots()`.
    /// - `not_in_lane(stage(tag))` is `true`.
    pub fn end_bias(&self, tag: &mut BiasedTag, slot: u32) -> Option<Put> {
        debug_assert!(slot < self.slots());
        let put = tag.end_bias(&self.core, slot)?;
        Some(self.tell(put))
    }
}
