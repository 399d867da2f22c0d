// Erased from crates/queue_core/src/queue.rt by tools/erase: edit that file.
//! The queue that tags enter and leave.

use crate::erased::AtomicU64;
use crate::erased::bias_lanes::Lanes;
use crate::erased::fallible::{AllocError, TryVec};
use crate::erased::percpu_core::SLOT_LIMIT;
use crate::erased::percpu_gate::{Gate, Memory, Pass, Put, Start, Tried};
use crate::erased::queue_core::freezer::Freezer;
use crate::erased::queue_core::limit_words::{LIMIT_WORDS, load_words};
use crate::erased::queue_core::parked::ParkedPass;
use crate::erased::queue_core::tag::{Entry, Stay, Tag};
use crate::erased::queue_limits::Limits;
use alloc::vec::Vec;
use core::sync::atomic::Ordering;

/// Maximum number of tags of a queue.
pub const MOST_TAGS: u32 = 1_023;

/// A queue, its freezer and its tags.
pub type NewQueue = (BlockQueue, Freezer, Vec<Tag>);

/// A queue that requests enter and leave and that can be frozen. Threads share it by reference. Linux: `struct
/// request_queue` (include/linux/blkdev.h).
pub struct BlockQueue {
    pub(crate) gate: Gate<LIMIT_WORDS>,
    pub(crate) hardware: u32,
    pub(crate) lanes: Lanes<ParkedPass>,
    /// An upper bound on the number of entered tags that are parked.
    pub(crate) biased: AtomicU64,
}

/// Makes a tag for each lane, with one of these new passes. No lane had an owner before.
///
/// # Preconditions
///
/// - For each `p` of `passes` `p` is `fresh_pass(gate)`.
/// - `lanes.key` is `gate`.
fn make_tags(
    mut passes: Vec<Pass<LIMIT_WORDS>>,
    hardware: u32,
    _gate: &Gate<LIMIT_WORDS>,
    lanes: &Lanes<ParkedPass>,
) -> Result<Vec<Tag>, AllocError> {
    let mut tags = Vec::try_with_room(lanes.count())?;
    for number in 0..lanes.count() {
        // The list has a pass for each lane, and no lane has an owner yet.
        let (Some(pass), Some(lane)) = (passes.pop(), lanes.owner(number)) else {
            return Err(AllocError);
        };
        tags.try_push(Tag::new(pass, hardware, lane))?;
    }
    Ok(tags)
}

impl BlockQueue {
    /// Returns a live queue with these limits that counts on its slots (1 to 512), its freezer, and this many tags (1
    /// to 1,023), none of which is entered. Returns Memory if an allocation was refused. Linux: `blk_mq_init_queue`,
    /// from 6.9 on `blk_mq_alloc_queue` (block/blk-mq.c).
    ///
    /// # Preconditions
    ///
    /// - `slots` is from 1 to `SLOT_LIMIT`.
    /// - `tags` is from 1 to `MOST_TAGS`.
    pub fn new(limits: Limits, slots: u32, tags: u32) -> Result<NewQueue, Memory> {
        debug_assert!(1 <= slots);
        debug_assert!(slots <= SLOT_LIMIT);
        debug_assert!(1 <= tags);
        debug_assert!(tags <= MOST_TAGS);
        let words = limits.to_words();
        let (gate, mut control, passes) = Gate::new(slots, tags, Start::Atomic, words)?;
        let switched = control.switch_to_slots(&gate);
        debug_assert!(switched.is_ok());
        let hardware = limits.hw();
        let (lanes, looker) = Lanes::new(tags as usize)?;
        let made = make_tags(passes, hardware, &gate, &lanes)?;
        let queue = BlockQueue { gate, hardware, lanes, biased: AtomicU64::new(0) };
        Ok((queue, Freezer::new(control, limits, looker), made))
    }

    /// Counts an entered tag that is about to be parked.
    pub(crate) fn count_parked(&self) {
        self.biased.fetch_add(1, Ordering::SeqCst);
    }

    /// Takes a tag off the count, because it isn't parked or isn't entered any more.
    pub(crate) fn count_back(&self) {
        self.biased.fetch_sub(1, Ordering::SeqCst);
    }

    /// Returns whether an entered tag may be parked.
    pub(crate) fn has_parked(&self) -> bool {
        self.biased.load(Ordering::SeqCst) != 0
    }

    /// The number of slots: 1 to 512.
    #[inline]
    pub fn slots(&self) -> u32 {
        self.gate.slots()
    }

    /// Enters unless the queue is frozen. A refused try has held a reference briefly: if dropping it was the last put,
    /// wake the freezer. Linux: `blk_queue_enter` with BLK_MQ_REQ_NOWAIT (block/blk-core.c).
    ///
    /// A refused try is counted briefly, and so delays the drain; in Linux `percpu_ref_tryget_live` looks at its mark
    /// first, and counts nothing if it is set. So let time pass between tries.
    ///
    /// # Preconditions
    ///
    /// - `tag` belongs to `self`.
    /// - `slot` is less than `self.slots()`.
    /// - `tag.entered()` is `false`.
    #[inline]
    pub fn try_enter(&self, tag: &mut Tag, slot: u32) -> Entry {
        debug_assert!(slot < self.slots());
        debug_assert!(!tag.entered());
        match tag.pass.try_get_live(&self.gate, slot) {
            Tried::Given => Entry::Entered,
            Tried::Refused(put) => Entry::Refused(put),
        }
    }

    /// Enters a queue that may be frozen, to look at what is in flight, unless it is drained. Until the tag leaves it
    /// keeps the queue from draining, and may read the limits. Linux: `percpu_ref_tryget` of `q_usage_counter`, as for timeouts
    /// and iterating over tags (block/blk-mq.c, block/blk-mq-tag.c).
    ///
    /// # Preconditions
    ///
    /// - `tag` belongs to `self`.
    /// - `slot` is less than `self.slots()`.
    /// - `tag.entered()` is `false`.
    #[inline]
    pub fn try_enter_frozen(&self, tag: &mut Tag, slot: u32) -> Entry {
        debug_assert!(slot < self.slots());
        debug_assert!(!tag.entered());
        match tag.pass.try_get(&self.gate, slot) {
            Tried::Given => Entry::Entered,
            Tried::Refused(put) => Entry::Refused(put),
        }
    }

    /// Leaves. Returns `Last` if this was the last put of a freeze: the queue is drained, and the freezer has to be
    /// woken. Linux: `blk_queue_exit` (block/blk-core.c).
    ///
    /// # Preconditions
    ///
    /// - `tag` belongs to `self`.
    /// - `slot` is less than `self.slots()`.
    /// - `tag.entered()` is `true`.
    #[inline]
    pub fn leave(&self, tag: &mut Tag, slot: u32) -> Put {
        debug_assert!(slot < self.slots());
        debug_assert!(tag.entered());
        tag.pass.put(&self.gate, slot, 1)
    }

    /// Stays entered between two requests, for the cost of one load. If the queue is frozen, it leaves instead. A tag
    /// that stays keeps its limits. If leaving was the last put, wake the freezer. Linux: the requests that a plug
    /// keeps, each with its reference on `q_usage_counter` (block/blk-mq.c).
    ///
    /// A thread that stays and then sleeps delays every freeze, so leave before waiting.
    ///
    /// # Preconditions
    ///
    /// - `tag` belongs to `self`.
    /// - `slot` is less than `self.slots()`.
    /// - `tag.entered()` is `true`.
    #[inline]
    pub fn stay(&self, tag: &mut Tag, slot: u32) -> Stay {
        debug_assert!(slot < self.slots());
        debug_assert!(tag.entered());
        if tag.is_dying(&self.gate) {
            return Stay::Left(self.leave(tag, slot));
        }
        Stay::Stayed
    }

    /// The limits in force, for an entered tag: the same at each call until it leaves, whichever threads make the
    /// calls.
    ///
    /// # Preconditions
    ///
    /// - `tag` belongs to `self`.
    /// - `tag.entered()` is `true`.
    #[inline]
    pub fn limits(&self, tag: &mut Tag) -> Limits {
        debug_assert!(tag.entered());
        Limits::from_words(self.hardware, load_words(&mut tag.pass, &self.gate))
    }
}
