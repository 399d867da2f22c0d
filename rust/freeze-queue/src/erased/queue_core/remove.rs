// Erased from crates/queue_core/src/remove.rt by tools/erase: edit that file.
//! The removal of a queue.

use crate::erased::percpu_gate::Final;
use crate::erased::queue_core::fault::FreezeFault;
use crate::erased::queue_core::freezer::Freezer;
use crate::erased::queue_core::limit_words::LIMIT_WORDS;
use crate::erased::queue_core::queue::BlockQueue;
use crate::erased::queue_core::tag::Tag;
use alloc::vec::Vec;

/// A queue that may not end, with its freezer and tags, all unchanged.
pub struct RemoveFault {
    pub why: FreezeFault,
    pub freezer: Freezer,
    pub queue: BlockQueue,
    pub tags: Vec<Tag>,
}

/// Takes all tags back from a frozen queue, and ends it.
///
/// # Preconditions
///
/// - `freezer` belongs to `queue`.
/// - For each `t` of `tags` `t` belongs to `queue`.
/// - For each `t` of `tags` `t.entered` is `false`.
/// - `freezer.live` is `false`.
/// - `freezer.tags()` is at most `tags.len()`.
fn end(mut freezer: Freezer, queue: BlockQueue, tags: Vec<Tag>) -> Final<LIMIT_WORDS> {
    for tag in tags {
        freezer.take_back(&queue, tag);
    }
    match queue.gate.exit(freezer.into_control()) {
        Ok(left) => left,
        Err(_) => unreachable!(),
    }
}

impl Freezer {
    /// Freezes a queue before its removal, given the number of tags handed back, unless it is frozen already. Refuses
    /// with TagsOut or WornOut.
    ///
    /// # Preconditions
    ///
    /// - `self` belongs to `queue`.
    fn freeze_to_end(&mut self, queue: &BlockQueue, tags: usize) -> Result<(), FreezeFault> {
        let missing = (self.tags() as usize).saturating_sub(tags);
        if missing > 0 {
            return Err(FreezeFault::TagsOut(missing as u32));
        }
        if self.depth() == 0 {
            self.start_freeze(queue)?;
        }
        Ok(())
    }

    /// Ends a queue in which no tag is entered, with all its tags: kills a live gate, takes the tags back and ends the
    /// gate. Refuses with TagsOut if tags are missing, or with WornOut. Linux: `blk_mq_destroy_queue` (block/blk-mq.c).
    ///
    /// # Preconditions
    ///
    /// - `self` belongs to `queue`.
    /// - For each `t` of `tags` `t` belongs to `queue`.
    /// - For each `t` of `tags` `t.entered` is `false`.
    pub fn remove(mut self, queue: BlockQueue, tags: Vec<Tag>) -> Result<Final<LIMIT_WORDS>, RemoveFault> {
        match self.freeze_to_end(&queue, tags.len()) {
            Ok(()) => Ok(end(self, queue, tags)),
            Err(why) => Err(RemoveFault { why, freezer: self, queue, tags }),
        }
    }
}
