// Erased from crates/freeze_queue/src/remove.rt by tools/erase: edit that file.
//! The removal of a queue.

use crate::erased::freeze_queue::freezer::Freezer;
use crate::erased::freeze_queue::queue::BlockQueue;
use crate::erased::queue_core::{Final, FreezeFault, LIMIT_WORDS, Tag};

/// A queue that can't be ended, with its freezer and tags, all unchanged.
pub struct RemoveFault {
    pub why: FreezeFault,
    pub freezer: Freezer,
    pub queue: BlockQueue,
    pub tags: Vec<Tag>,
}

impl RemoveFault {
    /// Returns the fault's number: 4 or 5.
    pub fn number(&self) -> u8 {
        self.why.number()
    }
}

impl Freezer {
    /// Ends a queue in which no tag is entered, with all its tags: kills a live gate, takes the tags back and ends the gate. Fails
    /// with TagsOut if tags are missing, or with WornOut.
    ///
    /// Linux: `blk_mq_destroy_queue` (block/blk-mq.c).
    ///
    /// # Preconditions
    ///
    /// - `self` belongs to `queue`.
    /// - For each `t` of `tags` `t` belongs to `queue`.
    /// - For each `t` of `tags` `t.entered` is `false`.
    pub fn remove(self, queue: BlockQueue, tags: Vec<Tag>) -> Result<Final<LIMIT_WORDS>, RemoveFault> {
        match self.core.remove(queue.core, tags) {
            Ok(left) => Ok(left),
            Err(fault) => Err(RemoveFault {
                why: fault.why,
                freezer: Freezer { core: fault.freezer, parker: self.parker },
                queue: BlockQueue {
                    core: fault.queue,
                    freezer: queue.freezer,
                    drained: queue.drained,
                    thawed: queue.thawed,
                },
                tags: fault.tags,
            }),
        }
    }
}
