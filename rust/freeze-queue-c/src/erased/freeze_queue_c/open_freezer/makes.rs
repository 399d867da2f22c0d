// Erased from crates/freeze_queue_c/src/open_freezer/makes.rt by tools/erase: edit that file.
//! A new queue.

use super::OpenFreezer;
use super::ends::Parts;
use crate::erased::c_answers::{DrawnNumber, Misuse};
use crate::erased::freeze_queue_c::plain_limits::PlainLimits;
use crate::erased::freeze_queue_c::refusal::Refusal;
use crate::erased::percpu_core::SLOT_LIMIT;
use crate::erased::pointers::Arc;
use crate::erased::queue_core::{BlockQueue, Limits, MOST_TAGS};

/// The misuse of a queue size that no queue has.
fn refuse_size(slots: u32, tags: u32) -> Result<(), Misuse> {
    if slots == 0 || slots > SLOT_LIMIT || tags == 0 || tags > MOST_TAGS { Err(Misuse::Size) } else { Ok(()) }
}

/// Returns these limits if a queue may have them and the sizes. Refuses with the limits' faults, then with Size.
fn checked(limits: &PlainLimits, slots: u32, tags: u32) -> Result<Limits, Refusal> {
    match limits.checked() {
        Err(why) => Err(Refusal::OfLimits(why)),
        Ok(limits) => match refuse_size(slots, tags) {
            Ok(()) => Ok(limits),
            Err(why) => Err(Refusal::OfMisuse(why)),
        },
    }
}

impl OpenFreezer {
    /// Makes a freezer from its parts.
    ///
    /// # Preconditions
    ///
    /// - `parts.freezer.queue` is `arc_value(queue)`.
    /// - `parts.tags` is `parts.freezer.tags`.
    /// - `parts.tags` is at most `vec_capacity(parts.waiting)`.
    /// - `All(Waits(arc_value(queue)), parts.waiting)`.
    /// - `parts.waiting.len()` is at most `parts.tags`.
    pub(super) fn of(queue: Arc<BlockQueue>, parts: Parts) -> OpenFreezer {
        let Parts { number, tags, waiting, freezer } = parts;
        OpenFreezer { before: [0; 16], queue, number, tags, waiting, freezer, after: [0; 16] }
    }

    /// Makes the freezer of a new queue. Refuses with the limits' faults, Size or Memory.
    pub fn new(number: DrawnNumber, limits: &PlainLimits, slots: u32, tags: u32) -> Result<OpenFreezer, Refusal> {
        let limits = checked(limits, slots, tags)?;
        let Ok((queue, freezer, waiting)) = BlockQueue::new(limits, slots, tags) else {
            return Err(Refusal::OfMisuse(Misuse::Memory));
        };
        let Ok(queue) = Arc::try_new(queue) else {
            return Err(Refusal::OfMisuse(Misuse::Memory));
        };
        let parts = Parts { number, tags, waiting, freezer };
        Ok(OpenFreezer::of(queue, parts))
    }
}
