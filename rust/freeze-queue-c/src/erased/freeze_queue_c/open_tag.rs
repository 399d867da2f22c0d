// Erased from crates/freeze_queue_c/src/open_tag.rt by tools/erase: edit that file.
//! The box of an open tag handle.

use crate::erased::c_answers::{DrawnNumber, Misuse};
use crate::erased::freeze_queue_c::plain_limits::PlainLimits;
use crate::erased::pointers::Arc;
use crate::erased::queue_core::{BiasedEntry, BiasedTag, BlockQueue, Put};

/// A tag with its queue, and the queue's unique number.
///
/// 128 unused bytes before and after what calls write keep the boxes of different threads from sharing 128 bytes.
#[repr(C)]
pub struct OpenTag {
    before: [u64; 16],
    pub(crate) queue: Arc<BlockQueue>,
    number: DrawnNumber,
    pub(crate) tag: BiasedTag,
    after: [u64; 16],
}

impl OpenTag {
    /// Makes the box's contents for a tag of this queue.
    ///
    /// # Preconditions
    ///
    /// - `queue_of(tag)` is `queue`.
    pub fn new(queue: Arc<BlockQueue>, number: DrawnNumber, tag: BiasedTag) -> OpenTag {
        OpenTag { before: [0; 16], queue, number, tag, after: [0; 16] }
    }

    /// The misuse of a slot that the queue doesn't have.
    fn refuse_slot(&self, slot: u32) -> Result<(), Misuse> {
        if slot < self.queue.slots() { Ok(()) } else { Err(Misuse::Slot) }
    }

    /// The misuse of entering by a tag that is in.
    fn refuse_enter(&self, slot: u32) -> Result<(), Misuse> {
        self.refuse_slot(slot)?;
        if self.tag.entered() { Err(Misuse::Entered) } else { Ok(()) }
    }

    /// The misuse of a tag that isn't in.
    fn refuse_outside(&self) -> Result<(), Misuse> {
        if self.tag.entered() { Ok(()) } else { Err(Misuse::NotEntered) }
    }

    /// Enters unless the queue is frozen. Refuses with Slot or Entered.
    pub fn try_enter(&mut self, slot: u32) -> Result<BiasedEntry, Misuse> {
        self.refuse_enter(slot)?;
        Ok(self.tag.try_enter(&self.queue, slot))
    }

    /// Enters to look at the requests in flight, unless the queue is drained. Refuses with Slot or Entered.
    pub fn try_enter_frozen(&mut self, slot: u32) -> Result<BiasedEntry, Misuse> {
        self.refuse_enter(slot)?;
        Ok(self.tag.try_enter_frozen(&self.queue, slot))
    }

    /// Leaves. If `keep` is true and the queue isn't frozen, a tag with no bias parks its reference. Refuses with Slot or NotEntered.
    pub fn leave(&mut self, slot: u32, keep: bool) -> Result<Put, Misuse> {
        self.refuse_slot(slot)?;
        self.refuse_outside()?;
        Ok(self.tag.leave(&self.queue, slot, keep))
    }

    /// The limits in force. Refuses with NotEntered.
    pub fn limits(&mut self) -> Result<PlainLimits, Misuse> {
        self.refuse_outside()?;
        Ok(PlainLimits::of(self.tag.limits()))
    }

    /// Ends the bias of a tag that isn't in, if it has one. Returns the put, or None if the freezer has the tag in hand.
    ///
    /// # Preconditions
    ///
    /// - `in_now(self.tag)` is `false`.
    pub fn end_bias(&mut self) -> Option<Put> {
        let slot = self.queue.slots() - 1;
        self.tag.end_bias(&self.queue, slot)
    }

    /// The number of the tag's queue.
    pub fn number(&self) -> DrawnNumber {
        self.number
    }

    /// Whether the tag has entered and not left.
    pub fn entered(&self) -> bool {
        self.tag.entered()
    }

    /// The tag alone.
    pub fn into_tag(self) -> BiasedTag {
        self.tag
    }
}
