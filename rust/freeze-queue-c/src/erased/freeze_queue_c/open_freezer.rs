// Erased from crates/freeze_queue_c/src/open_freezer.rt by tools/erase: edit that file.
//! The box of an open freezer handle.

mod ends;
mod makes;
mod tags;

use crate::erased::c_answers::{DrawnNumber, Misuse};
use crate::erased::freeze_queue_c::begun::Begun;
use crate::erased::freeze_queue_c::plain_limits::PlainLimits;
use crate::erased::freeze_queue_c::refusal::Refusal;
use crate::erased::pointers::Arc;
use crate::erased::queue_core::{BlockQueue, FreezeFault, Freezer, Limits, Mode, Tag, Thawed};
use alloc::vec::Vec;
pub use ends::KeptFreezer;

/// The freezer with its queue, the queue's number, and the tags that no handle has.
#[repr(C)]
pub struct OpenFreezer {
    before: [u64; 16],
    queue: Arc<BlockQueue>,
    number: DrawnNumber,
    /// The number of tags of the queue.
    tags: u32,
    waiting: Vec<Tag>,
    freezer: Freezer,
    after: [u64; 16],
}

/// The mode with this number.
fn mode_of(mode: u32) -> Mode {
    if mode == 0 { Mode::Slots } else { Mode::Atomic }
}

impl OpenFreezer {
    /// Starts a freeze, and looks whether the queue is drained.
    pub fn start_freeze(&mut self) -> Result<Result<Begun, FreezeFault>, Misuse> {
        let depth = match self.freezer.start_freeze(&self.queue) {
            Ok(frozen) => frozen.depth,
            Err(why) => return Ok(Err(why)),
        };
        let drained = self.freezer.poll_drained(&self.queue);
        Ok(Ok(Begun { depth, drained }))
    }

    /// Whether one look finds the queue frozen and drained.
    pub fn poll_drained(&mut self) -> bool {
        self.freezer.poll_drained(&self.queue)
    }

    /// Returns the limits to be set. Refuses with the limits' faults or OtherHardware.
    fn checked(&self, limits: &PlainLimits) -> Result<Limits, Refusal> {
        match limits.checked() {
            Err(why) => Err(Refusal::OfLimits(why)),
            Ok(limits) if limits.hw() != self.freezer.limits().hw() => Err(Refusal::OtherHardware),
            Ok(limits) => Ok(limits),
        }
    }

    /// Sets the limits of a drained queue.
    fn commit(&mut self, limits: &PlainLimits) -> Result<(), Refusal> {
        let limits = self.checked(limits)?;
        match self.freezer.set(&self.queue, limits) {
            Ok(()) => Ok(()),
            Err(why) => Err(Refusal::OfQueue(why)),
        }
    }

    /// Sets the limits of a drained queue.
    pub fn set(&mut self, limits: &PlainLimits) -> Result<Result<(), Refusal>, Misuse> {
        Ok(self.commit(limits))
    }

    /// Ends a freeze.
    pub fn thaw(&mut self) -> Result<Result<Thawed, FreezeFault>, Misuse> {
        Ok(self.freezer.thaw(&self.queue))
    }

    /// Counts in this mode from now on. Refuses with Mode.
    pub fn mode(&mut self, mode: u32) -> Result<(), Misuse> {
        if mode > 1 {
            return Err(Misuse::Mode);
        }
        self.freezer.mode(&self.queue, mode_of(mode));
        Ok(())
    }

    /// The number of freezes that aren't thawed yet.
    pub fn depth(&mut self) -> Result<u32, Misuse> {
        Ok(self.freezer.depth())
    }

    /// The limits in force.
    pub fn limits(&mut self) -> Result<PlainLimits, Misuse> {
        Ok(PlainLimits::of(self.freezer.limits()))
    }

    /// The number of its queue.
    pub fn number(&self) -> DrawnNumber {
        self.number
    }
}
