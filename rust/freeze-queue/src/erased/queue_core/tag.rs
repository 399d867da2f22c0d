// Erased from crates/queue_core/src/tag.rt by tools/erase: edit that file.
//! A tag: the right to have one request in flight.

use crate::erased::bias_lanes::Lane;
use crate::erased::percpu_gate::{Gate, Pass, Put};
use crate::erased::queue_core::limit_words::LIMIT_WORDS;
use crate::erased::queue_core::parked::ParkedPass;

/// The result of an attempt to enter.
#[derive(Clone, Copy, Debug, PartialEq, Eq)]
pub enum Entry {
    /// The tag is entered, until it leaves.
    Entered,
    /// The tag isn't entered. The failed try held a reference briefly; this is the result of dropping it. If it is
    /// `Last`, the queue is drained, and the freezer has to be woken.
    Refused(Put),
}

/// The result of `stay`.
#[derive(Clone, Copy, Debug, PartialEq, Eq)]
pub enum Stay {
    /// The queue is live. The tag is still entered, with the same limits.
    Stayed,
    /// The queue is frozen, so the tag has left; this is the result of dropping its reference. If it is `Last`, the
    /// queue is drained, and the freezer has to be woken.
    Left(Put),
}

/// The right to have one request in flight in one queue. Linux: a request's tag (block/blk-mq-tag.c).
///
/// It moves between threads with its request. Leaking an entered tag keeps the queue from draining forever.
pub struct Tag {
    pub(crate) pass: Pass<LIMIT_WORDS>,
    hardware: u32,
    /// By which it enters while it is biased.
    lane: Lane<ParkedPass>,
}

impl Tag {
    /// A tag that hasn't entered.
    ///
    /// # Preconditions
    ///
    /// - `pass` is `fresh_pass(pass.gate)`.
    /// - `lane.view.stage` is `Unbiased`.
    /// - `lane.lanes.key` is `pass.gate`.
    pub(crate) fn new(pass: Pass<LIMIT_WORDS>, hardware: u32, lane: Lane<ParkedPass>) -> Tag {
        Tag { pass, hardware, lane }
    }

    /// Whether the tag has entered its queue and not left.
    #[inline]
    pub fn entered(&self) -> bool {
        self.pass.held() == 1
    }

    /// Whether one load finds the gate killed and not revived yet.
    ///
    /// # Preconditions
    ///
    /// - `self.queue.gate` is `gate`.
    /// - `self.entered()` is `true`.
    #[inline]
    pub(crate) fn is_dying(&mut self, gate: &Gate<LIMIT_WORDS>) -> bool {
        debug_assert!(self.entered());
        self.pass.is_dying(gate)
    }

    /// The parts of a tag.
    pub(crate) fn into_parts(self) -> (Pass<LIMIT_WORDS>, u32, Lane<ParkedPass>) {
        (self.pass, self.hardware, self.lane)
    }

    /// A tag of these parts.
    ///
    /// # Preconditions
    ///
    /// - `pass.held()` is at most 1.
    /// - `lane.view.stage` is `Unbiased`.
    /// - `lane.lanes.key` is `pass.gate`.
    pub(crate) fn of_parts(pass: Pass<LIMIT_WORDS>, hardware: u32, lane: Lane<ParkedPass>) -> Tag {
        debug_assert!(pass.held() <= 1);
        Tag { pass, hardware, lane }
    }

    /// The pass of a tag that ends.
    pub(crate) fn into_pass(self) -> Pass<LIMIT_WORDS> {
        self.pass
    }
}
