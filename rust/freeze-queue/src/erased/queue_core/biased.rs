// Erased from crates/queue_core/src/biased.rt by tools/erase: edit that file.
//! A tag that keeps its reference between requests.

use crate::erased::bias_lanes::{Lane, Stage};
use crate::erased::percpu_gate::{Pass, Put};
use crate::erased::queue_core::at_gate::{ask, come_in, look_in, put_once, take_out};
use crate::erased::queue_core::limit_words::LIMIT_WORDS;
use crate::erased::queue_core::parked::ParkedPass;
use crate::erased::queue_core::queue::BlockQueue;
use crate::erased::queue_core::tag::Tag;
use crate::erased::queue_limits::Limits;

/// The result of an attempt to enter.
#[derive(Clone, Copy, Debug, PartialEq, Eq)]
pub enum BiasedEntry {
    /// The tag is entered, until it leaves.
    Entered,
    /// The tag isn't entered, and isn't biased. Contains the result of dropping the reference that the attempt or the bias held. If it is
    /// `Last`, wake the freezer.
    Refused(Put),
    /// The tag isn't entered: the freezer has its reference in hand. Try again. If the freezer is under a lock, a try under that lock
    /// never returns this.
    InHand,
}

/// A tag that can be biased: it keeps its reference to the gate between requests, and enters and leaves by a store and a load.
///
/// Leaking a tag whose request is in keeps the queue from draining forever; leaking an idle tag doesn't.
pub struct BiasedTag {
    lane: Lane<ParkedPass>,
    /// The pass, while it is in the owner's hand; `None` while it is parked or the freezer has it in hand.
    pass: Option<Pass<LIMIT_WORDS>>,
    /// The limits that the tag read when it last entered the gate.
    limits: Limits,
    hardware: u32,
}

impl Tag {
    /// Returns a tag that can be biased, for one that isn't entered. Until it enters, its limits are these.
    ///
    /// # Preconditions
    ///
    /// - `self.entered()` is `false`.
    pub fn into_biased(self, limits: Limits) -> BiasedTag {
        debug_assert!(!self.entered());
        let (pass, hardware, lane) = self.into_parts();
        BiasedTag { lane, pass: Some(pass), limits, hardware }
    }
}

impl BiasedTag {
    /// Returns whether a request of this tag is in.
    #[inline]
    pub fn entered(&self) -> bool {
        match self.lane.stage() {
            Stage::Entered => true,
            Stage::Unbiased => self.is_in_at_gate(),
            _ => false,
        }
    }

    /// Returns whether its pass isn't in hand. A tag whose bias is over counts as biased until its pass is taken back.
    #[inline]
    pub fn is_biased(&self) -> bool {
        self.lane.stage() != Stage::Unbiased
    }

    /// Returns the number of the tag's lane, which no other tag of the queue has.
    #[inline]
    pub fn lane(&self) -> usize {
        self.lane.number()
    }

    /// Returns the limits in force, for an entered tag. They stay the same until it leaves.
    #[inline]
    pub fn limits(&self) -> Limits {
        self.limits
    }

    #[inline]
    fn is_in_at_gate(&self) -> bool {
        match &self.pass {
            Some(pass) => pass.held() == 1,
            None => false,
        }
    }

    /// Enters by the lane. Returns false if the tag isn't biased and idle, or its bias is over. If no request of it is in, call
    /// [`BiasedTag::enter_gate`].
    ///
    /// # Preconditions
    ///
    /// - `queue_of(self)` is `queue`.
    #[inline]
    pub fn try_enter_biased(&mut self, queue: &BlockQueue) -> bool {
        self.lane.stage() == Stage::Idle && self.lane.enter(&queue.lanes)
    }

    /// Leaves by the lane. Returns false if no request is in by the lane, or the bias is over. If a request was in by the lane, its bias is
    /// over: call [`BiasedTag::end_bias`].
    ///
    /// # Preconditions
    ///
    /// - `queue_of(self)` is `queue`.
    #[inline]
    pub fn leave_biased(&mut self, queue: &BlockQueue) -> bool {
        self.lane.stage() == Stage::Entered && self.lane.leave(&queue.lanes)
    }

    /// Enters unless the queue is frozen. A biased tag enters by its lane; any other tag enters the gate on this slot.
    ///
    /// # Preconditions
    ///
    /// - `queue_of(self)` is `queue`.
    /// - `slot` is less than `queue.slots()`.
    /// - `in_now(self)` is `false`.
    #[inline]
    pub fn try_enter(&mut self, queue: &BlockQueue, slot: u32) -> BiasedEntry {
        debug_assert!(slot < queue.slots());
        if self.try_enter_biased(queue) {
            return BiasedEntry::Entered;
        }
        self.enter_gate(queue, slot)
    }

    /// Enters the gate on this slot unless the queue is frozen. A parked pass is taken back first, and stays if it still has its reference.
    ///
    /// # Preconditions
    ///
    /// - `queue_of(self)` is `queue`.
    /// - `slot` is less than `queue.slots()`.
    /// - `in_now(self)` is `false`.
    pub fn enter_gate(&mut self, queue: &BlockQueue, slot: u32) -> BiasedEntry {
        debug_assert!(slot < queue.slots());
        if !take_out(&mut self.lane, &mut self.pass, queue) {
            return BiasedEntry::InHand;
        }
        let Some(pass) = &mut self.pass else {
            return BiasedEntry::InHand;
        };
        if let Some(put) = come_in(pass, &queue.gate, slot) {
            return BiasedEntry::Refused(put);
        }
        self.limits = ask(pass, queue);
        BiasedEntry::Entered
    }

    /// Enters a queue that may be frozen, to look at the requests in flight, unless it is drained. The tag isn't biased afterwards.
    ///
    /// # Preconditions
    ///
    /// - `queue_of(self)` is `queue`.
    /// - `slot` is less than `queue.slots()`.
    /// - `in_now(self)` is `false`.
    pub fn try_enter_frozen(&mut self, queue: &BlockQueue, slot: u32) -> BiasedEntry {
        debug_assert!(slot < queue.slots());
        if !take_out(&mut self.lane, &mut self.pass, queue) {
            return BiasedEntry::InHand;
        }
        let Some(pass) = &mut self.pass else {
            return BiasedEntry::InHand;
        };
        if let Some(put) = look_in(pass, &queue.gate, slot) {
            return BiasedEntry::Refused(put);
        }
        self.limits = ask(pass, queue);
        BiasedEntry::Entered
    }

    /// Leaves. If `keep` is true and the queue isn't frozen, a tag with no bias is parked with its reference to the gate. After the last
    /// put, wake the freezer.
    ///
    /// # Preconditions
    ///
    /// - `queue_of(self)` is `queue`.
    /// - `slot` is less than `queue.slots()`.
    /// - `in_now(self)` is `true`.
    #[inline]
    pub fn leave(&mut self, queue: &BlockQueue, slot: u32, keep: bool) -> Put {
        debug_assert!(slot < queue.slots());
        if self.leave_biased(queue) {
            return Put::NotLast;
        }
        self.leave_gate(queue, slot, keep)
    }

    /// If `keep` is true and the queue isn't frozen, parks the pass of a plain tag. Otherwise takes the pass back if it is parked, and
    /// leaves the gate.
    ///
    /// # Preconditions
    ///
    /// - `queue_of(self)` is `queue`.
    /// - `slot` is less than `queue.slots()`.
    /// - `not_in_lane(stage(self))` is `true`.
    /// - If `is_plain(self)` is `true`, then `in_now(self)` is `true`.
    fn leave_gate(&mut self, queue: &BlockQueue, slot: u32, keep: bool) -> Put {
        debug_assert!(slot < queue.slots());
        if keep && self.lane.stage() == Stage::Unbiased {
            if self.park(queue, slot) {
                return Put::NotLast;
            }
            return self.leave_unparked(queue, slot);
        }
        self.leave_unparked(queue, slot)
    }

    /// Leaves the gate. If the freezer has the pass in hand, the freezer leaves with it instead.
    ///
    /// # Preconditions
    ///
    /// - `queue_of(self)` is `queue`.
    /// - `slot` is less than `queue.slots()`.
    /// - `not_in_lane(stage(self))` is `true`.
    fn leave_unparked(&mut self, queue: &BlockQueue, slot: u32) -> Put {
        debug_assert!(slot < queue.slots());
        match self.end_bias(queue, slot) {
            Some(put) => put,
            None => Put::NotLast,
        }
    }

    /// Leaves and keeps the reference: parks the pass of a plain tag that is in, unless the queue is frozen. Returns whether it is biased.
    /// If it isn't, call [`BiasedTag::end_bias`].
    ///
    /// # Preconditions
    ///
    /// - `queue_of(self)` is `queue`.
    /// - `slot` is less than `queue.slots()`.
    /// - `is_plain(self)` is `true`.
    /// - `in_now(self)` is `true`.
    pub fn park(&mut self, queue: &BlockQueue, slot: u32) -> bool {
        debug_assert!(slot < queue.slots());
        let Some(pass) = self.pass.take() else {
            return false;
        };
        queue.count_parked();
        match self.lane.park(&queue.lanes, ParkedPass { pass, slot }) {
            Ok(biased) => biased,
            Err(parked) => {
                queue.count_back();
                self.pass = Some(parked.pass);
                false
            }
        }
    }

    /// Ends the bias of a tag that has no request in by its lane. If it is entered at the gate, it leaves. Returns the put, or `None`
    /// if the freezer has the reference in hand: then the tag counts as left, and the caller has to call again.
    ///
    /// # Preconditions
    ///
    /// - `queue_of(self)` is `queue`.
    /// - `slot` is less than `queue.slots()`.
    /// - `not_in_lane(stage(self))` is `true`.
    pub fn end_bias(&mut self, queue: &BlockQueue, slot: u32) -> Option<Put> {
        debug_assert!(slot < queue.slots());
        if !take_out(&mut self.lane, &mut self.pass, queue) {
            return None;
        }
        let pass = self.pass.as_mut()?;
        Some(put_once(pass, &queue.gate, slot))
    }

    /// Returns the tag without a bias, or this one if its bias hasn't ended.
    pub fn into_tag(self) -> Result<Tag, BiasedTag> {
        let BiasedTag { lane, pass, limits, hardware } = self;
        match pass {
            Some(pass) => Ok(Tag::of_parts(pass, hardware, lane)),
            None => Err(BiasedTag { lane, pass: None, limits, hardware }),
        }
    }
}
