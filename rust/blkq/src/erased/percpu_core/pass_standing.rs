// Erased from crates/percpu_core/src/pass_standing.rt by tools/erase: edit that file.
//! The state of a pass between two of its steps.

use crate::erased::percpu_core::not_enabled::NotEnabled;
use crate::erased::percpu_core::pass_event::PassEvent;
use crate::erased::percpu_core::sizes::Sizes;
use crate::erased::percpu_core::{HELD_LIMIT, Reply};

/// The step that a pass has to take before any other.
#[derive(Clone, Copy, Debug, PartialEq, Eq)]
pub enum Pending {
    Nothing,
    /// The pass has to undo the 1 that a refused try added.
    OneToUndo,
    /// The pass has to mark zero, because its subtraction left DEAD alone.
    ZeroToMark,
}

impl Pending {
    /// Whether another step has to be taken before this step.
    fn is_mid_call(self, event: PassEvent) -> bool {
        match (self, event) {
            (Pending::Nothing, _) | (Pending::OneToUndo, PassEvent::Undo) | (Pending::ZeroToMark, PassEvent::Mark) => {
                false
            }
            _ => true,
        }
    }

    /// Whether there is nothing to undo or to mark.
    fn is_out_of_turn(self, event: PassEvent) -> bool {
        self == Pending::Nothing && matches!(event, PassEvent::Undo | PassEvent::Mark)
    }

    /// The pending step after the reply to a step.
    fn after(reply: Reply) -> Pending {
        match reply {
            Reply::Refused => Pending::OneToUndo,
            Reply::ToMark => Pending::ZeroToMark,
            _ => Pending::Nothing,
        }
    }
}

/// The number of references that a pass holds, and its pending step.
#[derive(Clone, Copy, Debug, PartialEq, Eq)]
pub struct PassStanding {
    pub held: u32,
    pub pending: Pending,
}

impl PassStanding {
    /// Why the step isn't enabled, at a gate of these sizes. The order of the tests is part of the result.
    pub(crate) fn refusal(self, sizes: Sizes, event: PassEvent) -> Option<NotEnabled> {
        if event.names_no_slot(sizes.slots) {
            Some(NotEnabled::NoSuchSlot)
        } else if event.names_no_word(sizes.words) {
            Some(NotEnabled::NoSuchWord)
        } else if self.pending.is_mid_call(event) {
            Some(NotEnabled::MidCall)
        } else if self.pending.is_out_of_turn(event) {
            Some(NotEnabled::WrongPhase)
        } else if self.held < event.needed() {
            Some(NotEnabled::NothingHeld)
        } else if event.has_bad_amount() {
            Some(NotEnabled::BadAmount)
        } else if self.overfills(event) {
            Some(NotEnabled::HeldFull)
        } else {
            None
        }
    }

    /// Whether the pass has no room for the references that the step takes.
    fn overfills(self, event: PassEvent) -> bool {
        let (held, limit) = (u64::from(self.held), u64::from(HELD_LIMIT));
        match event {
            PassEvent::AddTry | PassEvent::AddLive => held + 1 > limit,
            PassEvent::AddGet(n) | PassEvent::Take { n, .. } => held + u64::from(n) > limit,
            _ => false,
        }
    }

    /// The state of the pass after the reply to a step.
    ///
    /// # Preconditions
    ///
    /// - `self.held + steps.given(event, reply)` is at most `HELD_LIMIT`.
    /// - `steps.dropped(event, reply)` is at most `self.held`.
    pub(crate) fn after(self, event: PassEvent, reply: Reply) -> PassStanding {
        let held = match (event, reply) {
            (PassEvent::AddTry | PassEvent::AddLive, Reply::Given) => self.held + 1,
            (PassEvent::AddGet(n), Reply::Given) | (PassEvent::Take { n, .. }, Reply::Won) => self.held + n,
            (PassEvent::Sub(n), _) | (PassEvent::Give { n, .. }, Reply::Won) => self.held - n,
            _ => self.held,
        };
        PassStanding { held, pending: Pending::after(reply) }
    }
}

/// Whether the two lists are equally long, and each pass is in the same state in both.
pub(crate) fn same_passes(passes: &[Option<PassStanding>], others: &[Option<PassStanding>]) -> bool {
    passes == others
}

/// The number of references that a pass holds; 0 for a joined one.
pub(crate) fn held_of(pass: Option<PassStanding>) -> u32 {
    match pass {
        Some(standing) => standing.held,
        None => 0,
    }
}
