// Erased from crates/percpu_core/src/slots.rt by tools/erase: edit that file.
//! The slots of a gate.

use crate::erased::fallible::{AllocError, TryVec};
use crate::erased::percpu_core::control_event::ControlEvent;
use crate::erased::percpu_core::pass_event::PassEvent;
use crate::erased::percpu_core::{Phase, Slot};

/// The slots of a gate, from the first on.
pub(crate) struct Slots {
    list: Vec<Slot>,
}

impl Slots {
    /// This many slots, all equal to this one.
    pub(crate) fn new(slots: u32, slot: Slot) -> Result<Slots, AllocError> {
        let list = Vec::try_from_elem(slot, slots as usize)?;
        Ok(Slots { list })
    }

    /// Returns a copy.
    pub(crate) fn copy(&self) -> Result<Slots, AllocError> {
        let list = Vec::try_from_slice(self.list.as_slice())?;
        Ok(Slots { list })
    }

    /// Whether the two lists are equally long and have the same slots.
    pub(crate) fn is_same(&self, other: &Slots) -> bool {
        self.list.as_slice() == other.list.as_slice()
    }

    /// The number of slots.
    pub(crate) fn len(&self) -> usize {
        self.list.len()
    }

    /// The slot of this number.
    pub(crate) fn at(&self, slot: u32) -> Slot {
        self.list.get(slot as usize).copied().unwrap_or(Slot::Closed)
    }

    /// Exchanges the delta of the slot that the step of a pass names, if it has the delta that the step expects.
    ///
    /// # Preconditions
    ///
    /// - `names_no_slot(self.len(), step)` is `false`.
    /// - `has_bad_amount(step)` is `false`.
    pub(crate) fn exchange(&mut self, step: PassEvent) {
        match step {
            PassEvent::Take { slot, seen, n } if self.at(slot).is_open_with(seen) => {
                self.list[slot as usize] = Slot::Open(seen + i64::from(n));
            }
            PassEvent::Give { slot, seen, n } if self.at(slot).is_open_with(seen) => {
                self.list[slot as usize] = Slot::Open(seen - i64::from(n));
            }
            _ => {}
        }
    }

    /// Closes the next slot, or opens it with the delta 0, if that is the control's step.
    ///
    /// # Preconditions
    ///
    /// - `NextIsThere(step, phase, self.len())`: the slot that the step closes or opens is among this many.
    pub(crate) fn change_next(&mut self, step: ControlEvent, phase: Phase) {
        match step {
            ControlEvent::Close => self.list[phase.next_slot() as usize] = Slot::Closed,
            ControlEvent::OpenNext => self.list[phase.next_slot() as usize] = Slot::Open(0),
            _ => {}
        }
    }
}
