// Erased from crates/percpu_gate/src/control/switch.rt by tools/erase: edit that file.
//! Switching a gate between its two modes, and the steps of a kill that close and collect the slots.

use super::Control;
use crate::erased::percpu_core::Phase;
use crate::erased::percpu_gate::control_fault::ControlFault;
use crate::erased::percpu_gate::gate::Gate;
use crate::erased::percpu_words::Mode;

impl<const W: usize> Control<W> {
    /// Closes the next slot of a kill. Returns its delta: the references taken on it less those given back on it.
    ///
    /// # Preconditions
    ///
    /// - `self` belongs to `gate`.
    /// - `HasSlotToClose(self.view.standing.phase, gate.slots())`: a kill is closing the slots of a gate with this
    ///   many, and a slot is to be closed next, or all slots are closed.
    pub fn close_next(&mut self, gate: &Gate<W>) -> i64 {
        let Phase::Closing(slot) = self.phase else {
            unreachable!();
        };
        let delta = self.seat.close_next(&gate.table, slot);
        self.uncollected += delta;
        self.phase = Phase::Closing(slot + 1);
        delta
    }

    /// Collects a kill: adds the sum of the closed deltas to the shared word and removes the bias, in one step.
    ///
    /// # Preconditions
    ///
    /// - `self` belongs to `gate`.
    /// - `HasClosedAll(self.view.standing.phase, gate.slots())`.
    pub fn collect(&mut self, gate: &Gate<W>) {
        self.seat.collect_sum(&gate.table, self.uncollected);
        self.uncollected = 0;
        self.phase = Phase::Collected;
    }

    /// Why a switch would be refused now.
    fn refuse_mid_switch(&self) -> Result<(), ControlFault> {
        if self.phase.is_mid_switch() { Err(ControlFault::MidSwitch) } else { Ok(()) }
    }

    /// Counts on the shared word alone from now on; if the gate is dead, once it is revived. Refuses with MidSwitch.
    /// Linux: `percpu_ref_switch_to_atomic_sync` (lib/percpu-refcount.c).
    ///
    /// # Preconditions
    ///
    /// - `self` belongs to `gate`.
    pub fn switch_to_atomic(&mut self, gate: &Gate<W>) -> Result<(), ControlFault> {
        self.refuse_mid_switch()?;
        if self.phase == Phase::LiveSlots {
            self.seat.gather(&gate.table);
            self.phase = Phase::LiveAtomic;
        }
        self.wants = Mode::Atomic;
        Ok(())
    }

    /// Counts on slots from now on; if the gate is dead, once it is revived. Refuses with MidSwitch. Linux:
    /// `percpu_ref_switch_to_percpu` (lib/percpu-refcount.c).
    ///
    /// # Preconditions
    ///
    /// - `self` belongs to `gate`.
    pub fn switch_to_slots(&mut self, gate: &Gate<W>) -> Result<(), ControlFault> {
        self.refuse_mid_switch()?;
        if self.phase == Phase::LiveAtomic {
            self.seat.open_all(&gate.table);
            self.phase = Phase::LiveSlots;
        }
        self.wants = Mode::Slots;
        Ok(())
    }
}
