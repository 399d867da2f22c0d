// Erased from crates/percpu_gate/src/control_seat/switch.rt by tools/erase: edit that file.
//! The control's steps of a switch: closing slots and collecting, and adding the bias and opening them.

use super::ControlSeat;
use crate::erased::percpu_gate::table::{GateTable, SHARED, place_of};
use crate::erased::percpu_words::{BIAS, CLOSED, slot_delta, slot_word};

impl ControlSeat {
    /// The step `Close`: closes the next slot. Returns its delta, or `None` if it was closed, which the laws exclude.
    ///
    /// # Preconditions
    ///
    /// - `self` belongs to `gate`.
    /// - `slot` is `next_slot(self.view.standing.phase)`.
    /// - `slot` is less than `gate.slots()`.
    /// - The control may take its step `Close` now: `ControlStanding::refusal` has no reason against it.
    pub(crate) fn close_slot(&mut self, gate: &GateTable, slot: u32) -> Option<i64> {
        debug_assert!(slot < gate.slots());
        let place = place_of(slot);
        let found = gate.table.shared.swap(&mut self.seat, place, CLOSED);
        slot_delta(found)
    }

    /// Adds the sum of the closed deltas to the shared word, and removes the bias, in one step: `less` is the bias
    /// less the sum.
    ///
    /// # Preconditions
    ///
    /// - `self` belongs to `gate`.
    /// - `less` is `bias - self.view.standing.uncollected`.
    /// - The control may take its step `Collect` now: `ControlStanding::refusal` has no reason against it.
    pub(crate) fn collect(&mut self, gate: &GateTable, less: u64) {
        let shared = &gate.table.shared;
        shared.fetch_sub(&mut self.seat, SHARED, less);
    }

    /// Adds the bias to the shared word.
    ///
    /// # Preconditions
    ///
    /// - `self` belongs to `gate`.
    /// - The control may take its step `AddBias` now: `ControlStanding::refusal` has no reason against it.
    pub(crate) fn add_bias(&mut self, gate: &GateTable) {
        let shared = &gate.table.shared;
        shared.fetch_add(&mut self.seat, SHARED, BIAS);
    }

    /// Opens the next slot, at 0.
    ///
    /// # Preconditions
    ///
    /// - `self` belongs to `gate`.
    /// - `slot` is `next_slot(self.view.standing.phase)`.
    /// - `slot` is less than `gate.slots()`.
    /// - The control may take its step `OpenNext` now: `ControlStanding::refusal` has no reason against it.
    pub(crate) fn open_slot(&mut self, gate: &GateTable, slot: u32) {
        debug_assert!(slot < gate.slots());
        let place = place_of(slot);
        let word = slot_word(0);
        gate.table.shared.store(&mut self.seat, place, word);
    }

    /// Closes the next slot, which the laws say is open. Returns its delta.
    ///
    /// # Preconditions
    ///
    /// - `self` belongs to `gate`.
    /// - `slot` is `next_slot(self.view.standing.phase)`.
    /// - `slot` is less than `gate.slots()`.
    /// - `has_slot_to_close(gate.slots(), self.view.standing.phase)` is `true`.
    /// - `self.view.standing.to_mark` is `false`.
    pub(crate) fn close_next(&mut self, gate: &GateTable, slot: u32) -> i64 {
        debug_assert!(slot < gate.slots());
        self.close_slot(gate, slot).unwrap_or(0)
    }

    /// Closes every slot, from the first on. Returns the sum of their deltas.
    ///
    /// # Preconditions
    ///
    /// - `self` belongs to `gate`.
    /// - `next_slot(self.view.standing.phase)` is 0.
    /// - If `gate.slots()` is at least 1, then `has_slot_to_close(gate.slots(), self.view.standing.phase)` is `true`.
    /// - `self.view.standing.uncollected` is `0`.
    /// - `self.view.standing.to_mark` is `false`.
    pub(crate) fn close_all(&mut self, gate: &GateTable) -> i64 {
        let mut sum = 0;
        for slot in 0..gate.slots() {
            sum += self.close_next(gate, slot);
        }
        sum
    }

    /// Collects the slots, all of which are closed, given the sum of their deltas.
    ///
    /// # Preconditions
    ///
    /// - `self` belongs to `gate`.
    /// - `has_closed_all(gate.slots(), self.view.standing.phase)` is `true`.
    /// - `self.view.standing.uncollected` is `sum`.
    /// - `unsigned_abs(sum)` is at most `most_delta * SLOT_LIMIT`.
    /// - `self.view.standing.to_mark` is `false`.
    pub(crate) fn collect_sum(&mut self, gate: &GateTable, sum: i64) {
        let less = (BIAS as i64 - sum) as u64;
        self.collect(gate, less);
    }

    /// Closes every slot and collects them: the middle of a kill, or a whole switch to the shared word.
    ///
    /// # Preconditions
    ///
    /// - `self` belongs to `gate`.
    /// - `next_slot(self.view.standing.phase)` is 0.
    /// - If `gate.slots()` is at least 1, then `has_slot_to_close(gate.slots(), self.view.standing.phase)` is `true`.
    /// - `self.view.standing` is `standing(self.view.standing.phase, self.view.standing.kills)`.
    pub(crate) fn gather(&mut self, gate: &GateTable) {
        let sum = self.close_all(gate);
        self.collect_sum(gate, sum);
    }

    /// Adds the bias and opens every slot, from the first on.
    ///
    /// # Preconditions
    ///
    /// - `self` belongs to `gate`.
    /// - `self.view.standing.phase` is `LiveAtomic`.
    /// - `self.view.standing.to_mark` is `false`.
    pub(crate) fn open_all(&mut self, gate: &GateTable) {
        self.add_bias(gate);
        for slot in 0..gate.slots() {
            self.open_slot(gate, slot);
        }
    }
}
