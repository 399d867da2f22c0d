// Erased from crates/percpu_gate/src/pass_seat/slots.rt by tools/erase: edit that file.
//! Counting on a slot: a look, and an exchange if the slot is open and has room.

use super::PassSeat;
use crate::erased::percpu_gate::table::{GateTable, place_of};
use crate::erased::percpu_gate::tried::Put;
use crate::erased::percpu_words::{DELTA_MAX, slot_delta, slot_word};

/// The word of a slot that counts `n` more than `seen`.
///
/// # Preconditions
///
/// - `IsDelta(seen)`: a delta is within its limit, on either side of 0.
/// - `IsDelta(seen + n)`: a delta is within its limit, on either side of 0.
#[inline]
fn word_of_more(seen: i64, n: u32) -> u64 {
    slot_word(seen + i64::from(n))
}

/// The word of a slot that counts `n` fewer than `seen`.
///
/// # Preconditions
///
/// - `IsDelta(seen)`: a delta is within its limit, on either side of 0.
/// - `IsDelta(seen - n)`: a delta is within its limit, on either side of 0.
#[inline]
fn word_of_fewer(seen: i64, n: u32) -> u64 {
    slot_word(seen - i64::from(n))
}

impl PassSeat {
    /// Looks at a slot. Returns its delta, or `None` if it is closed.
    ///
    /// # Preconditions
    ///
    /// - `self` belongs to `gate`.
    /// - The pass may take its step `Look(slot)` now: `PassStanding::refusal` has no reason against it.
    #[inline]
    pub(crate) fn look_at_slot(&mut self, gate: &GateTable, slot: u32) -> Option<i64> {
        let place = place_of(slot);
        slot_delta(gate.table.shared.load(&mut self.seat, place))
    }

    /// Exchanges the delta that was seen for that delta plus `n`. Returns whether the exchange was won.
    ///
    /// # Preconditions
    ///
    /// - `self` belongs to `gate`.
    /// - The pass may take its step `Take(slot, seen, n)` now: `PassStanding::refusal` has no reason against it.
    #[inline]
    pub(crate) fn take_on_slot(&mut self, gate: &GateTable, slot: u32, seen: i64, n: u32) -> bool {
        let place = place_of(slot);
        let expected = slot_word(seen);
        let wanted = word_of_more(seen, n);
        let shared = &gate.table.shared;
        let found = shared.compare_exchange(&mut self.seat, place, expected, wanted);
        found == expected
    }

    /// Exchanges the delta that was seen for that delta minus `n`. Returns whether the exchange was won.
    ///
    /// # Preconditions
    ///
    /// - `self` belongs to `gate`.
    /// - The pass may take its step `Give(slot, seen, n)` now: `PassStanding::refusal` has no reason against it.
    #[inline]
    pub(crate) fn give_on_slot(&mut self, gate: &GateTable, slot: u32, seen: i64, n: u32) -> bool {
        let place = place_of(slot);
        let expected = slot_word(seen);
        let wanted = word_of_fewer(seen, n);
        let shared = &gate.table.shared;
        let found = shared.compare_exchange(&mut self.seat, place, expected, wanted);
        found == expected
    }

    /// Takes `n` references on a slot: a look, and one exchange if the slot is open and the delta stays within its
    /// limit. Returns whether it won.
    ///
    /// # Preconditions
    ///
    /// - `self` belongs to `gate`.
    /// - `slot` is less than `gate.slots()`.
    /// - `self.view.standing.pending` is `Nothing`.
    /// - `n` is at least 1.
    /// - If `n` is at least 2, then `self.view.standing.held` is at least 1.
    /// - `self.view.standing.held + n` is at most `HELD_LIMIT`.
    #[inline]
    pub(crate) fn take_if_open(&mut self, gate: &GateTable, slot: u32, n: u32) -> bool {
        debug_assert!(slot < gate.slots());
        debug_assert!(1 <= n);
        let Some(seen) = self.look_at_slot(gate, slot) else {
            return false;
        };
        if seen + i64::from(n) > DELTA_MAX {
            return false;
        }
        self.take_on_slot(gate, slot, seen, n)
    }

    /// Drops `n` references on a slot: a look, and one exchange if the slot is open and the delta stays within its
    /// limit. Returns whether it won; otherwise nothing was dropped.
    ///
    /// # Preconditions
    ///
    /// - `self` belongs to `gate`.
    /// - `slot` is less than `gate.slots()`.
    /// - `self.view.standing.pending` is `Nothing`.
    /// - `n` is at least 1.
    /// - `n` is at most `self.view.standing.held`.
    #[inline]
    pub(crate) fn give_if_open(&mut self, gate: &GateTable, slot: u32, n: u32) -> bool {
        debug_assert!(slot < gate.slots());
        debug_assert!(1 <= n);
        let Some(seen) = self.look_at_slot(gate, slot) else {
            return false;
        };
        if seen - i64::from(n) < -DELTA_MAX {
            return false;
        }
        self.give_on_slot(gate, slot, seen, n)
    }

    /// Counts for `try_get`: on the slot, or else on the shared word. Returns whether the reference was taken.
    ///
    /// # Preconditions
    ///
    /// - `self` belongs to `gate`.
    /// - `slot` is less than `gate.slots()`.
    /// - `self.view.standing.pending` is `Nothing`.
    /// - `self.view.standing.held` is less than `HELD_LIMIT`.
    #[inline]
    pub(crate) fn count_try(&mut self, gate: &GateTable, slot: u32) -> bool {
        debug_assert!(slot < gate.slots());
        if self.take_if_open(gate, slot, 1) {
            return true;
        }
        self.add_try(gate)
    }

    /// Counts for `try_get_live`: on the slot, or else on the shared word. Returns whether the reference was taken.
    ///
    /// # Preconditions
    ///
    /// - `self` belongs to `gate`.
    /// - `slot` is less than `gate.slots()`.
    /// - `self.view.standing.pending` is `Nothing`.
    /// - `self.view.standing.held` is less than `HELD_LIMIT`.
    #[inline]
    pub(crate) fn count_live(&mut self, gate: &GateTable, slot: u32) -> bool {
        debug_assert!(slot < gate.slots());
        if self.take_if_open(gate, slot, 1) {
            return true;
        }
        self.add_live(gate)
    }

    /// Takes `n` more references of a pass that holds one: on the slot, or else on the shared word.
    ///
    /// # Preconditions
    ///
    /// - `self` belongs to `gate`.
    /// - `slot` is less than `gate.slots()`.
    /// - `self.view.standing.pending` is `Nothing`.
    /// - `n` is at least 1.
    /// - `self.view.standing.held` is at least 1.
    /// - `self.view.standing.held + n` is at most `HELD_LIMIT`.
    #[inline]
    pub(crate) fn count_get(&mut self, gate: &GateTable, slot: u32, n: u32) {
        debug_assert!(slot < gate.slots());
        debug_assert!(1 <= n);
        if !self.take_if_open(gate, slot, n) {
            self.add_get(gate, n);
        }
    }

    /// Drops `n` references that the pass holds: on the slot, or else on the shared word.
    ///
    /// # Preconditions
    ///
    /// - `self` belongs to `gate`.
    /// - `slot` is less than `gate.slots()`.
    /// - `self.view.standing.pending` is `Nothing`.
    /// - `n` is at least 1.
    /// - `n` is at most `self.view.standing.held`.
    /// - `self.view.releases` is at most `2 * KILL_LIMIT`.
    #[inline]
    pub(crate) fn count_put(&mut self, gate: &GateTable, slot: u32, n: u32) -> Put {
        debug_assert!(slot < gate.slots());
        debug_assert!(1 <= n);
        if self.give_if_open(gate, slot, n) {
            return Put::NotLast;
        }
        self.drop_held(gate, n)
    }
}
