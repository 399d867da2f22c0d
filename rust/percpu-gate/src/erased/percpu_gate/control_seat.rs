// Erased from crates/percpu_gate/src/control_seat.rt by tools/erase: edit that file.
//! The atomic steps of the control, each of which is one event of the core's machine.

mod switch;

use crate::erased::atomic_table::Seat;
use crate::erased::percpu_gate::pass_seat::PassSeat;
use crate::erased::percpu_gate::table::{FIRST_WORD, FRONT, GateTable, SHARED};
use crate::erased::percpu_gate::tried::Put;
use crate::erased::percpu_words::{DEAD, ZERO, is_zero};

/// The control's seat at the table of its gate.
pub(crate) struct ControlSeat {
    seat: Seat,
}

impl ControlSeat {
    /// The control's seat at a table.
    ///
    /// # Preconditions
    ///
    /// - `seat` was made for a control.
    pub(crate) fn of(seat: Seat) -> ControlSeat {
        ControlSeat { seat }
    }

    /// The seat of a control that ends.
    pub(crate) fn into_seat(self) -> Seat {
        self.seat
    }

    /// Returns a seat for a new pass. A control makes at most 1,024.
    ///
    /// # Preconditions
    ///
    /// - `self` belongs to `gate`.
    /// - `self.view.passes` is less than `PASS_LIMIT`.
    pub(crate) fn make_pass(&mut self, gate: &GateTable) -> PassSeat {
        PassSeat::of(gate.table.shared.split_seat(&mut self.seat))
    }

    /// Takes in a pass that holds nothing.
    ///
    /// # Preconditions
    ///
    /// - `self` belongs to `gate`.
    /// - `pass` belongs to `gate`.
    /// - `pass.view.standing` is `holding(0)`.
    pub(crate) fn take_in(&mut self, gate: &GateTable, pass: PassSeat) {
        let shared = &gate.table.shared;
        shared.join_seat(&mut self.seat, pass.into_seat());
    }

    /// Sets DEAD.
    ///
    /// # Preconditions
    ///
    /// - `self` belongs to `gate`.
    /// - The control may take its step `MarkDead` now: `ControlStanding::refusal` has no reason against it.
    /// - `is_live(self.view.standing.phase)` is `true`.
    /// - `self.view.standing` is `standing(self.view.standing.phase, self.view.standing.kills)`.
    #[inline]
    pub(crate) fn set_dead(&mut self, gate: &GateTable) {
        let shared = &gate.table.shared;
        shared.fetch_or(&mut self.seat, SHARED, DEAD);
    }

    /// Stores the odd front of a kill.
    ///
    /// # Preconditions
    ///
    /// - `self` belongs to `gate`.
    /// - `front` is `self.view.front + 1`.
    /// - The control may take its step `Confirm` now: `ControlStanding::refusal` has no reason against it.
    #[inline]
    pub(crate) fn confirm(&mut self, gate: &GateTable, front: u64) {
        gate.table.shared.store(&mut self.seat, FRONT, front);
    }

    /// Drops the initial reference. Returns whether that left DEAD alone.
    ///
    /// # Preconditions
    ///
    /// - `self` belongs to `gate`.
    /// - The control may take its step `DropBase` now: `ControlStanding::refusal` has no reason against it.
    #[inline]
    pub(crate) fn drop_base(&mut self, gate: &GateTable) -> bool {
        let shared = &gate.table.shared;
        let found = shared.fetch_sub(&mut self.seat, SHARED, 1);
        found.wrapping_sub(1) == DEAD
    }

    /// Exchanges DEAD alone for DEAD and ZERO, once. A win is the release.
    ///
    /// # Preconditions
    ///
    /// - `self` belongs to `gate`.
    /// - The control may take its step `Mark` now: `ControlStanding::refusal` has no reason against it.
    #[inline]
    pub(crate) fn mark(&mut self, gate: &GateTable) -> Put {
        let shared = &gate.table.shared;
        let found = shared.compare_exchange(&mut self.seat, SHARED, DEAD, DEAD | ZERO);
        Put::of(found == DEAD)
    }

    /// Takes the initial reference back. Returns the shared word as it was.
    ///
    /// # Preconditions
    ///
    /// - `self` belongs to `gate`.
    /// - The control may take its step `TakeBase` now: `ControlStanding::refusal` has no reason against it.
    #[inline]
    pub(crate) fn take_base(&mut self, gate: &GateTable) -> u64 {
        let shared = &gate.table.shared;
        shared.fetch_add(&mut self.seat, SHARED, 1)
    }

    /// Stores the even front of the life that begins.
    ///
    /// # Preconditions
    ///
    /// - `self` belongs to `gate`.
    /// - `front` is `self.view.front + 1`.
    /// - The control may take its step `NextFront` now: `ControlStanding::refusal` has no reason against it.
    #[inline]
    pub(crate) fn next_front(&mut self, gate: &GateTable, front: u64) {
        gate.table.shared.store(&mut self.seat, FRONT, front);
    }

    /// Clears DEAD and ZERO.
    ///
    /// # Preconditions
    ///
    /// - `self` belongs to `gate`.
    /// - The control may take its step `ClearDead` now: `ControlStanding::refusal` has no reason against it.
    #[inline]
    pub(crate) fn clear_dead(&mut self, gate: &GateTable) {
        let shared = &gate.table.shared;
        shared.fetch_and(&mut self.seat, SHARED, DEAD - 1);
    }

    /// Stores a guarded word, for a control that knows ZERO.
    ///
    /// # Preconditions
    ///
    /// - `self` belongs to `gate`.
    /// - `self.view.knows_zero` is `true`.
    /// - The control may take its step `StoreWord(k, v)` now: `ControlStanding::refusal` has no reason against it.
    #[inline]
    pub(crate) fn store_word(&mut self, gate: &GateTable, k: u32, v: u64) {
        let place = FIRST_WORD + k as usize;
        gate.table.shared.store(&mut self.seat, place, v);
    }

    /// Loads the shared word.
    ///
    /// # Preconditions
    ///
    /// - `self` belongs to `gate`.
    /// - The control may take its step `LookShared` now: `ControlStanding::refusal` has no reason against it.
    #[inline]
    pub(crate) fn look(&mut self, gate: &GateTable) -> u64 {
        gate.table.shared.load(&mut self.seat, SHARED)
    }

    /// Drops the initial reference, and marks the zero if that left DEAD alone.
    ///
    /// # Preconditions
    ///
    /// - `self` belongs to `gate`.
    /// - `self.view.standing` is `standing(Confirmed, self.view.standing.kills)`.
    pub(crate) fn drop_initial(&mut self, gate: &GateTable) -> Put {
        if self.drop_base(gate) { self.mark(gate) } else { Put::NotLast }
    }

    /// Takes the initial reference back, stores the next front and clears both marks. Returns whether ZERO was set when
    /// the reference was taken.
    ///
    /// # Preconditions
    ///
    /// - `self` belongs to `gate`.
    /// - `self.view.standing` is `standing(Dead, self.view.standing.kills)`.
    /// - `front` is `self.view.front + 1`.
    pub(crate) fn revive(&mut self, gate: &GateTable, front: u64) -> bool {
        let found = self.take_base(gate);
        self.next_front(gate, front);
        self.clear_dead(gate);
        is_zero(found)
    }
}
