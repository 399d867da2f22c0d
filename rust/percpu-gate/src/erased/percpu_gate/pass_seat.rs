// Erased from crates/percpu_gate/src/pass_seat.rt by tools/erase: edit that file.
//! The atomic steps of a pass, each of which is one event of the core's machine.

mod slots;

use crate::erased::atomic_table::Seat;
use crate::erased::percpu_gate::table::{FIRST_WORD, FRONT, GateTable, SHARED};
use crate::erased::percpu_gate::tried::{Put, Tried};
use crate::erased::percpu_words::{DEAD, ZERO, is_dead, is_zero};

/// A pass's seat at the table of its gate.
pub(crate) struct PassSeat {
    seat: Seat,
}

impl PassSeat {
    /// A pass's seat at a table.
    ///
    /// # Preconditions
    ///
    /// - `seat` was made for a pass.
    pub(crate) fn of(seat: Seat) -> PassSeat {
        PassSeat { seat }
    }

    /// The seat of a pass that ends.
    pub(crate) fn into_seat(self) -> Seat {
        self.seat
    }

    /// Adds 1 to the shared word. Returns whether ZERO was clear.
    ///
    /// # Preconditions
    ///
    /// - `self` belongs to `gate`.
    /// - The pass may take its step `AddTry` now: `PassStanding::refusal` has no reason against it.
    #[inline]
    pub(crate) fn add_try(&mut self, gate: &GateTable) -> bool {
        let shared = &gate.table.shared;
        let found = shared.fetch_add(&mut self.seat, SHARED, 1);
        !is_zero(found)
    }

    /// Adds 1 to the shared word. Returns whether DEAD was clear.
    ///
    /// # Preconditions
    ///
    /// - `self` belongs to `gate`.
    /// - The pass may take its step `AddLive` now: `PassStanding::refusal` has no reason against it.
    #[inline]
    pub(crate) fn add_live(&mut self, gate: &GateTable) -> bool {
        let shared = &gate.table.shared;
        let found = shared.fetch_add(&mut self.seat, SHARED, 1);
        !is_dead(found)
    }

    /// Adds to the shared word for a pass that holds a reference.
    ///
    /// # Preconditions
    ///
    /// - `self` belongs to `gate`.
    /// - The pass may take its step `AddGet(n)` now: `PassStanding::refusal` has no reason against it.
    #[inline]
    pub(crate) fn add_get(&mut self, gate: &GateTable, n: u32) {
        let shared = &gate.table.shared;
        shared.fetch_add(&mut self.seat, SHARED, u64::from(n));
    }

    /// Subtracts from the shared word. Returns whether that left DEAD alone.
    ///
    /// # Preconditions
    ///
    /// - `self` belongs to `gate`.
    /// - The pass may take its step `Sub(n)` now: `PassStanding::refusal` has no reason against it.
    #[inline]
    pub(crate) fn subtract(&mut self, gate: &GateTable, n: u32) -> bool {
        let n = u64::from(n);
        let shared = &gate.table.shared;
        let found = shared.fetch_sub(&mut self.seat, SHARED, n);
        found.wrapping_sub(n) == DEAD
    }

    /// Takes back what a refused try added. Returns whether that left DEAD alone.
    ///
    /// # Preconditions
    ///
    /// - `self` belongs to `gate`.
    /// - The pass may take its step `Undo` now: `PassStanding::refusal` has no reason against it.
    #[inline]
    pub(crate) fn undo(&mut self, gate: &GateTable) -> bool {
        let shared = &gate.table.shared;
        let found = shared.fetch_sub(&mut self.seat, SHARED, 1);
        found.wrapping_sub(1) == DEAD
    }

    /// Exchanges DEAD alone for DEAD and ZERO, once. A win is the release.
    ///
    /// # Preconditions
    ///
    /// - `self` belongs to `gate`.
    /// - The pass may take its step `Mark` now: `PassStanding::refusal` has no reason against it.
    #[inline]
    pub(crate) fn mark(&mut self, gate: &GateTable) -> Put {
        let shared = &gate.table.shared;
        let found = shared.compare_exchange(&mut self.seat, SHARED, DEAD, DEAD | ZERO);
        Put::of(found == DEAD)
    }

    /// Loads the shared word.
    ///
    /// # Preconditions
    ///
    /// - `self` belongs to `gate`.
    /// - The pass may take its step `LookShared` now: `PassStanding::refusal` has no reason against it.
    #[inline]
    pub(crate) fn look(&mut self, gate: &GateTable) -> u64 {
        gate.table.shared.load(&mut self.seat, SHARED)
    }

    /// Loads the front.
    ///
    /// # Preconditions
    ///
    /// - `self` belongs to `gate`.
    /// - The pass may take its step `LoadFront` now: `PassStanding::refusal` has no reason against it.
    #[inline]
    pub(crate) fn load_front(&mut self, gate: &GateTable) -> u64 {
        gate.table.shared.load(&mut self.seat, FRONT)
    }

    /// Loads the guarded word `k`.
    ///
    /// # Preconditions
    ///
    /// - `self` belongs to `gate`.
    /// - The pass may take its step `LoadWord(k)` now: `PassStanding::refusal` has no reason against it.
    #[inline]
    pub(crate) fn load_word(&mut self, gate: &GateTable, k: u32) -> u64 {
        let place = FIRST_WORD + k as usize;
        gate.table.shared.load(&mut self.seat, place)
    }

    /// Ends a subtraction: marks the zero if it left DEAD alone.
    ///
    /// # Preconditions
    ///
    /// - `self` belongs to `gate`.
    /// - `self.view.standing.pending` is `owed(to_mark)`.
    #[inline]
    fn end_put(&mut self, gate: &GateTable, to_mark: bool) -> Put {
        if to_mark { self.mark(gate) } else { Put::NotLast }
    }

    /// Puts back the 1 that a refused try added.
    ///
    /// # Preconditions
    ///
    /// - `self` belongs to `gate`.
    /// - `self.view.standing.pending` is `OneToUndo`.
    #[inline]
    pub(crate) fn put_back(&mut self, gate: &GateTable) -> Put {
        let to_mark = self.undo(gate);
        self.end_put(gate, to_mark)
    }

    /// Ends a try that took its reference, or was refused.
    ///
    /// # Preconditions
    ///
    /// - `self` belongs to `gate`.
    /// - `self.view.standing.pending` is `to_take_back(is_given)`.
    /// - `self.view.releases` is at most `2 * KILL_LIMIT`.
    #[inline]
    pub(crate) fn end_try(&mut self, gate: &GateTable, is_given: bool) -> Tried {
        if is_given { Tried::Given } else { Tried::Refused(self.put_back(gate)) }
    }

    /// Drops references that the pass holds.
    ///
    /// # Preconditions
    ///
    /// - `self` belongs to `gate`.
    /// - `self.view.standing.pending` is `Nothing`.
    /// - `n` is from 1 to `self.view.standing.held`.
    #[inline]
    pub(crate) fn drop_held(&mut self, gate: &GateTable, n: u32) -> Put {
        debug_assert!(1 <= n);
        let to_mark = self.subtract(gate, n);
        self.end_put(gate, to_mark)
    }
}
