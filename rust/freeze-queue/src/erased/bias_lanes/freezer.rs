// Erased from crates/bias_lanes/src/freezer.rt by tools/erase: edit that file.
//! The freezer of lanes.

use crate::erased::bias_lanes::fence::{Fenced, heavy_fence};
use crate::erased::bias_lanes::lanes::{EPOCH, FIRST_EPOCH, Lanes, PARKED, TAKEN};
use crate::erased::lane_table::Seat;

/// The one freezer of these lanes. Threads share it under a lock, or it moves between them by ownership.
pub struct Freezer<T> {
    seat: Seat<Option<T>>,
    epoch: u64,
}

impl<T> Freezer<T> {
    /// The freezer of new lanes.
    ///
    /// # Preconditions
    ///
    /// - `seat.me ≡ (first_view seat.me.0.key, [])`.
    /// - `seat.table_id.words` is `seat.table_id.slots * 2 + 1`.
    /// - `seat.table_id.slots` is less than `2^32`.
    pub(crate) fn new(seat: Seat<Option<T>>) -> Freezer<T> {
        Freezer { seat, epoch: FIRST_EPOCH }
    }

    /// Returns the epoch: even if requests may enter, odd if they are frozen.
    #[inline]
    pub fn epoch(&self) -> u64 {
        self.epoch
    }

    /// Stores the next epoch.
    ///
    /// # Preconditions
    ///
    /// - `self.lanes` is `lanes`.
    /// - `self.epoch()` is less than `2^63`.
    fn next_epoch(&mut self, lanes: &Lanes<T>) {
        debug_assert!(self.epoch() < 1 << 63);
        let next = self.epoch + 1;
        let shared = &lanes.table.shared;
        shared.store(&mut self.seat, EPOCH, next);
        self.epoch = next;
    }

    /// Freezes: after this call no request enters by a lane. The caller then has to look at each lane.
    ///
    /// # Preconditions
    ///
    /// - `self.lanes` is `lanes`.
    /// - `self.view.epoch % 2 ≡ 0`.
    /// - `self.epoch()` is less than `2^63`.
    pub fn freeze(&mut self, lanes: &Lanes<T>) {
        debug_assert!(self.epoch() < 1 << 63);
        self.next_epoch(lanes);
    }

    /// Thaws: owners can be biased again.
    ///
    /// # Preconditions
    ///
    /// - `self.lanes` is `lanes`.
    /// - `self.view.epoch % 2 ≡ 1`.
    /// - `self.epoch()` is less than `2^63`.
    /// - `self.out` is `[]`.
    pub fn thaw(&mut self, lanes: &Lanes<T>) {
        debug_assert!(self.epoch() < 1 << 63);
        self.next_epoch(lanes);
    }

    /// Issues the heavy fence, which the looks of this epoch need.
    pub fn fence(&self) -> Fenced {
        heavy_fence();
        Fenced { epoch: self.epoch }
    }

    /// Looks at a lane during a freeze, behind a fence of this epoch, and returns whether it is busy. The owner of a busy lane is watched
    /// from then on. Any other owner is out, and its reference can be reclaimed.
    ///
    /// # Preconditions
    ///
    /// - `self.lanes` is `lanes`.
    /// - `fenced` is `self.epoch()`.
    /// - `lane` is less than `lanes.count()`.
    /// - `self.view.epoch % 2 ≡ 1`.
    pub fn look(&mut self, lanes: &Lanes<T>, lane: usize, _fenced: &Fenced) -> bool {
        debug_assert!(lane < lanes.count());
        let shared = &lanes.table.shared;
        let word = lane * 2 + 1;
        shared.load(&mut self.seat, word) % 2 == 1
    }

    /// Takes the reference that is parked in the cell of an owner that is out, if there is one. Put it back by [`Freezer::restore`].
    ///
    /// # Preconditions
    ///
    /// - `self.lanes` is `lanes`.
    /// - `lane` is less than `lanes.count()`.
    /// - `mark_at(self.view, lane)` is `Out`.
    /// - `self.out` is `[]`.
    pub fn reclaim(&mut self, lanes: &Lanes<T>, lane: usize) -> Option<T> {
        debug_assert!(lane < lanes.count());
        let shared = &lanes.table.shared;
        let cell = lane * 2 + 2;
        if shared.compare_exchange(&mut self.seat, cell, PARKED, TAKEN) != PARKED {
            return None;
        }
        shared.exchange(&mut self.seat, lane, None)
    }

    /// Puts a reference back into the cell that it was reclaimed from.
    ///
    /// # Preconditions
    ///
    /// - `self.lanes` is `lanes`.
    /// - `lane` is less than `lanes.count()`.
    /// - `mark_at(self.view, lane)` is `Out`.
    /// - `self.out ≡ (lane, None) ∷ []`.
    /// - `T.fits(lanes.key, reference)`.
    pub fn restore(&mut self, lanes: &Lanes<T>, lane: usize, reference: T) {
        debug_assert!(lane < lanes.count());
        let shared = &lanes.table.shared;
        let cell = lane * 2 + 2;
        let _empty = shared.exchange(&mut self.seat, lane, Some(reference));
        shared.store(&mut self.seat, cell, PARKED);
    }
}
