// Erased from crates/bias_lanes/src/lane.rt by tools/erase: edit that file.
//! The owner of a lane.

use crate::erased::bias_lanes::lanes::{EPOCH, Lanes, PARKED, TAKEN};
use crate::erased::bias_lanes::views::Stage;
use crate::erased::lane_table::Seat;

/// The owner of a lane. It moves between threads by ownership.
///
/// Dropping the owner while its reference is parked leaves the reference parked, until the freezer reclaims it.
pub struct Lane<T> {
    seat: Seat<Option<T>>,
    lane: usize,
    bias: u64,
    stage: Stage,
}

impl<T> Lane<T> {
    /// Makes the owner of a lane that had none.
    ///
    /// # Preconditions
    ///
    /// - `seat.me` is `lane_me(seat.me.0.key, new_owner(lane))`.
    /// - `lane` is less than `seat.table_id.slots`.
    /// - `seat.table_id.words` is `seat.table_id.slots * 2 + 1`.
    /// - `seat.table_id.slots` is less than `2^32`.
    pub(crate) fn new(seat: Seat<Option<T>>, lane: usize) -> Lane<T> {
        Lane { seat, lane, bias: 0, stage: Stage::Unbiased }
    }

    /// Returns the lane's number.
    #[inline]
    pub fn number(&self) -> usize {
        self.lane
    }

    /// Returns the owner's stage without a load. If a freeze has ended the bias, the stage stays `Idle` until the owner enters.
    #[inline]
    pub fn stage(&self) -> Stage {
        self.stage
    }

    /// Loads the epoch before the owner parks.
    ///
    /// # Preconditions
    ///
    /// - `self.lanes` is `lanes`.
    /// - `self.view.stage` is `Unbiased`.
    fn load_epoch(&mut self, lanes: &Lanes<T>) -> u64 {
        let shared = &lanes.table.shared;
        let epoch = shared.load(&mut self.seat, EPOCH);
        self.bias = epoch - epoch % 2;
        epoch
    }

    /// Puts a reference into the cell.
    ///
    /// # Preconditions
    ///
    /// - `self.lanes` is `lanes`.
    /// - `self.view.stage` is `Unbiased`.
    /// - `T.fits(lanes.key, reference)`.
    fn fill_cell(&mut self, lanes: &Lanes<T>, reference: T) {
        let shared = &lanes.table.shared;
        let cell = self.lane * 2 + 2;
        let _empty = shared.exchange(&mut self.seat, self.lane, Some(reference));
        shared.store(&mut self.seat, cell, PARKED);
        self.stage = Stage::Parked;
    }

    /// Stores that the lane is idle, and returns whether the epoch is still that of the bias.
    ///
    /// The stage is stored before the two steps, so that entering and leaving store it once each while the bias lasts.
    ///
    /// # Preconditions
    ///
    /// - `self.lanes` is `lanes`.
    /// - `CanRest(self.view.stage)`: stages in which an owner may store that its lane is idle.
    #[inline]
    fn rest(&mut self, lanes: &Lanes<T>) -> bool {
        let word = self.lane * 2 + 1;
        let shared = &lanes.table.shared;
        self.stage = Stage::Idle;
        shared.store_release(&mut self.seat, word, self.bias);
        if shared.load_acquire(&mut self.seat, EPOCH) == self.bias {
            return true;
        }
        self.stage = Stage::Over;
        false
    }

    /// Stores that the lane has no bias.
    ///
    /// # Preconditions
    ///
    /// - `self.lanes` is `lanes`.
    /// - `CanEnd(self.view.stage)`: stages in which a bias may be given up.
    fn give_up(&mut self, lanes: &Lanes<T>) {
        let word = self.lane * 2 + 1;
        let shared = &lanes.table.shared;
        shared.store(&mut self.seat, word, 0);
        self.stage = Stage::Parked;
    }

    /// Takes the reference from the cell, unless the freezer has it in hand.
    ///
    /// # Preconditions
    ///
    /// - `self.lanes` is `lanes`.
    /// - `self.view.stage` is `Parked`.
    fn empty_cell(&mut self, lanes: &Lanes<T>) -> Option<T> {
        let shared = &lanes.table.shared;
        let cell = self.lane * 2 + 2;
        if shared.compare_exchange(&mut self.seat, cell, PARKED, TAKEN) != PARKED {
            return None;
        }
        self.stage = Stage::Unbiased;
        shared.exchange(&mut self.seat, self.lane, None)
    }

    /// Parks a reference, or returns it as an error if the epoch is odd. Returns whether the lane is biased. If it isn't, the epoch
    /// has changed meanwhile, and the caller has to call [`Lane::take_back`].
    ///
    /// # Preconditions
    ///
    /// - `self.lanes` is `lanes`.
    /// - `self.view.stage` is `Unbiased`.
    /// - `T.fits(lanes.key, reference)`.
    pub fn park(&mut self, lanes: &Lanes<T>, reference: T) -> Result<bool, T> {
        if self.load_epoch(lanes) % 2 == 1 {
            return Err(reference);
        }
        self.fill_cell(lanes, reference);
        Ok(self.rest(lanes))
    }

    /// Enters, and returns whether the request is in. If it isn't, the bias is over.
    ///
    /// # Preconditions
    ///
    /// - `self.lanes` is `lanes`.
    /// - `self.view.stage` is `Idle`.
    #[inline]
    pub fn enter(&mut self, lanes: &Lanes<T>) -> bool {
        let word = self.lane * 2 + 1;
        let shared = &lanes.table.shared;
        self.stage = Stage::Entered;
        shared.store_relaxed(&mut self.seat, word, self.bias + 1);
        if shared.load_acquire(&mut self.seat, EPOCH) == self.bias {
            return true;
        }
        self.stage = Stage::Over;
        false
    }

    /// Leaves, and returns whether the lane is still biased. If it isn't, the bias is over.
    ///
    /// # Preconditions
    ///
    /// - `self.lanes` is `lanes`.
    /// - `self.view.stage` is `Entered`.
    #[inline]
    pub fn leave(&mut self, lanes: &Lanes<T>) -> bool {
        self.rest(lanes)
    }

    /// Ends the bias of an owner that has no request in, and returns its reference. Returns `None` if the freezer has the reference in
    /// hand: call again once the freezer has put it back.
    ///
    /// # Preconditions
    ///
    /// - `self.lanes` is `lanes`.
    /// - `CanEnd(self.view.stage)`: stages in which a bias may be given up.
    pub fn take_back(&mut self, lanes: &Lanes<T>) -> Option<T> {
        self.give_up(lanes);
        self.empty_cell(lanes)
    }
}
