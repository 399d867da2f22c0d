// Erased from crates/bias_lanes/src/lanes.rt by tools/erase: edit that file.
//! The words and cells that owners and the freezer share.

use crate::erased::bias_lanes::freezer::Freezer;
use crate::erased::bias_lanes::lane::Lane;
use crate::erased::fallible::{AllocError, TryVec};
use crate::erased::lane_table::Table;
use alloc::vec::Vec;

/// The epoch of new lanes.
pub const FIRST_EPOCH: u64 = 2;

/// Index of the epoch's word.
pub(crate) const EPOCH: usize = 0;

/// The word of a cell whose value is in hand: the owner or the freezer has taken it.
pub(crate) const TAKEN: u64 = 0;

/// The word of a cell in which a reference is parked.
pub(crate) const PARKED: u64 = 1;

/// The word of a cell whose lane has no owner yet.
pub(crate) const VACANT: u64 = 2;

/// The words of an epoch and its lanes, and the cells in which references are parked.
pub struct Lanes<T> {
    pub(crate) table: Table<Option<T>>,
    count: usize,
}

/// Makes the words of new lanes: the epoch, and for each lane 0 and a vacant cell.
///
/// # Preconditions
///
/// - `lanes` is less than `2^32`.
fn first_words(lanes: usize) -> Result<Vec<u64>, AllocError> {
    debug_assert!(lanes < 1 << 32);
    let mut words = Vec::try_with_room(lanes * 2 + 1)?;
    words.try_push(FIRST_EPOCH)?;
    for _ in 0..lanes {
        words.try_push(0)?;
        words.try_push(VACANT)?;
    }
    Ok(words)
}

impl<T> Lanes<T> {
    /// Makes this many lanes, none of which has an owner yet, and their freezer. The first epoch is 2. No later call allocates.
    /// Returns `AllocError` if there is no memory.
    ///
    /// # Preconditions
    ///
    /// - `lanes` is less than `2^32`.
    pub fn new(lanes: usize) -> Result<(Lanes<T>, Freezer<T>), AllocError> {
        debug_assert!(lanes < 1 << 32);
        let words = first_words(lanes)?;
        let (table, seat) = Table::vacant(words.as_slice(), lanes)?;
        let made = Lanes { table, count: lanes };
        Ok((made, Freezer::new(seat)))
    }

    /// Returns the number of lanes.
    #[inline]
    pub fn count(&self) -> usize {
        self.count
    }

    /// Returns the owner of a lane at the first call for this lane, and `None` from then on.
    ///
    /// # Preconditions
    ///
    /// - `lane` is less than `self.count()`.
    pub fn owner(&self, lane: usize) -> Option<Lane<T>> {
        debug_assert!(lane < self.count());
        let shared = &self.table.shared;
        let (_, mut seat) = shared.load_new_seat(EPOCH);
        let cell = lane * 2 + 2;
        if shared.compare_exchange(&mut seat, cell, VACANT, TAKEN) != VACANT {
            return None;
        }
        Some(Lane::new(seat, lane))
    }
}
