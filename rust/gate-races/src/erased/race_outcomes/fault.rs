// Erased from crates/race_outcomes/src/fault.rt by tools/erase: edit that file.
//! Why a search ends before it has all moments.

use crate::erased::fallible::AllocError;
use crate::erased::percpu_core::Memory;

/// Why a search ends before it has all moments of a race.
#[derive(Clone, Copy, Debug, PartialEq, Eq)]
pub enum SearchFault {
    /// An allocation was refused, or there are 2^64 moments.
    Memory,
    /// The race has more moments than the search may keep.
    States,
}

impl From<Memory> for SearchFault {
    fn from(_refused: Memory) -> Self {
        SearchFault::Memory
    }
}

impl From<AllocError> for SearchFault {
    fn from(_refused: AllocError) -> Self {
        SearchFault::Memory
    }
}
