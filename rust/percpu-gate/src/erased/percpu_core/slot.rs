// Erased from crates/percpu_core/src/slot.rt by tools/erase: edit that file.
//! One slot of a gate.

use crate::erased::percpu_core::reply::Reply;
use crate::erased::percpu_words::{CLOSED, slot_word};

/// What a slot holds: nothing while it is closed, otherwise its delta.
///
/// Linux: one processor's count (`percpu_count_ptr`, include/linux/percpu-refcount.h). A gate that goes atomic there
/// waits until no processor counts on its own any more, and then reads each count. Here each slot is closed by an
/// exchange, which returns its last delta.
#[derive(Clone, Copy, Debug, PartialEq, Eq)]
pub enum Slot {
    Closed,
    Open(i64),
}

impl Slot {
    /// The slot's word.
    ///
    /// # Preconditions
    ///
    /// - `IsDelta(cells.delta(self))`: a delta is within its limit, on either side of 0.
    pub fn word(self) -> u64 {
        match self {
            Slot::Closed => CLOSED,
            Slot::Open(delta) => slot_word(delta),
        }
    }

    /// The delta; 0 for a closed slot.
    pub fn delta(self) -> i64 {
        match self {
            Slot::Closed => 0,
            Slot::Open(delta) => delta,
        }
    }

    /// Whether the slot is open with this delta.
    pub fn is_open_with(self, seen: i64) -> bool {
        match self {
            Slot::Closed => false,
            Slot::Open(delta) => delta == seen,
        }
    }

    /// The reply to a look at the slot.
    pub fn look_reply(self) -> Reply {
        match self {
            Slot::Closed => Reply::Closed,
            Slot::Open(delta) => Reply::Opened(delta),
        }
    }

    /// The reply to an exchange that expects the delta `seen`.
    pub fn exchange_reply(self, seen: i64) -> Reply {
        if self.is_open_with(seen) { Reply::Won } else { Reply::Lost }
    }
}
