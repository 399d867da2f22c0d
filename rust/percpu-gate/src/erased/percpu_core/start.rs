// Erased from crates/percpu_core/src/start.rt by tools/erase: edit that file.
//! How a gate can start.

use crate::erased::percpu_core::limits::KILL_LIMIT;
use crate::erased::percpu_core::phase::Phase;
use crate::erased::percpu_core::slot::Slot;
use crate::erased::percpu_words::{BIAS, DEAD, Mode, ZERO};

/// How a gate starts. Linux: `PERCPU_REF_INIT_ATOMIC` and `PERCPU_REF_INIT_DEAD`
/// (include/linux/percpu-refcount.h).
#[derive(Clone, Copy, Debug, PartialEq, Eq)]
pub enum Start {
    /// Live, with every slot open and the initial reference held.
    Slots,
    /// Live, with every slot closed and the initial reference held.
    Atomic,
    /// Killed and at zero, with every slot closed and the initial reference out.
    Dead,
}

impl Start {
    /// The shared word at the start.
    pub fn shared(self) -> u64 {
        match self {
            Start::Slots => BIAS + 1,
            Start::Atomic => 1,
            Start::Dead => DEAD | ZERO,
        }
    }

    /// The phase at the start.
    pub fn phase(self) -> Phase {
        match self {
            Start::Slots => Phase::LiveSlots,
            Start::Atomic => Phase::LiveAtomic,
            Start::Dead => Phase::Dead,
        }
    }

    /// The mode that a gate with this start has, or has once it is revived.
    pub fn mode(self) -> Mode {
        match self {
            Start::Atomic => Mode::Atomic,
            Start::Slots | Start::Dead => Mode::Slots,
        }
    }

    /// The front at the start: 2 for each kill, and 1 more if the gate starts dead.
    ///
    /// # Preconditions
    ///
    /// - `kills` is at most `KILL_LIMIT`.
    pub fn front(self, kills: u64) -> u64 {
        debug_assert!(kills <= KILL_LIMIT);
        match self {
            Start::Slots | Start::Atomic => 2 * kills,
            Start::Dead => 2 * kills + 1,
        }
    }

    /// The state of each slot at the start.
    pub fn slot(self) -> Slot {
        match self {
            Start::Slots => Slot::Open(0),
            Start::Atomic | Start::Dead => Slot::Closed,
        }
    }
}
