// Erased from crates/percpu_core/src/phase.rt by tools/erase: edit that file.
//! The phases of a gate, as its control goes through them.

use crate::erased::percpu_words::Mode;

/// The phase of a gate's control.
///
/// Counts are kept per slot in `LiveSlots`. `Closing` and `Opening` are the transitions, and in every other phase all
/// counts are on the shared word. Linux: the states that `__PERCPU_REF_ATOMIC` and `__PERCPU_REF_DEAD` encode
/// (include/linux/percpu-refcount.h).
#[derive(Clone, Copy, Debug, PartialEq, Eq)]
pub enum Phase {
    /// Live, with every slot open.
    LiveSlots,
    /// Live, with every slot closed.
    LiveAtomic,
    /// This many slots are closed, from the first on.
    Closing(u32),
    /// Killed, with every count on the shared word.
    Collected,
    /// Killed, with the odd front stored.
    Confirmed,
    /// Killed, with the initial reference dropped.
    Dead,
    /// The initial reference was taken back.
    Reviving,
    /// The even front was stored: the gate comes back.
    Fronted,
    /// This many slots are open, from the first on.
    Opening(u32),
}

impl Phase {
    /// The phase of a live gate in this mode.
    pub fn live(mode: Mode) -> Phase {
        match mode {
            Mode::Atomic => Phase::LiveAtomic,
            Mode::Slots => Phase::LiveSlots,
        }
    }

    /// Whether the gate is live.
    pub fn is_live(self) -> bool {
        matches!(self, Phase::LiveSlots | Phase::LiveAtomic)
    }

    /// Whether a kill or a switch to the shared word is under way: from its first step to the drop of the
    /// initial reference, or to the collecting.
    pub fn is_mid_switch(self) -> bool {
        matches!(self, Phase::Closing(_) | Phase::Collected | Phase::Confirmed)
    }

    /// Whether the next step of a kill or of a switch closes one of this many slots.
    pub fn has_slot_to_close(self, slots: usize) -> bool {
        match self {
            Phase::LiveSlots => true,
            Phase::Closing(closed) => (closed as usize) < slots,
            _ => false,
        }
    }

    /// Whether all of this many slots are closed and none is collected yet.
    pub fn has_closed_all(self, slots: usize) -> bool {
        match self {
            Phase::Closing(closed) => closed as usize == slots,
            _ => false,
        }
    }

    /// The slot that is closed or opened next.
    pub fn next_slot(self) -> u32 {
        match self {
            Phase::Closing(slot) | Phase::Opening(slot) => slot,
            _ => 0,
        }
    }
}
