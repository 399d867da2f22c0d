// Erased from crates/percpu_core/src/pass_event.rt by tools/erase: edit that file.
//! The steps of a pass.

use crate::erased::percpu_core::shared_word::marked;
use crate::erased::percpu_words::DELTA_MAX;

/// A step of a pass.
#[derive(Clone, Copy, Debug, PartialEq, Eq)]
pub enum PassEvent {
    /// Adds 1 to the shared word; refused if ZERO was set. Linux: `percpu_ref_tryget`.
    AddTry,
    /// Adds 1 to the shared word; refused if DEAD was set. Linux: `percpu_ref_tryget_live`.
    AddLive,
    /// Adds this many to the shared word. Linux: `percpu_ref_get_many`.
    AddGet(u32),
    /// Subtracts this many from the shared word. Linux: `percpu_ref_put_many`.
    Sub(u32),
    /// Subtracts the 1 that a refused try had added.
    Undo,
    /// Exchanges DEAD alone for DEAD and ZERO.
    Mark,
    /// Loads the slot of this number. Linux: the test of `__ref_is_percpu` (include/linux/percpu-refcount.h).
    Look(u32),
    /// Exchanges the slot's delta `seen` for `seen + n`. Linux: `this_cpu_add` in `percpu_ref_tryget_many`.
    Take { slot: u32, seen: i64, n: u32 },
    /// Exchanges the slot's delta `seen` for `seen - n`. Linux: `this_cpu_sub` in `percpu_ref_put_many`.
    Give { slot: u32, seen: i64, n: u32 },
    /// Loads the shared word.
    LookShared,
    /// Loads the front.
    LoadFront,
    /// Loads the guarded word of this number.
    LoadWord(u32),
}

impl PassEvent {
    /// Whether the step names a slot that the gate, with this many slots, doesn't have.
    pub(crate) fn names_no_slot(self, slots: usize) -> bool {
        match self {
            PassEvent::Look(slot) | PassEvent::Take { slot, .. } | PassEvent::Give { slot, .. } => {
                slot as usize >= slots
            }
            _ => false,
        }
    }

    /// Whether the step loads a guarded word that the gate, with this many words, doesn't have.
    pub(crate) fn names_no_word(self, words: usize) -> bool {
        matches!(self, PassEvent::LoadWord(k) if k as usize >= words)
    }

    /// The number of references that the pass has to hold before the step.
    pub(crate) fn needed(self) -> u32 {
        match self {
            PassEvent::AddGet(_) | PassEvent::LoadWord(_) => 1,
            PassEvent::Take { n: 1, .. } => 0,
            PassEvent::Take { .. } => 1,
            PassEvent::Sub(n) | PassEvent::Give { n, .. } => n,
            _ => 0,
        }
    }

    /// Whether the step counts by nothing, or would leave a delta beyond its limit.
    pub(crate) fn has_bad_amount(self) -> bool {
        match self {
            PassEvent::AddGet(n) | PassEvent::Sub(n) => n == 0,
            PassEvent::Take { seen, n, .. } => n == 0 || !(is_delta(seen) && is_delta(seen + i64::from(n))),
            PassEvent::Give { seen, n, .. } => n == 0 || !(is_delta(seen) && is_delta(seen - i64::from(n))),
            _ => false,
        }
    }

    /// The shared word after the step.
    ///
    /// # Preconditions
    ///
    /// - `parts(word) + steps.added(self)` is less than `dead_mark`.
    /// - `steps.taken_off(self)` is at most `parts(word)`.
    pub(crate) fn shared_after(self, word: u64) -> u64 {
        match self {
            PassEvent::AddTry | PassEvent::AddLive => word + 1,
            PassEvent::AddGet(n) => word + u64::from(n),
            PassEvent::Sub(n) => word - u64::from(n),
            PassEvent::Undo => word - 1,
            PassEvent::Mark => marked(word),
            _ => word,
        }
    }
}

/// Whether the delta is within its limit.
fn is_delta(delta: i64) -> bool {
    delta.unsigned_abs() <= DELTA_MAX.unsigned_abs()
}
