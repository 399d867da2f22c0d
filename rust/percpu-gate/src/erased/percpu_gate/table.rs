// Erased from crates/percpu_gate/src/table.rt by tools/erase: edit that file.
//! The words of a gate, on which its seats step.

use crate::erased::atomic_table::Table;
use crate::erased::fallible::{AllocError, TryVec};
use crate::erased::percpu_core::{SLOT_LIMIT, Start, WORD_LIMIT};
use crate::erased::percpu_gate::control_seat::ControlSeat;
use crate::erased::percpu_gate::rule::GateKey;
use crate::erased::percpu_words::{CLOSED, slot_word};
use alloc::vec::Vec;

/// Index of the shared word: 128 bytes into the block, so that whatever precedes the block is on another line.
pub(crate) const SHARED: usize = 16;

/// Index of the front.
pub(crate) const FRONT: usize = 32;

/// Index of the first guarded word.
pub(crate) const FIRST_WORD: usize = 33;

/// Index of the first slot, more than 128 bytes after the words before it.
const FIRST_SLOT: usize = 64;

/// A slot is written by its thread all the time, so it has 128 bytes to itself.
const WORDS_OF_A_SLOT: usize = 16;

/// Index of a slot.
#[inline]
pub(crate) fn place_of(slot: u32) -> usize {
    FIRST_SLOT + WORDS_OF_A_SLOT * slot as usize
}

/// The words of a gate.
pub(crate) struct GateTable {
    pub(crate) table: Table,
    slots: u32,
}

/// The word of each slot at the start.
fn first_slot_word(start: Start) -> u64 {
    match start {
        Start::Slots => slot_word(0),
        Start::Atomic | Start::Dead => CLOSED,
    }
}

/// The words of a gate that isn't shared yet. Unused words have the same value as the slots.
///
/// # Preconditions
///
/// - `key.count` is at most `WORD_LIMIT`.
/// - `key.slots` is at most `SLOT_LIMIT`.
fn first_words(key: &GateKey) -> Result<Vec<u64>, AllocError> {
    debug_assert!(key.count <= WORD_LIMIT);
    debug_assert!(key.slots <= SLOT_LIMIT);
    let slot = first_slot_word(key.start);
    // The words end where another slot would begin.
    let size = place_of(key.slots);
    let mut words = Vec::try_with_room(size)?;
    words.try_resize(SHARED, slot)?;
    words.try_push(key.start.shared())?;
    words.try_resize(FRONT, slot)?;
    words.try_push(key.start.front(0))?;
    words.try_extend_from_slice(&key.words[..key.count])?;
    words.try_resize(size, slot)?;
    Ok(words)
}

impl GateTable {
    /// The words of a new gate, and the seat of its control, which has made no pass yet.
    ///
    /// # Preconditions
    ///
    /// - `key.count` is at most `WORD_LIMIT`.
    /// - `key.slots` is from 1 to `SLOT_LIMIT`.
    pub(crate) fn new(key: &GateKey) -> Result<(GateTable, ControlSeat), AllocError> {
        debug_assert!(key.count <= WORD_LIMIT);
        debug_assert!(1 <= key.slots);
        debug_assert!(key.slots <= SLOT_LIMIT);
        let words = first_words(key)?;
        let (table, seat) = Table::of_words(words.as_slice())?;
        let slots = key.slots;
        Ok((GateTable { table, slots }, ControlSeat::of(seat)))
    }

    /// Ends the table, with the control's seat.
    ///
    /// # Preconditions
    ///
    /// - `control` belongs to `self`.
    pub(crate) fn close(self, control: ControlSeat) {
        let closed = self.table.close_with(control.into_seat());
        closed.free();
    }

    /// The number of slots of the gate.
    #[inline]
    pub(crate) fn slots(&self) -> u32 {
        self.slots
    }
}
