// Erased from crates/percpu_words/src/slot.rt by tools/erase: edit that file.
//! The word of a slot: closed, or open with a delta.

/// The word of a closed slot.
pub const CLOSED: u64 = 1 << 63;

/// Maximum delta; `-DELTA_MAX` is the minimum.
pub const DELTA_MAX: i64 = 1 << 20;

/// The word of the delta 0.
const MIDDLE: i64 = 1 << 32;

/// The words of the least delta and of the greatest.
const LEAST: u64 = (MIDDLE - DELTA_MAX) as u64;

const GREATEST: u64 = (MIDDLE + DELTA_MAX) as u64;

/// Whether the slot is closed.
#[inline]
pub fn is_closed(word: u64) -> bool {
    word == CLOSED
}

/// The word of an open slot with this delta. The caller ensures that the delta is within its limit.
///
/// # Preconditions
///
/// - `IsDelta(delta)`: a delta is within its limit, on either side of 0.
#[inline]
pub fn slot_word(delta: i64) -> u64 {
    (MIDDLE + delta) as u64
}

/// The delta that the word encodes; `None` for a closed slot and for any other word that encodes no delta.
#[inline]
pub fn slot_delta(word: u64) -> Option<i64> {
    if word < LEAST || word > GREATEST {
        return None;
    }
    Some(word as i64 - MIDDLE)
}
