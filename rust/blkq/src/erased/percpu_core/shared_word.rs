// Erased from crates/percpu_core/src/shared_word.rt by tools/erase: edit that file.
//! The replies to steps on the shared word, and the word after them.

use crate::erased::percpu_core::Reply;
use crate::erased::percpu_words::{BIAS, DEAD, ZERO};

/// The reply to a subtraction that left this word.
pub(crate) fn left_reply(word: u64) -> Reply {
    if word == DEAD { Reply::ToMark } else { Reply::NotLast }
}

/// The reply to an exchange that found this word.
pub(crate) fn mark_reply(word: u64) -> Reply {
    if word == DEAD { Reply::Last } else { Reply::Lost }
}

/// The word after the exchange: DEAD alone has become DEAD and ZERO.
pub(crate) fn marked(word: u64) -> u64 {
    if word == DEAD { DEAD | ZERO } else { word }
}

/// The word after the sum of the closed deltas is added and the bias removed.
///
/// # Preconditions
///
/// - `bias` is at most `control.moved_by(sum, parts(word))`.
/// - `control.moved_by(sum, parts(word))` is less than `dead_mark`.
pub(crate) fn collected(sum: i64, word: u64) -> u64 {
    let moved = if sum >= 0 { word + sum.unsigned_abs() } else { word - sum.unsigned_abs() };
    moved - BIAS
}
