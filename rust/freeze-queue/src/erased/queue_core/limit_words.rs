// Erased from crates/queue_core/src/limit_words.rt by tools/erase: edit that file.
//! The guarded words that hold the limits of a queue.

use crate::erased::percpu_gate::{Control, Gate, Pass};

/// The number of guarded words that hold the limits.
pub const LIMIT_WORDS: usize = 3;

/// Loads the words, for a pass that holds a reference.
///
/// # Preconditions
///
/// - `pass` belongs to `gate`.
/// - `pass.held()` is at least 1.
#[inline]
pub(crate) fn load_words(pass: &mut Pass<LIMIT_WORDS>, gate: &Gate<LIMIT_WORDS>) -> [u64; LIMIT_WORDS] {
    debug_assert!(1 <= pass.held());
    let mut words = [0; LIMIT_WORDS];
    for k in 0..LIMIT_WORDS {
        words[k] = pass.word(gate, k as u32);
    }
    words
}

/// Stores the words, for a control that knows that ZERO is set.
///
/// # Preconditions
///
/// - `control` belongs to `gate`.
/// - `control.view.standing.phase` is `Dead`.
/// - `control.view.knows_zero` is `true`.
/// - `control.view.words.len()` is `LIMIT_WORDS`.
pub(crate) fn store_words(control: &mut Control<LIMIT_WORDS>, gate: &Gate<LIMIT_WORDS>, words: [u64; LIMIT_WORDS]) {
    for k in 0..LIMIT_WORDS {
        let stored = control.store_word(gate, k as u32, words[k]);
        debug_assert!(stored.is_ok());
    }
}
