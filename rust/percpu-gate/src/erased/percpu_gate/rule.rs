// Erased from crates/percpu_gate/src/rule.rt by tools/erase: edit that file.
//! The rule of a gate's table: the laws of `percpu_core`.

use crate::erased::percpu_core::{Start, WORD_LIMIT};

/// What a gate was made with. It never changes.
pub(crate) struct GateKey {
    pub slots: u32,
    pub start: Start,
    /// The guarded words, of which there are `count`.
    pub words: [u64; WORD_LIMIT],
    pub count: usize,
}

impl GateKey {
    /// The key of a gate with this many slots and these guarded words.
    ///
    /// # Preconditions
    ///
    /// - `words.len()` is at most `WORD_LIMIT`.
    pub(crate) fn new(slots: u32, start: Start, words: &[u64]) -> GateKey {
        debug_assert!(words.len() <= WORD_LIMIT);
        let count = words.len();
        let mut padded = [0; WORD_LIMIT];
        padded[..count].copy_from_slice(words);
        GateKey { slots, start, words: padded, count }
    }
}
