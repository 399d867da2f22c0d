// Erased from crates/percpu_words/src/shared_word.rt by tools/erase: edit that file.
//! The shared word of a gate: the marks `ZERO` and `DEAD`, and the value.

/// The mark of a gate whose count has reached zero.
pub const ZERO: u64 = 1 << 63;

/// The mark of a gate that was killed. Linux: `__PERCPU_REF_DEAD` (include/linux/percpu-refcount.h).
pub const DEAD: u64 = 1 << 62;

/// Added to the value while slots are open or being closed, so that what the slots hold can't bring it to zero. Linux:
/// `PERCPU_COUNT_BIAS` (lib/percpu-refcount.c), which is half the range of a word there.
pub const BIAS: u64 = 1 << 48;

/// Whether the word has the mark `ZERO`.
#[inline]
pub fn is_zero(word: u64) -> bool {
    word & ZERO != 0
}

/// Whether the word has the mark `DEAD`.
#[inline]
pub fn is_dead(word: u64) -> bool {
    word & DEAD != 0
}

/// The count in the word, with the bias if it has one.
#[inline]
pub fn value(word: u64) -> u64 {
    word & (DEAD - 1)
}
