// A stand-in for the kit's atomic_table, written by hand: tools/erase leaves it alone.
//! A table of words that threads share. Each call is one atomic step on one word, sequentially consistent.
//!
//! In the sources a table has a rule, which each step is proved to keep, and a thread steps on it by a [`Seat`] of its
//! own. Here the rule is gone, and a seat has no bytes.
//!
//! Other crates compile this file too. The module around it has the atomic number, and what a step past the end does.

use super::fallible::AllocError;
use super::{AtomicU64, past_the_end};
use alloc::vec::Vec;
use core::sync::atomic::Ordering::SeqCst;

/// The right to step on a table. It moves between threads by ownership, and a step borrows it.
#[derive(Debug)]
pub struct Seat {
    made_here: (),
}

/// The words, as threads share them.
#[derive(Debug)]
pub struct Shared {
    words: Vec<AtomicU64>,
}

impl Shared {
    #[inline(always)]
    #[track_caller]
    fn at(&self, word: usize) -> &AtomicU64 {
        match self.words.get(word) {
            Some(found) => found,
            None => past_the_end(word, self.words.len()),
        }
    }

    /// Loads a word.
    #[inline(always)]
    #[track_caller]
    pub fn load(&self, _seat: &mut Seat, word: usize) -> u64 {
        self.at(word).load(SeqCst)
    }

    /// Stores a word.
    #[inline(always)]
    #[track_caller]
    pub fn store(&self, _seat: &mut Seat, word: usize, new: u64) {
        self.at(word).store(new, SeqCst);
    }

    /// Stores a word, and returns the value before.
    #[inline(always)]
    #[track_caller]
    pub fn swap(&self, _seat: &mut Seat, word: usize, new: u64) -> u64 {
        self.at(word).swap(new, SeqCst)
    }

    /// Adds to a word, modulo 2^64, and returns the value before.
    #[inline(always)]
    #[track_caller]
    pub fn fetch_add(&self, _seat: &mut Seat, word: usize, more: u64) -> u64 {
        self.at(word).fetch_add(more, SeqCst)
    }

    /// Subtracts from a word, modulo 2^64, and returns the value before.
    #[inline(always)]
    #[track_caller]
    pub fn fetch_sub(&self, _seat: &mut Seat, word: usize, less: u64) -> u64 {
        self.at(word).fetch_sub(less, SeqCst)
    }

    /// Clears the bits of a word that aren't in `bits`, and returns the value before.
    #[inline(always)]
    #[track_caller]
    pub fn fetch_and(&self, _seat: &mut Seat, word: usize, bits: u64) -> u64 {
        self.at(word).fetch_and(bits, SeqCst)
    }

    /// Sets these bits of a word, and returns the value before.
    #[inline(always)]
    #[track_caller]
    pub fn fetch_or(&self, _seat: &mut Seat, word: usize, bits: u64) -> u64 {
        self.at(word).fetch_or(bits, SeqCst)
    }

    /// Stores `new` if the word is `old`. Returns the value found: `old` if and only if `new` was stored.
    #[inline(always)]
    #[track_caller]
    pub fn compare_exchange(&self, _seat: &mut Seat, word: usize, old: u64, new: u64) -> u64 {
        match self.at(word).compare_exchange(old, new, SeqCst, SeqCst) {
            Ok(found) | Err(found) => found,
        }
    }

    /// A seat beside this one.
    pub fn split_seat(&self, _seat: &mut Seat) -> Seat {
        Seat { made_here: () }
    }

    /// Ends a seat.
    pub fn join_seat(&self, _seat: &mut Seat, other: Seat) {
        let Seat { made_here: () } = other;
    }
}

/// A table, which owns its words.
#[derive(Debug)]
pub struct Table {
    pub shared: Shared,
}

impl Table {
    /// A table of these words, and its first seat. `AllocError` if memory is refused.
    pub fn of_words(words: &[u64]) -> Result<(Table, Seat), AllocError> {
        let mut made = Vec::new();
        made.try_reserve_exact(words.len())?;
        made.extend(words.iter().copied().map(AtomicU64::new));
        Ok((Table { shared: Shared { words: made } }, Seat { made_here: () }))
    }

    /// Ends a table that no thread shares any more.
    pub fn close_with(self, seat: Seat) -> Closed {
        let Seat { made_here: () } = seat;
        Closed { words: self.shared.words }
    }
}

/// A table that has ended.
#[derive(Debug)]
pub struct Closed {
    words: Vec<AtomicU64>,
}

impl Closed {
    /// Frees the words.
    pub fn free(self) {
        drop(self.words);
    }
}
