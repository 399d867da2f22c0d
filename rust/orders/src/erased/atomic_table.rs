//! The table of atomic words: each step is the scheduler's.

use crate::actor::{self, Object};
use crate::erased::fallible::AllocError;
use crate::op::Op;
use std::cell::Cell;

#[derive(Debug)]
pub struct Seat {
    made_here: (),
}

#[derive(Debug)]
pub struct Shared {
    object: Object,
    words: Vec<Cell<u64>>,
}

impl Shared {
    fn step(&self, word: usize, op: Op) -> u64 {
        actor::step(&self.object, word as u32, &self.words[word], op)
    }

    pub fn load(&self, _seat: &mut Seat, word: usize) -> u64 {
        self.step(word, Op::Load)
    }

    pub fn store(&self, _seat: &mut Seat, word: usize, new: u64) {
        self.step(word, Op::Store(new));
    }

    pub fn swap(&self, _seat: &mut Seat, word: usize, new: u64) -> u64 {
        self.step(word, Op::Swap(new))
    }

    pub fn fetch_add(&self, _seat: &mut Seat, word: usize, more: u64) -> u64 {
        self.step(word, Op::Add(more))
    }

    pub fn fetch_sub(&self, _seat: &mut Seat, word: usize, less: u64) -> u64 {
        self.step(word, Op::Sub(less))
    }

    pub fn fetch_and(&self, _seat: &mut Seat, word: usize, bits: u64) -> u64 {
        self.step(word, Op::And(bits))
    }

    pub fn fetch_or(&self, _seat: &mut Seat, word: usize, bits: u64) -> u64 {
        self.step(word, Op::Or(bits))
    }

    pub fn compare_exchange(&self, _seat: &mut Seat, word: usize, old: u64, new: u64) -> u64 {
        self.step(word, Op::Exchange(old, new))
    }

    pub fn split_seat(&self, _seat: &mut Seat) -> Seat {
        Seat { made_here: () }
    }

    pub fn join_seat(&self, _seat: &mut Seat, other: Seat) {
        let Seat { made_here: () } = other;
    }
}

#[derive(Debug)]
pub struct Table {
    pub shared: Shared,
}

impl Table {
    pub fn of_words(words: &[u64]) -> Result<(Table, Seat), AllocError> {
        let words = words.iter().copied().map(Cell::new).collect();
        Ok((Table { shared: Shared { object: Object::named(), words } }, Seat { made_here: () }))
    }

    pub fn close_with(self, seat: Seat) -> Closed {
        let Seat { made_here: () } = seat;
        Closed { made_here: () }
    }
}

#[derive(Debug)]
pub struct Closed {
    made_here: (),
}

impl Closed {
    pub fn free(self) {}
}
