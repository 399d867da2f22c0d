// Erased from crates/gate_replay/src/schedule.rt by tools/erase: edit that file.
//! A schedule: a world, and the steps that are taken in it.

use crate::erased::percpu_core::{Event, Start};

/// The 0 to 8 guarded words that a world starts with.
#[derive(Debug)]
pub struct GuardedWords {
    words: Vec<u64>,
}

impl GuardedWords {
    /// Makes a list of these words; no memory is taken.
    pub fn new(words: Vec<u64>) -> Self {
        GuardedWords { words }
    }

    /// Returns the words.
    pub fn as_slice(&self) -> &[u64] {
        self.words.as_slice()
    }

    /// Returns the words as a vector; no memory is taken.
    pub fn into_vec(self) -> Vec<u64> {
        self.words
    }
}

/// The steps of a schedule, in order, each with the number of its line.
#[derive(Debug)]
pub struct Events {
    events: Vec<(u32, Event)>,
}

impl Events {
    /// Makes a list of these steps; no memory is taken.
    pub fn new(events: Vec<(u32, Event)>) -> Self {
        Events { events }
    }

    /// Returns the steps.
    pub fn as_slice(&self) -> &[(u32, Event)] {
        self.events.as_slice()
    }

    /// Returns the steps as a vector; no memory is taken.
    pub fn into_vec(self) -> Vec<(u32, Event)> {
        self.events
    }
}

/// A world, and the steps that are taken in it.
#[derive(Debug)]
pub struct Schedule {
    /// Number of slots of the gate, 1 to 64.
    pub slots: u32,
    /// Number of passes of the gate, 1 to 64.
    pub passes: u32,
    pub start: Start,
    /// Number of kills that the gate starts with, 0 to 2^40.
    pub kills: u64,
    pub words: GuardedWords,
    pub events: Events,
}
