//! The model: the plain counter of docs/GATE.md.
use percpu_gate::{Phase, Start};

/// A gate as its user sees it: a plain counter.
#[derive(Clone, Debug, Default)]
pub struct Counter {
    pub slots: u32,
    /// The numbers of passes that aren't out, new or retired, and of those that are out.
    pub waiting: u32,
    pub out: u32,
    pub held: u64,
    pub killed: bool,
    pub released: bool,
    pub on_slots: bool,
    pub front: u64,
    pub kills: u64,
    /// The numbers of all releases, and of those that the control knows of.
    pub releases: u64,
    pub known: u64,
    pub words: [u64; 8],
}

impl Counter {
    pub fn new(slots: u32, passes: u32, start: Start, words: [u64; 8]) -> Counter {
        let dead = start == Start::Dead;
        Counter {
            slots,
            waiting: passes,
            killed: dead,
            released: dead,
            on_slots: start != Start::Atomic,
            front: u64::from(dead),
            words,
            ..Counter::default()
        }
    }

    /// Whether the current call is the release.
    pub fn tells(&mut self) -> bool {
        let last = self.killed && self.held == 0 && !self.released;
        self.released |= last;
        self.releases += u64::from(last);
        last
    }

    pub fn drops(&mut self) -> bool {
        self.held -= 1;
        self.tells()
    }

    pub fn revives(&mut self) {
        (self.killed, self.released) = (false, false);
        self.front += 1;
    }

    pub fn phase(&self) -> Phase {
        match (self.killed, self.on_slots) {
            (true, _) => Phase::Dead,
            (false, true) => Phase::LiveOnSlots,
            (false, false) => Phase::LiveAtomic,
        }
    }
}
