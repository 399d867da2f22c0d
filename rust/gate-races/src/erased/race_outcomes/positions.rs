// Erased from crates/race_outcomes/src/positions.rt by tools/erase: edit that file.
//! The indices of numbers in a list.

use crate::erased::fallible::{AllocError, TryVec};
use crate::erased::maps::{HashMap, TryMap};

/// A number of the list, and the last earlier index with the same number.
#[derive(Clone, Copy)]
struct Placed {
    #[allow(dead_code)] // only proofs read it
    number: u64,
    before: Option<usize>,
}

/// A list of numbers with an index of each. In contracts it is the list.
pub struct Positions {
    placed: Vec<Placed>,
    /// The last index of each number.
    last: HashMap<u64, usize>,
}

impl Positions {
    /// Returns an empty list. It allocates nothing.
    pub fn new() -> Positions {
        Positions { placed: Vec::new(), last: HashMap::default() }
    }

    /// The last index of the number, if it is in the list.
    pub fn last(&self, number: u64) -> Option<usize> {
        self.last.get(&number).copied()
    }

    /// The last index before this one with the same number, if there is one.
    ///
    /// # Preconditions
    ///
    /// - `at` is less than `self.len()`.
    pub fn before(&self, at: usize) -> Option<usize> {
        self.placed[at].before
    }

    /// Appends the number.
    pub fn with(self, number: u64) -> Result<Positions, AllocError> {
        let Positions { mut placed, mut last } = self;
        let before = last.get(&number).copied();
        last.try_put(number, placed.len())?;
        placed.try_push(Placed { number, before })?;
        Ok(Positions { placed, last })
    }
}
