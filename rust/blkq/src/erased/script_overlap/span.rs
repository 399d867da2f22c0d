// Erased from crates/script_overlap/src/span.rt by tools/erase: edit that file.
//! The sectors that the accepted requests of a span read and write.

use crate::erased::fallible::{AllocError, TryVec};
use crate::erased::script_meaning::{Outcome, Request};

/// The sectors that the requests of a span read, and those that they write. A span is the requests that were accepted
/// since the last drain.
///
/// It takes the outcomes of a script's lines one after another, and returns each request that clashes with a request of the span:
/// that request has to wait for a drain, and begins a new span.
pub(crate) struct Span {
    reads: Touched,
    writes: Touched,
}

impl Span {
    /// Returns a span without requests, on a disk of `sectors` sectors. Fails only if memory is refused.
    pub(crate) fn new(sectors: u32) -> Result<Self, AllocError> {
        Ok(Span { reads: Touched::new(sectors)?, writes: Touched::new(sectors)? })
    }

    /// Returns whether a request within the disk shares a sector with a request of the span and one of the two writes.
    ///
    /// # Preconditions
    ///
    /// - `request.start + request.count` is at most `self.reads.len()`.
    /// - `request.start + request.count` is at most `self.writes.len()`.
    pub(crate) fn meets(&self, request: &Request) -> bool {
        self.writes.meets(request.start, request.count)
            || request.writes && self.reads.meets(request.start, request.count)
    }

    /// Adds a request within the disk to the span.
    ///
    /// # Preconditions
    ///
    /// - `request.start + request.count` is at most `self.reads.len()`.
    /// - `request.start + request.count` is at most `self.writes.len()`.
    pub(crate) fn add(&mut self, request: &Request) {
        if request.writes {
            self.writes.add(request.start, request.count);
        } else {
            self.reads.add(request.start, request.count);
        }
    }

    /// Ends the span at a drain: the next one has no requests yet.
    pub(crate) fn clear(&mut self) {
        self.reads.clear();
        self.writes.clear();
    }

    /// Takes the outcome of the next line: an accepted request joins the span, and a line that drains ends it.
    ///
    /// Returns the request if it shares a sector with a request of the span and one of the two writes. Then it has to wait for a
    /// drain, and begins a new span. No memory is taken.
    ///
    /// # Preconditions
    ///
    /// - `IsWithin(self.reads.len(), came)`: an accepted request is within a disk of this many sectors.
    /// - `IsWithin(self.writes.len(), came)`: an accepted request is within a disk of this many sectors.
    pub(crate) fn take(&mut self, came: &Outcome) -> Option<Request> {
        match came {
            Outcome::Accepted(request) => {
                let waits = self.meets(request);
                if waits {
                    self.clear();
                }
                self.add(request);
                if waits { Some(*request) } else { None }
            }
            Outcome::Drained(_) => {
                self.clear();
                None
            }
            Outcome::Replied(_) => None,
        }
    }
}

/// Number of sectors for which one word has bits.
const WORD_SECTORS: usize = 64;

/// The sectors of a disk that were touched since the last drain.
struct Touched {
    // a bit for each sector, 64 to a word, the least significant first
    words: Bits,
    #[allow(dead_code)] // only proofs read it
    sectors: u32,
}

// Returns a word of which the lowest `count` bits are set.
//
// # Preconditions
//
// - `count` is at most 64.
fn low_ones(count: usize) -> u64 {
    debug_assert!(count <= 64);
    if count == WORD_SECTORS { u64::MAX } else { (1 << count) - 1 }
}

// Returns the bits of the sectors from `start` up to `end`, in the word whose first sector is `first`.
//
// # Preconditions
//
// - `start` is at most `end`.
// - `start` is at most `first + 64`.
// - `first` is at most `end`.
fn mask(start: usize, end: usize, first: usize) -> u64 {
    debug_assert!(start <= end);
    debug_assert!(start <= first + 64);
    debug_assert!(first <= end);
    low_ones((end - first).min(WORD_SECTORS)) - low_ones(start.saturating_sub(first))
}

impl Touched {
    /// Returns a disk of this many sectors, none of them touched.
    fn new(sectors: u32) -> Result<Self, AllocError> {
        let words = Bits::new((sectors as usize).div_ceil(WORD_SECTORS))?;
        Ok(Touched { words, sectors })
    }

    /// Returns whether one of `count` sectors, starting with `start`, is touched.
    ///
    /// # Preconditions
    ///
    /// - `start + count` is at most `self.len()`.
    fn meets(&self, start: u32, count: u32) -> bool {
        let from = start as usize;
        let end = from + count as usize;
        for word in from / WORD_SECTORS..end.div_ceil(WORD_SECTORS) {
            let bits = self.words.get(word) & mask(from, end, word * WORD_SECTORS);
            if bits != 0 {
                return true;
            }
        }
        false
    }

    /// Marks `count` sectors, starting with `start`, as touched.
    ///
    /// # Preconditions
    ///
    /// - `start + count` is at most `self.len()`.
    fn add(&mut self, start: u32, count: u32) {
        let from = start as usize;
        let end = from + count as usize;
        for word in from / WORD_SECTORS..end.div_ceil(WORD_SECTORS) {
            let bits = self.words.get(word) | mask(from, end, word * WORD_SECTORS);
            self.words.set(word, bits);
        }
    }

    /// Marks no sector as touched any more, after a drain.
    fn clear(&mut self) {
        self.words.clear();
    }
}

/// Words of 64 bits.
struct Bits {
    words: Vec<u64>,
}

impl Bits {
    /// Returns this many words, each of them zero.
    fn new(count: usize) -> Result<Self, AllocError> {
        Ok(Bits { words: Vec::try_from_elem(0, count)? })
    }

    /// Returns the word at an index.
    ///
    /// # Preconditions
    ///
    /// - `index` is less than `self.len()`.
    fn get(&self, index: usize) -> u64 {
        self.words[index]
    }

    /// Sets the word at an index.
    ///
    /// # Preconditions
    ///
    /// - `index` is less than `self.len()`.
    fn set(&mut self, index: usize, bits: u64) {
        self.words[index] = bits;
    }

    /// Makes every word zero.
    fn clear(&mut self) {
        self.words.fill(0);
    }
}
