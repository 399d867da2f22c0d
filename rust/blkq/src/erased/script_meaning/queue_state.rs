// Erased from crates/script_meaning/src/queue_state.rt by tools/erase: edit that file.
//! The queue without its disk.

use crate::erased::queue_limits::Limits;
use crate::erased::script_meaning::reply::{Outcome, Reply, Request, Stat};
use crate::erased::script_meaning::script::{Mode, Script, Version, What};

/// Maximum depth: how many times a queue can be frozen at once.
pub const DEPTH_LIMIT: u32 = 1_000;

/// A queue without the bytes of its disk: its limits, how many times it is frozen, whether it is removed, how it counts,
/// and its counts. This decides which requests are accepted, which lines drain, and every reply except that to an
/// accepted request.
#[derive(Clone, Copy, Debug)]
pub struct QueueState {
    version: Version,
    sectors: u32,
    limits: Limits,
    depth: u32,
    removed: bool,
    mode: Mode,
    reads: u64,
    writes: u64,
    again: u64,
    eio: u64,
}

impl QueueState {
    /// Returns the queue of a script at its start: the limits are those of the hardware, and nothing was asked.
    pub fn new(script: &Script) -> Self {
        QueueState {
            version: script.form(),
            sectors: script.disk(),
            limits: Limits::start(script.hw()).unwrap(),
            depth: 0,
            removed: false,
            mode: Mode::Slots,
            reads: 0,
            writes: 0,
            again: 0,
            eio: 0,
        }
    }

    /// Returns the number of sectors of the disk.
    pub fn sectors(&self) -> u32 {
        self.sectors
    }

    /// Returns the limits in force.
    pub fn limits(&self) -> Limits {
        self.limits
    }

    /// Returns how many times the queue is frozen, 0 to 1,000.
    pub fn depth(&self) -> u32 {
        self.depth
    }

    /// Returns whether the queue was removed.
    pub fn is_removed(&self) -> bool {
        self.removed
    }

    /// Returns how the queue counts the requests in flight.
    pub fn mode(&self) -> Mode {
        self.mode
    }

    // Returns the sectors of a physical block, if the script's version has physical blocks.
    fn told_physical(&self) -> Option<u32> {
        match self.version {
            Version::One => None,
            Version::Two => Some(self.limits.physical()),
        }
    }

    // Returns what the queue reports about itself.
    fn stat(&self) -> Stat {
        Stat {
            reads: self.reads,
            writes: self.writes,
            again: self.again,
            eio: self.eio,
            depth: self.depth,
            max: self.limits.max(),
            chunk: self.limits.chunk(),
            physical: self.told_physical(),
            mode: self.mode,
        }
    }

    /// Counts an accepted request. A caller that already knows that a line is accepted takes the line by this alone, since it is
    /// what [`take`](QueueState::take) does with such a line.
    ///
    /// # Preconditions
    ///
    /// - `counted(self) + 1` is less than `2^64`.
    pub fn count(&mut self, request: &Request) {
        if request.writes {
            self.writes += 1;
        } else {
            self.reads += 1;
        }
    }

    // Accepts a request if the queue isn't frozen and the request ends within the disk.
    //
    // # Preconditions
    //
    // - `counted(self) + 1` is less than `2^64`.
    fn request(&mut self, request: Request) -> Outcome {
        let end = u64::from(request.start) + u64::from(request.count);
        if self.depth > 0 {
            self.again += 1;
            return Outcome::Replied(Reply::Again);
        }
        if end > u64::from(self.sectors) {
            self.eio += 1;
            return Outcome::Replied(Reply::PastEnd);
        }
        self.count(&request);
        Outcome::Accepted(request)
    }

    /// # Preconditions
    ///
    /// - `self.is_removed()` is `false`.
    fn freeze(&mut self) -> Outcome {
        debug_assert!(!self.is_removed());
        if self.depth == DEPTH_LIMIT {
            return Outcome::Replied(Reply::DepthFull);
        }
        self.depth += 1;
        Outcome::Drained(Reply::Depth(self.depth))
    }

    /// # Preconditions
    ///
    /// - `self.is_removed()` is `false`.
    fn thaw(&mut self) -> Outcome {
        debug_assert!(!self.is_removed());
        if self.depth == 0 {
            return Outcome::Replied(Reply::NotFrozen);
        }
        self.depth -= 1;
        Outcome::Replied(Reply::Depth(self.depth))
    }

    // Sets the limits. This drains unless the queue is frozen, when nothing is in flight.
    fn set(&mut self, limits: Limits) -> Outcome {
        self.limits = limits;
        if self.depth == 0 { Outcome::Drained(Reply::Done) } else { Outcome::Replied(Reply::Done) }
    }

    /// # Preconditions
    ///
    /// - `self.is_removed()` is `false`.
    fn set_max(&mut self, max: u32) -> Outcome {
        debug_assert!(!self.is_removed());
        let mut limits = self.limits;
        match limits.set_max(max) {
            Ok(()) => self.set(limits),
            Err(_) => Outcome::Replied(Reply::Invalid),
        }
    }

    /// # Preconditions
    ///
    /// - `self.is_removed()` is `false`.
    fn set_chunk(&mut self, chunk: u32) -> Outcome {
        debug_assert!(!self.is_removed());
        let mut limits = self.limits;
        match limits.set_chunk(chunk) {
            Ok(()) => self.set(limits),
            Err(_) => Outcome::Replied(Reply::Invalid),
        }
    }

    /// # Preconditions
    ///
    /// - `self.is_removed()` is `false`.
    fn set_physical(&mut self, size: u32) -> Outcome {
        debug_assert!(!self.is_removed());
        let mut limits = self.limits;
        match limits.set_physical(size) {
            Ok(()) => self.set(limits),
            Err(_) => Outcome::Replied(Reply::Invalid),
        }
    }

    /// Takes a line, and returns its outcome. An accepted request is within the disk. No memory is taken.
    ///
    /// # Preconditions
    ///
    /// - `counted(self) + 1` is less than `2^64`.
    pub fn take(&mut self, what: &What) -> Outcome {
        if self.removed {
            return Outcome::Replied(Reply::Gone);
        }
        self.take_there(what)
    }

    // Takes a line of a queue that isn't removed.
    //
    // # Preconditions
    //
    // - `counted(self) + 1` is less than `2^64`.
    // - `self.is_removed()` is `false`.
    fn take_there(&mut self, what: &What) -> Outcome {
        debug_assert!(!self.is_removed());
        match what {
            What::Read { start, count } => self.request(Request { start: *start, count: *count, writes: false }),
            What::Write { start, count, .. } => self.request(Request { start: *start, count: *count, writes: true }),
            What::Freeze => self.freeze(),
            What::Thaw => self.thaw(),
            What::SetMax(max) => self.set_max(*max),
            What::SetChunk(chunk) => self.set_chunk(*chunk),
            What::SetPhysical(size) => self.set_physical(*size),
            What::SetMode(mode) => {
                self.mode = *mode;
                Outcome::Replied(Reply::Done)
            }
            What::Stat => Outcome::Drained(Reply::Stat(self.stat())),
            What::Remove => {
                self.removed = true;
                Outcome::Drained(Reply::Removed)
            }
        }
    }
}
