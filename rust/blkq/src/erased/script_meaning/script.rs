// Erased from crates/script_meaning/src/script.rt by tools/erase: edit that file.
//! A script: its version, and its lines with what each asks.

use crate::erased::fallible::{AllocError, TryVec};
use crate::erased::queue_limits::HARDWARE_LIMIT;
use crate::erased::ram_disk::{MAX_PATTERN, MAX_SECTORS};

/// How the queue of a script counts requests in flight. A run of the script derives the mode of its own queue from this one.
#[derive(Clone, Copy, Debug, PartialEq, Eq)]
pub enum Mode {
    /// On one shared word.
    Atomic,
    /// On slots.
    Slots,
}

/// What a line of a script asks of the queue. Positions and lengths are in sectors of 512 bytes.
#[derive(Debug)]
pub enum What {
    /// Read `count` sectors, starting with sector `start`.
    Read { start: u32, count: u32 },
    /// Write `count` sectors, starting with sector `start`, with the pattern's bytes repeated over the range.
    Write { start: u32, count: u32, pattern: Pattern },
    /// Freeze the queue once more.
    Freeze,
    /// Undo one freeze.
    Thaw,
    /// Set the maximum number of sectors of a request; 0 means what the hardware takes.
    SetMax(u32),
    /// Set the sectors of a chunk; 0 means none.
    SetChunk(u32),
    /// Set the sectors of a physical block of the device.
    SetPhysical(u32),
    /// Count requests in this mode.
    SetMode(Mode),
    /// Report the counts and limits.
    Stat,
    /// Remove the queue.
    Remove,
}

/// A line of a script that asks something.
#[derive(Debug)]
pub struct Line {
    /// The line's number in the text, from 1.
    pub number: u32,
    pub what: What,
}

/// The 1 to 64 bytes that a write repeats over its range.
#[derive(Debug)]
pub struct Pattern {
    bytes: Bytes,
}

// Patterns of up to 8 bytes, which most are, take no memory of their own.
#[derive(Debug)]
enum Bytes {
    Short(ShortBytes),
    Long(Vec<u8>),
}

impl Pattern {
    /// Makes a pattern of 1 to 64 bytes. Takes memory, and returns an error if it is refused, only for more than 8 bytes.
    ///
    /// # Preconditions
    ///
    /// - `bytes.len()` is at least 1.
    /// - `bytes.len()` is at most `MAX_PATTERN`.
    pub fn new(bytes: &[u8]) -> Result<Self, AllocError> {
        debug_assert!(1 <= bytes.len());
        debug_assert!(bytes.len() <= MAX_PATTERN);
        let bytes = match ShortBytes::of(bytes) {
            Some(short) => Bytes::Short(short),
            None => Bytes::Long(Vec::try_from_slice(bytes)?),
        };
        Ok(Pattern { bytes })
    }

    /// Returns the bytes.
    pub fn bytes(&self) -> &[u8] {
        match &self.bytes {
            Bytes::Short(bytes) => bytes.as_slice(),
            Bytes::Long(bytes) => bytes.as_slice(),
        }
    }
}

/// The maximum number of bytes of a [`ShortBytes`].
pub(crate) const MOST_SHORT: usize = 8;

/// Up to 8 bytes, kept in the value itself.
#[derive(Debug)]
struct ShortBytes {
    bytes: [u8; MOST_SHORT],
    count: u8,
}

impl ShortBytes {
    /// Returns these bytes, or `None` if there are more than 8.
    fn of(bytes: &[u8]) -> Option<ShortBytes> {
        let count = bytes.len();
        if count > MOST_SHORT {
            return None;
        }
        let mut place = [0; MOST_SHORT];
        place[..count].copy_from_slice(bytes);
        Some(ShortBytes { bytes: place, count: count as u8 })
    }

    /// Returns the bytes.
    fn as_slice(&self) -> &[u8] {
        &self.bytes[..usize::from(self.count)]
    }
}

/// The version of a script. The versions differ in how they treat requests that overlap, and only version 2 has physical block
/// sizes.
#[derive(Clone, Copy, Debug, PartialEq, Eq)]
pub enum Version {
    /// A script in which requests overlap is refused.
    One,
    /// The queue drains before a request that overlaps a request of the span that it would join.
    Two,
}

impl Version {
    /// Returns the number in a script's first line: 1 or 2.
    pub fn number(&self) -> u32 {
        match self {
            Version::One => 1,
            Version::Two => 2,
        }
    }
}

/// A parsed script: its version, the disk, the limit of the hardware, and the lines that ask something.
#[derive(Debug)]
pub struct Script {
    version: Version,
    sectors: u32,
    hardware: u32,
    lines: Vec<Line>,
}

impl Script {
    /// Makes a script on a disk of 1 to 4,096 sectors, whose hardware takes 1 to 65,535 sectors in one request.
    ///
    /// # Preconditions
    ///
    /// - `sectors` is at least 1.
    /// - `sectors` is at most `MAX_SECTORS`.
    /// - `hardware` is at least 1.
    /// - `hardware` is at most `HARDWARE_LIMIT`.
    pub fn new(version: Version, sectors: u32, hardware: u32, lines: Vec<Line>) -> Self {
        debug_assert!(1 <= sectors);
        debug_assert!(sectors <= MAX_SECTORS);
        debug_assert!(1 <= hardware);
        debug_assert!(hardware <= HARDWARE_LIMIT);
        Script { version, sectors, hardware, lines }
    }

    /// Returns the number of the script's version: 1 or 2.
    pub fn version(&self) -> u32 {
        self.version.number()
    }

    // Returns the script's version.
    pub(crate) fn form(&self) -> Version {
        self.version
    }

    /// Returns whether overlapping requests are ordered by a drain, as in version 2. In version 1 they cause the script to be
    /// refused.
    pub fn orders_overlaps(&self) -> bool {
        match self.version {
            Version::One => false,
            Version::Two => true,
        }
    }

    /// Returns the number of sectors of the disk, 512 bytes each: 1 to 4,096.
    pub fn disk(&self) -> u32 {
        self.sectors
    }

    /// Returns how many sectors the hardware takes in one request: 1 to 65,535.
    pub fn hw(&self) -> u32 {
        self.hardware
    }

    /// Returns the lines that ask something, in order.
    pub fn lines(&self) -> &[Line] {
        self.lines.as_slice()
    }
}
