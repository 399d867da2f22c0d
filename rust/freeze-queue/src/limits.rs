//! Limits, and how they cut a range of sectors.
use crate::erased::queue_limits as erased;
use crate::errors::LimitsError;
use crate::pieces::Pieces;

/// Limits of a device, in sectors of 512 bytes. Linux: `struct queue_limits` (include/linux/blkdev.h).
///
/// A queue keeps them as given, except that it replaces a `max` of 0 by `hardware`.
///
/// ```
/// use freeze_queue::Limits;
///
/// let limits = Limits::of_hardware(64).with_max(8).with_chunk(128);
/// assert_eq!((limits.hardware, limits.max, limits.chunk, limits.physical), (64, 8, 128, 1));
/// ```
#[derive(Clone, Copy, Debug, PartialEq, Eq, Hash)]
#[non_exhaustive]
pub struct Limits {
    /// Maximum number of sectors that the hardware takes in one command: 1 to 65,535, fixed for the life of a queue.
    pub hardware: u32,
    /// Maximum number of sectors in one command: 1 to `hardware`; 0 means `hardware`.
    pub max: u32,
    /// No piece crosses a multiple of this: up to 65,535; 0 means no chunks.
    pub chunk: u32,
    /// Number of sectors of a physical block: a power of two from 1 to 32,768. A piece that isn't the last ends at a physical block
    /// boundary if there is one within the limits.
    pub physical: u32,
}

impl Limits {
    /// Returns the limits of a device that takes this many sectors in a command and has no other limits.
    ///
    /// ```
    /// # use freeze_queue::Limits;
    /// let limits = Limits::of_hardware(64);
    /// assert_eq!((limits.hardware, limits.max, limits.chunk, limits.physical), (64, 64, 0, 1));
    /// ```
    #[must_use]
    pub const fn of_hardware(sectors: u32) -> Limits {
        Limits { hardware: sectors, max: sectors, chunk: 0, physical: 1 }
    }

    /// Returns the same limits for a device that takes this many sectors in a command. `max` stays as it is.
    ///
    /// ```
    /// # use freeze_queue::{Limits, LimitsError};
    /// let limits = Limits::of_hardware(64).with_hardware(32);
    /// assert_eq!((limits.hardware, limits.max), (32, 64));
    /// assert_eq!(limits.check(), Err(LimitsError::AboveHardware));
    /// ```
    #[must_use]
    pub const fn with_hardware(self, sectors: u32) -> Limits {
        Limits { hardware: sectors, ..self }
    }

    /// Returns the same limits with at most this many sectors in a command; 0 means `hardware`.
    ///
    /// ```
    /// # use freeze_queue::Limits;
    /// assert_eq!(Limits::of_hardware(64).with_max(8).max, 8);
    /// ```
    #[must_use]
    pub const fn with_max(self, sectors: u32) -> Limits {
        Limits { max: sectors, ..self }
    }

    /// Returns the same limits with chunks of this many sectors, which no piece crosses; 0 means no chunks.
    ///
    /// ```
    /// # use freeze_queue::Limits;
    /// assert_eq!(Limits::of_hardware(64).with_chunk(128).chunk, 128);
    /// ```
    #[must_use]
    pub const fn with_chunk(self, sectors: u32) -> Limits {
        Limits { chunk: sectors, ..self }
    }

    /// Returns the same limits with physical blocks of this many sectors.
    ///
    /// ```
    /// # use freeze_queue::Limits;
    /// assert_eq!(Limits::of_hardware(64).with_physical(8).physical, 8);
    /// ```
    #[must_use]
    pub const fn with_physical(self, sectors: u32) -> Limits {
        Limits { physical: sectors, ..self }
    }

    /// Checks whether a queue takes these limits. Check before freezing, so that requests don't wait for a change that is then
    /// rejected. Linux: `blk_validate_limits` (block/blk-settings.c).
    ///
    /// # Errors
    ///
    /// Returns the first [`LimitsError`] that applies, in the order `HardwareRange`, `AboveHardware`, `ChunkTooLarge`,
    /// `BadPhysical`.
    ///
    /// # Examples
    ///
    /// ```
    /// # use freeze_queue::{Limits, LimitsError};
    /// let limits = Limits::of_hardware(64);
    /// assert_eq!(limits.check(), Ok(()));
    /// assert_eq!(limits.with_max(65).check(), Err(LimitsError::AboveHardware));
    /// ```
    pub fn check(&self) -> Result<(), LimitsError> {
        self.checked().map(drop)
    }

    /// Returns the pieces of the `count` sectors from `start` on, in order, each within these limits. For a request that has
    /// entered use [`Request::pieces`](crate::Request::pieces), which cuts by the limits in force. Linux: `get_max_io_size`
    /// (block/blk-merge.c).
    ///
    /// # Errors
    ///
    /// Returns the error of [`check`](Limits::check) if the limits are invalid, or else [`LimitsError::TooFar`] if the range goes
    /// beyond 4 TiB. (`TooFar` says how to cut it.)
    ///
    /// # Examples
    ///
    /// ```
    /// # use freeze_queue::{Limits, Piece};
    /// let limits = Limits::of_hardware(64).with_chunk(8);
    /// let pieces: Vec<Piece> = limits.pieces(6, 6)?.collect();
    /// assert_eq!(pieces, [Piece { start: 6, sectors: 2 }, Piece { start: 8, sectors: 4 }]);
    /// # Ok::<(), Box<dyn std::error::Error>>(())
    /// ```
    pub fn pieces(&self, start: u64, count: u32) -> Result<Pieces<'_>, LimitsError> {
        Pieces::of(self.checked()?, start, count)
    }

    /// The same limits, if a queue takes them.
    pub(crate) fn checked(&self) -> Result<erased::Limits, LimitsError> {
        let mut limits = erased::Limits::new(self.hardware, self.max, self.chunk)?;
        limits.set_physical(self.physical)?;
        Ok(limits)
    }

    /// The limits in force of a queue, as the erased type.
    #[inline]
    pub(crate) fn in_force(&self) -> erased::Limits {
        let words = [self.max, self.chunk, self.physical].map(u64::from);
        erased::Limits::from_words(self.hardware, words)
    }
}

impl From<erased::Limits> for Limits {
    #[inline]
    fn from(limits: erased::Limits) -> Limits {
        Limits { hardware: limits.hw(), max: limits.max(), chunk: limits.chunk(), physical: limits.physical() }
    }
}
