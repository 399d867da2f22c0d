//! The pieces of a range.
use crate::erased::queue_limits as erased;
use crate::errors::LimitsError;
use crate::limits::Limits;
use std::iter::FusedIterator;
use std::marker::PhantomData;

/// The bound of sector numbers: each is below this.
const SECTORS: u64 = 1 << 33;

/// A piece of a range, for one command to the device.
///
/// ```
/// use freeze_queue::{Limits, Piece};
///
/// let limits = Limits::of_hardware(4);
/// let first = limits.pieces(10, 6)?.next();
/// assert_eq!(first, Some(Piece { start: 10, sectors: 4 }));
/// # Ok::<(), Box<dyn std::error::Error>>(())
/// ```
#[derive(Clone, Copy, Debug, PartialEq, Eq, Hash)]
pub struct Piece {
    /// The first sector of the piece.
    pub start: u64,
    /// The number of sectors of the piece, 1 or more.
    pub sectors: u32,
}

/// The pieces of a range, in order, without gaps.
///
/// A piece takes all sectors that are left if the limits allow it. Otherwise it ends at the last physical block boundary
/// within the limits or, if there is none, at the limit. An empty range has no pieces.
///
/// ```
/// use freeze_queue::Limits;
///
/// let limits = Limits::of_hardware(7).with_physical(4);
/// let lengths: Vec<u32> = limits.pieces(0, 17)?.map(|piece| piece.sectors).collect();
/// assert_eq!(lengths, [4, 4, 4, 5]);
/// # Ok::<(), Box<dyn std::error::Error>>(())
/// ```
#[derive(Clone, Debug)]
#[must_use = "iterators are lazy and do nothing unless consumed"]
pub struct Pieces<'l> {
    limits: erased::Limits,
    start: u64,
    left: u32,
    of: PhantomData<&'l Limits>,
}

impl<'l> Pieces<'l> {
    /// The pieces of a range that ends below 2^33.
    pub(crate) fn of(limits: erased::Limits, start: u64, count: u32) -> Result<Pieces<'l>, LimitsError> {
        match start.checked_add(u64::from(count)) {
            Some(end) if end <= SECTORS => Ok(Pieces { limits, start, left: count, of: PhantomData }),
            _ => Err(LimitsError::TooFar),
        }
    }
}

impl Iterator for Pieces<'_> {
    type Item = Piece;

    fn next(&mut self) -> Option<Piece> {
        if self.left == 0 {
            return None;
        }
        let sectors = self.limits.next_piece(self.start, self.left);
        let piece = Piece { start: self.start, sectors };
        self.start += u64::from(sectors);
        self.left -= sectors;
        Some(piece)
    }

    fn size_hint(&self) -> (usize, Option<usize>) {
        (usize::from(self.left > 0), usize::try_from(self.left).ok())
    }
}

impl FusedIterator for Pieces<'_> {}
