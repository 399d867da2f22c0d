// Erased from crates/queue_limits/src/pieces.rt by tools/erase: edit that file.
//! The pieces of a range, one after another.

use crate::erased::queue_limits::limits::Limits;

/// An iterator over the lengths, in sectors, of the pieces that are left of a range, made by
/// [`Limits::pieces`](crate::erased::queue_limits::Limits::pieces). In contracts it is the list of these lengths.
#[derive(Debug)]
pub struct Pieces {
    limits: Limits,
    start: u64,
    left: u32,
}

impl Pieces {
    /// # Preconditions
    ///
    /// - `start` is less than `2^32`.
    pub(crate) fn new(limits: Limits, start: u64, left: u32) -> Self {
        debug_assert!(start < 1 << 32);
        Pieces { limits, start, left }
    }
}

impl Iterator for Pieces {
    type Item = u32;

    fn next(&mut self) -> Option<u32> {
        if self.left == 0 {
            return None;
        }
        let length = self.limits.first_piece(self.start, self.left);
        self.start += u64::from(length);
        self.left -= length;
        Some(length)
    }

    /// Returns bounds of the number of pieces that are left. The lower bound is at least 1 if any is left; the upper bound is the
    /// number of sectors that are left, since each piece has at least one.
    fn size_hint(&self) -> (usize, Option<usize>) {
        let least = self.left.div_ceil(self.limits.max());
        (least as usize, Some(self.left as usize))
    }
}
