//! A request that has entered.
use crate::body::TagState;
use crate::errors::LimitsError;
use crate::limits::Limits;
use crate::pieces::Pieces;
use crate::shared::Shared;

/// A request that has entered its queue. While it exists the queue doesn't drain, and its limits don't change.
///
/// It borrows the tag that it entered with, and the queue. Dropping it, on any thread, leaves the queue. If it was the last
/// request that a freeze was waiting for, the drop wakes the thread or task that waits. A leaked request (`mem::forget`) is
/// in flight forever: its queue never drains, and its tag can't enter again or be given back. Linux: `blk_queue_exit`.
///
/// ```
/// use freeze_queue::{Limits, Queue};
///
/// let queue = Queue::builder(Limits::of_hardware(64).with_max(8)).slots(1).tags(1).build()?;
/// let mut tag = queue.tag()?;
/// let request = queue.enter(&mut tag)?;
/// for piece in request.pieces(0, 20)? {
///     assert!(piece.sectors <= request.limits().max);
/// }
/// drop(request); // leaves
/// # Ok::<(), Box<dyn std::error::Error>>(())
/// ```
#[must_use = "an unused request leaves at once, and one in a temporary at the end of the statement"]
pub struct Request<'e, T = ()> {
    queue: &'e Shared<T>,
    /// A tag of this queue that has entered.
    tag: &'e mut TagState,
}

impl<'e, T> Request<'e, T> {
    /// The request of a tag of this queue that has entered.
    #[inline]
    pub(crate) fn of(queue: &'e Shared<T>, tag: &'e mut TagState) -> Request<'e, T> {
        Request { queue, tag }
    }

    /// Its queue.
    #[inline]
    pub(crate) fn queue(&self) -> &'e Shared<T> {
        self.queue
    }

    /// Returns the number of its tag ([`Tag::number`](crate::Tag::number)), which
    /// [`Queue::in_flight`](crate::Queue::in_flight) lists.
    ///
    /// ```
    /// # use freeze_queue::{Limits, Queue};
    /// # let queue = Queue::builder(Limits::of_hardware(64)).slots(1).tags(1).build()?;
    /// # let mut tag = queue.tag()?;
    /// queue.watch(true);
    /// let request = queue.enter(&mut tag)?;
    /// assert!(queue.in_flight().any(|it| it.tag == request.tag_number()));
    /// # Ok::<(), Box<dyn std::error::Error>>(())
    /// ```
    #[inline]
    #[must_use]
    pub fn tag_number(&self) -> usize {
        self.tag.number
    }

    /// Returns the limits in force, which stay the same until the request leaves.
    ///
    /// ```
    /// # use freeze_queue::{Limits, Queue};
    /// # let queue = Queue::builder(Limits::of_hardware(64).with_max(8)).slots(1).tags(1).build()?;
    /// # let mut tag = queue.tag()?;
    /// let request = queue.enter(&mut tag)?;
    /// assert_eq!(request.limits().max, 8);
    /// # Ok::<(), Box<dyn std::error::Error>>(())
    /// ```
    #[inline]
    #[must_use]
    pub fn limits(&self) -> &Limits {
        &self.tag.limits
    }

    /// Returns the pieces of the `count` sectors from `start` on, in order, by the limits in force. Linux: `get_max_io_size`
    /// (block/blk-merge.c).
    ///
    /// # Errors
    ///
    /// Returns [`LimitsError::TooFar`] if the range goes beyond 4 TiB.
    ///
    /// # Examples
    ///
    /// ```
    /// # use freeze_queue::{Limits, Queue};
    /// # let queue = Queue::builder(Limits::of_hardware(64).with_chunk(8)).slots(1).tags(1).build()?;
    /// # let mut tag = queue.tag()?;
    /// let request = queue.enter(&mut tag)?;
    /// let starts: Vec<u64> = request.pieces(6, 12)?.map(|piece| piece.start).collect();
    /// assert_eq!(starts, [6, 8, 16]);
    /// # Ok::<(), Box<dyn std::error::Error>>(())
    /// ```
    pub fn pieces(&self, start: u64, count: u32) -> Result<Pieces<'_>, LimitsError> {
        Pieces::of(self.tag.limits.in_force(), start, count)
    }
}

impl<T> Drop for Request<'_, T> {
    #[inline]
    fn drop(&mut self) {
        self.queue.leave(self.tag);
    }
}
