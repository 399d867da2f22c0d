//! The results of calls.
use crate::limits::Limits;

/// The last state of a queue that was removed.
///
/// ```
/// use freeze_queue::{Limits, Queue};
///
/// let queue = Queue::builder(Limits::of_hardware(64)).slots(1).tags(1).build()?;
/// drop(queue.freeze()?);
/// let last = queue.remove()?;
/// assert_eq!((last.kills, last.releases), (2, 2)); // the removal freezes a live queue once more
/// assert_eq!(last.limits, Limits::of_hardware(64));
/// # Ok::<(), Box<dyn std::error::Error>>(())
/// ```
#[derive(Clone, Copy, Debug, PartialEq, Eq, Hash)]
pub struct Final<T = ()> {
    /// Number of times that the queue was frozen while live.
    pub kills: u64,
    /// Number of these freezes that drained the queue.
    pub releases: u64,
    /// The limits of the queue.
    pub limits: Limits,
    /// The value of the queue.
    pub value: T,
}
