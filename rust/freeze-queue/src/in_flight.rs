//! The requests in flight, to find out why a freeze hangs.
use std::thread::{self, ThreadId};
use std::time::Instant;

/// A request in flight, as a watched queue lists it ([`Queue::in_flight`](crate::Queue::in_flight)).
///
/// ```
/// use freeze_queue::{Limits, Queue};
/// use std::thread;
///
/// let queue = Queue::builder(Limits::of_hardware(64)).slots(2).tags(2).build()?;
/// queue.watch(true);
/// let mut tag = queue.tag()?;
/// let request = queue.enter(&mut tag)?;
/// let in_flight: Vec<_> = queue.in_flight().collect();
/// assert_eq!((in_flight.len(), in_flight[0].thread), (1, thread::current().id()));
/// drop(request);
/// assert_eq!(queue.in_flight().count(), 0);
/// # Ok::<(), Box<dyn std::error::Error>>(())
/// ```
#[derive(Clone, Copy, Debug, PartialEq, Eq)]
#[non_exhaustive]
pub struct InFlight {
    /// The number of the request's tag ([`Tag::number`](crate::Tag::number)).
    pub tag: usize,
    /// When the request entered.
    pub since: Instant,
    /// The thread that entered; for a task, the thread that polled it. To find the task, record the `tag_number` of its request.
    pub thread: ThreadId,
}

impl InFlight {
    /// A note for the current thread and time.
    pub(crate) fn now(tag: usize) -> InFlight {
        InFlight { tag, since: Instant::now(), thread: thread::current().id() }
    }
}
