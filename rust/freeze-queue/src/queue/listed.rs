//! What holds a queue up: its requests in flight, and its freezes.
use super::Queue;
use crate::frozen_by::FrozenBy;
use crate::in_flight::InFlight;
use std::iter;
use std::sync::atomic::Ordering::Relaxed;

impl<T> Queue<T> {
    /// Starts or stops noting when requests enter, for [`in_flight`](Queue::in_flight). Each request of a watched queue takes
    /// a lock of its own tag, reads the clock, and uses no bias. While the queue isn't watched, a request only reads a flag for this.
    ///
    /// ```
    /// # use freeze_queue::{FreezeError, Limits, Queue};
    /// # use std::time::Duration;
    /// # let queue = Queue::builder(Limits::of_hardware(64)).slots(1).tags(1).build()?;
    /// queue.watch(true);
    /// # let _request = queue.enter_any()?;
    /// if let Err(FreezeError::TimedOut) = queue.freeze_timeout(Duration::from_millis(1)) {
    ///     for request in queue.in_flight() {
    ///         println!("tag {} by {:?}: {:?}", request.tag, request.thread, request.since.elapsed());
    ///     }
    /// }
    /// # assert_eq!(queue.in_flight().count(), 1);
    /// # Ok::<(), Box<dyn std::error::Error>>(())
    /// ```
    pub fn watch(&self, on: bool) {
        self.shared.watch.store(on, Relaxed);
    }

    /// Returns the requests in flight that entered while the queue was [watched](Queue::watch). The iterator looks at one tag after
    /// another, so this isn't a snapshot. A leaked request (`mem::forget`) is in flight forever. This call doesn't allocate. Linux:
    /// the list `busy` of debugfs (block/blk-mq-debugfs.c).
    ///
    /// ```
    /// # use freeze_queue::{Limits, Queue};
    /// # let queue = Queue::builder(Limits::of_hardware(64)).slots(1).tags(2).build()?;
    /// let unseen = queue.enter_any()?;
    /// queue.watch(true);
    /// let seen = queue.enter_any()?;
    /// assert_eq!(queue.in_flight().count(), 1);
    /// # Ok::<(), Box<dyn std::error::Error>>(())
    /// ```
    pub fn in_flight(&self) -> impl Iterator<Item = InFlight> {
        self.shared.places.all().iter().filter_map(|place| *place.noted.lock())
    }

    /// Returns the freezes that aren't thawed, the oldest first: which part of a program holds the queue frozen, and since when. The
    /// iterator looks at one freeze after another, so this isn't a snapshot, and doesn't allocate. A freeze for whose note memory was
    /// refused isn't listed. A leaked freeze (`mem::forget`) is listed forever.
    ///
    /// ```
    /// # use freeze_queue::{Limits, Queue};
    /// # let queue = Queue::builder(Limits::of_hardware(64)).slots(1).tags(1).build()?;
    /// let frozen = queue.freeze()?;
    /// for freeze in queue.frozen_by() {
    ///     println!("frozen for {:?} by {}", freeze.since.elapsed(), freeze.location);
    /// }
    /// # assert_eq!(queue.frozen_by().count(), 1);
    /// # Ok::<(), Box<dyn std::error::Error>>(())
    /// ```
    pub fn frozen_by(&self) -> impl Iterator<Item = FrozenBy> {
        let after = |number| self.shared.waits.lock().freezes.after(number);
        iter::successors(after(0), move |&(number, _)| after(number)).map(|(_, freeze)| freeze)
    }
}
