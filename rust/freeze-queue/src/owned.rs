//! A request that takes its tag along.
use crate::body::{Body, Parts};
use crate::errors::{EnterError, LimitsError};
use crate::handed_back::HandedBack;
use crate::limits::Limits;
use crate::pieces::Pieces;
use crate::shared::Shared;
use crate::tag::{self, Tag};
use std::mem::ManuallyDrop;

/// A request that has entered with a tag that it takes along. It borrows nothing, keeps the memory of its queue alive, and
/// may end on any thread.
///
/// Dropping it leaves the queue, and gives the tag back to it; [`leave`](OwnedRequest::leave) returns the tag to the caller.
/// It is `Sync`: if the pieces of a request end on several threads, put the request into an `Arc` and give each piece a
/// clone. The drop of the last clone leaves the queue.
///
/// ```
/// use freeze_queue::{Limits, Queue};
/// use std::sync::{Arc, mpsc};
/// use std::thread;
///
/// let queue = Queue::builder(Limits::of_hardware(64)).slots(1).tags(1).build()?;
/// let (sent, requests) = mpsc::channel();
/// let completes = thread::spawn(move || requests.into_iter().for_each(drop));
/// let request = Arc::new(queue.enter_owned(queue.tag()?)?);
/// for piece in request.pieces(0, 1000)? {
///     sent.send((piece, Arc::clone(&request)))?; // the last piece that ends leaves
/// }
/// drop((sent, request));
/// completes.join().unwrap();
/// queue.remove()?; // each tag was given back
/// # Ok::<(), Box<dyn std::error::Error>>(())
/// ```
#[must_use = "an unused request leaves at once, and one in a temporary at the end of the statement"]
pub struct OwnedRequest<T = ()> {
    /// A tag that has entered its queue. None after it was taken.
    body: Option<Body<T>>,
}

const THERE: &str = "it is there until it is dropped";

/// The request, or the tag and the reason why it didn't enter.
pub(crate) type Entered<T> = Result<OwnedRequest<T>, HandedBack<Tag<T>, EnterError>>;

impl<T> OwnedRequest<T> {
    #[inline]
    fn parts(&self) -> &Parts<T> {
        self.body.as_ref().expect(THERE)
    }

    #[inline]
    pub(crate) fn queue(&self) -> &Shared<T> {
        &self.parts().shared
    }

    /// Returns the number of its tag ([`Tag::number`]), which [`Queue::in_flight`](crate::Queue::in_flight) lists.
    ///
    /// ```
    /// # use freeze_queue::{Limits, Queue};
    /// # let queue = Queue::builder(Limits::of_hardware(64)).slots(1).tags(1).build()?;
    /// queue.watch(true);
    /// let request = queue.enter_any()?;
    /// assert!(queue.in_flight().any(|it| it.tag == request.tag_number()));
    /// # Ok::<(), Box<dyn std::error::Error>>(())
    /// ```
    #[inline]
    #[must_use]
    pub fn tag_number(&self) -> usize {
        self.parts().state.number
    }

    #[inline]
    pub(crate) fn or_handed_back(mut tag: Tag<T>, entered: Result<(), EnterError>) -> Entered<T> {
        match entered {
            Ok(()) => Ok(OwnedRequest { body: tag.body.take() }),
            Err(reason) => Err(HandedBack { value: tag, reason }),
        }
    }

    /// Leaves, and returns the tag.
    ///
    /// ```
    /// # use freeze_queue::{Limits, Queue};
    /// # let queue = Queue::builder(Limits::of_hardware(64)).slots(1).tags(1).build()?;
    /// let request = queue.enter_owned(queue.tag()?)?;
    /// let mut tag = request.leave();
    /// assert!(queue.enter(&mut tag).is_ok());
    /// # Ok::<(), Box<dyn std::error::Error>>(())
    /// ```
    #[inline]
    #[must_use = "to give the tag back, drop the request instead"]
    pub fn leave(self) -> Tag<T> {
        let mut tag = Tag { body: ManuallyDrop::new(self).body.take() }; // so that it leaves once, even if a waker panics
        let (queue, state) = tag.parts_mut();
        queue.leave(state);
        tag
    }

    /// Returns the limits in force, which stay the same until the request leaves.
    ///
    /// ```
    /// # use freeze_queue::{Limits, Queue};
    /// # let queue = Queue::builder(Limits::of_hardware(64)).slots(1).tags(1).build()?;
    /// let request = queue.enter_owned(queue.tag()?)?;
    /// assert_eq!(request.limits().max, 64);
    /// # Ok::<(), Box<dyn std::error::Error>>(())
    /// ```
    #[inline]
    #[must_use]
    pub fn limits(&self) -> &Limits {
        &self.parts().state.limits
    }

    /// Returns the pieces of the `count` sectors from `start` on, in order, by the limits in force. Linux: `get_max_io_size`
    /// (block/blk-merge.c).
    ///
    /// # Errors
    ///
    /// Returns [`LimitsError::TooFar`] if the range goes beyond 4 TiB.
    ///
    /// # Examples
    ///
    /// ```
    /// # use freeze_queue::{Limits, Queue};
    /// # let queue = Queue::builder(Limits::of_hardware(64)).slots(1).tags(1).build()?;
    /// let request = queue.enter_owned(queue.tag()?)?;
    /// assert_eq!(request.pieces(0, 65)?.count(), 2);
    /// # Ok::<(), Box<dyn std::error::Error>>(())
    /// ```
    pub fn pieces(&self, start: u64, count: u32) -> Result<Pieces<'_>, LimitsError> {
        Pieces::of(self.limits().in_force(), start, count)
    }
}

impl<T> Drop for OwnedRequest<T> {
    #[inline(always)]
    fn drop(&mut self) {
        if let Some(body) = self.body.take() {
            tag::leave_and_go_home(body);
        }
    }
}
