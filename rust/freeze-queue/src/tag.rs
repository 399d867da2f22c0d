//! A tag: the right to have one request in flight.
use crate::body::{Body, Parts, TagState};
use crate::shared::{self, Shared};
use std::ptr;
use std::sync::Arc;

/// A tag, with which one request at a time enters its queue.
///
/// A thread whose requests end on that thread keeps a tag. A request that ends on another thread takes its tag along
/// ([`OwnedRequest`](crate::OwnedRequest)). A tag has the size of one pointer, and keeps the memory of its queue alive.
/// Dropping it, on any thread, gives it back to the queue. If its request was leaked (`mem::forget`), the tag is out
/// forever. A leaked tag keeps its queue alive forever.
///
/// ```
/// use freeze_queue::{Limits, Queue};
///
/// let queue = Queue::builder(Limits::of_hardware(64)).slots(1).tags(1).build()?;
/// let mut tag = queue.tag()?;
/// drop(queue.enter(&mut tag)?);
/// drop(tag);
/// queue.remove()?;
/// # Ok::<(), Box<dyn std::error::Error>>(())
/// ```
pub struct Tag<T = ()> {
    /// None after it was given back.
    pub(crate) body: Option<Body<T>>,
}

impl<T> Tag<T> {
    pub(crate) fn of(body: Body<T>) -> Tag<T> {
        Tag { body: Some(body) }
    }

    /// Moves the tag out of this value, which is about to be dropped.
    #[inline]
    pub(crate) fn take(&mut self) -> Tag<T> {
        Tag { body: self.body.take() }
    }

    #[inline]
    pub(crate) fn parts(&self) -> &Parts<T> {
        self.body.as_ref().expect("it is there until it is dropped")
    }

    /// Its queue, and the part that changes as the tag is used.
    #[inline]
    pub(crate) fn parts_mut(&mut self) -> (&Arc<Shared<T>>, &mut TagState) {
        let Parts { state, shared } = &mut **self.body.as_mut().expect("it is there until it is dropped");
        (shared, state)
    }

    /// The part that changes as the tag is used, if it is a tag of this queue.
    #[inline]
    pub(crate) fn state_of(&mut self, queue: &Shared<T>) -> Option<&mut TagState> {
        let (shared, state) = self.parts_mut();
        ptr::eq(Arc::as_ptr(shared), queue).then_some(state)
    }

    /// Returns the tag's number, which is unique in its queue and below its number of tags. The number stays the same while the tag is
    /// given out and comes back, and is [`InFlight::tag`](crate::InFlight::tag). Linux: the `tag` of a `struct request`.
    ///
    /// ```
    /// # use freeze_queue::{Limits, Queue};
    /// # let queue = Queue::builder(Limits::of_hardware(64)).slots(1).tags(2).build()?;
    /// let (tag, other) = (queue.tag()?, queue.tag()?);
    /// assert!(tag.number() < 2 && other.number() < 2);
    /// assert_ne!(tag.number(), other.number());
    /// # Ok::<(), Box<dyn std::error::Error>>(())
    /// ```
    #[inline]
    #[must_use]
    pub fn number(&self) -> usize {
        self.parts().state.number
    }

    /// Returns the id of its queue ([`Queue::id`](crate::Queue::id)).
    ///
    /// ```
    /// # use freeze_queue::{Limits, Queue};
    /// # let queue = Queue::builder(Limits::of_hardware(64)).slots(1).tags(1).build()?;
    /// let tag = queue.tag()?;
    /// assert_eq!(tag.queue_id(), queue.id());
    /// # Ok::<(), Box<dyn std::error::Error>>(())
    /// ```
    #[inline]
    #[must_use]
    pub fn queue_id(&self) -> u64 {
        self.parts().shared.id.get()
    }
}

impl<T> Drop for Tag<T> {
    #[inline]
    fn drop(&mut self) {
        if let Some(body) = self.body.take() {
            go_home(body);
        }
    }
}

/// The request of a tag leaves, and the tag goes home.
#[inline(always)]
pub(crate) fn leave_and_go_home<T>(mut body: Body<T>) {
    let Parts { state, shared } = &mut *body;
    if shared.left_by_bias(state) { bring(body) } else { leave_slowly_and_go_home(body) }
}

/// The same, even if a waker panics.
#[cold]
#[inline(never)]
fn leave_slowly_and_go_home<T>(body: Body<T>) {
    let mut tag = Tag::of(body);
    let (queue, state) = tag.parts_mut();
    queue.leave_slowly(state);
}

/// The tag goes home, unless its request was leaked: then it is out forever.
#[inline(never)]
fn go_home<T>(body: Body<T>) {
    if body.state.erased.entered() {
        return body.strand();
    }
    bring(body);
}

/// A tag that has left goes home.
#[inline]
fn bring<T>(body: Body<T>) {
    if body.state.is_noted {
        return bring_noted(body);
    }
    if let Some(asked_for) = body.bring_unless_asked() {
        shared::hand_over(asked_for);
    }
}

/// A tag goes home whose waker may still be noted.
#[cold]
fn bring_noted<T>(mut body: Body<T>) {
    let Parts { state, shared } = &mut *body;
    let noted = shared.forget_waker(state);
    bring(body);
    drop(noted);
}
