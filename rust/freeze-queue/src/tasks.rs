//! Tasks that wait at a queue: to enter, or for a condition, that it is drained or that others have entered.
use crate::body::TagState;
use crate::errors::EnterError;
use crate::line::{Line, Notify};
use crate::owned::{Entered, OwnedRequest};
use crate::request::Request;
use crate::shared::Shared;
use crate::tag::Tag;
use crate::waits::Held;
use std::future;
use std::mem;
use std::pin::Pin;
use std::task::{Context, Poll, ready};

/// Enters with a borrowed tag: at its first poll, unless the queue is frozen. Dropping it removes its waker.
pub(crate) struct Entering<'e, T> {
    /// The queue, and the tag unless it is another queue's. None once it is ready.
    by: Option<(&'e Shared<T>, Option<&'e mut TagState>)>,
    has_waited: bool,
}

impl<'e, T> Entering<'e, T> {
    #[inline]
    pub(crate) fn new(queue: &'e Shared<T>, tag: Option<&'e mut TagState>) -> Self {
        Entering { by: Some((queue, tag)), has_waited: false }
    }
}

impl<'e, T> Future for Entering<'e, T> {
    type Output = Result<Request<'e, T>, EnterError>;

    #[inline(always)]
    fn poll(mut self: Pin<&mut Self>, context: &mut Context<'_>) -> Poll<Self::Output> {
        let (queue, tag) = self.by.take().expect("it isn't polled once it is ready");
        let Some(tag) = tag else { return Poll::Ready(Err(EnterError::OtherQueue)) };
        match queue.poll_enter(tag, context, !self.has_waited) {
            Poll::Ready(entered) => Poll::Ready(entered.map(|()| Request::of(queue, tag))),
            Poll::Pending => {
                (self.by, self.has_waited) = (Some((queue, Some(tag))), true);
                Poll::Pending
            }
        }
    }
}

impl<T> Drop for Entering<'_, T> {
    #[inline]
    fn drop(&mut self) {
        if let Some((queue, Some(tag))) = &mut self.by {
            let noted = queue.forget_waker(tag);
            drop(noted);
        }
    }
}

/// The same with a tag that goes along. Dropping it gives the tag back, which removes its waker.
pub(crate) struct EnteringOwned<T> {
    tag: Tag<T>,
    is_of_queue: bool,
    has_waited: bool,
}

impl<T> EnteringOwned<T> {
    #[inline]
    pub(crate) fn new(tag: Tag<T>, is_of_queue: bool) -> Self {
        EnteringOwned { tag, is_of_queue, has_waited: false }
    }
}

impl<T> Future for EnteringOwned<T> {
    type Output = Entered<T>;

    #[inline(always)]
    fn poll(mut self: Pin<&mut Self>, context: &mut Context<'_>) -> Poll<Self::Output> {
        let this = &mut *self;
        let (queue, tag) = this.tag.parts_mut();
        let entered = if this.is_of_queue {
            let is_first = !mem::replace(&mut this.has_waited, true);
            ready!(queue.poll_enter(tag, context, is_first))
        } else {
            Err(EnterError::OtherQueue)
        };
        Poll::Ready(OwnedRequest::or_handed_back(this.tag.take(), entered))
    }
}

/// A waiting task. Dropping it removes its waker.
struct Noted<'q, T> {
    queue: &'q Shared<T>,
    line: fn(&mut Held<T>) -> &mut Line<()>,
    /// Its number in that line, which a wake of all ends.
    number: Option<u64>,
}

impl<T> Noted<'_, T> {
    /// Whether the condition holds. If not, the context's waker is noted; if memory is refused, the task wakes itself, and
    /// so polls again and again.
    fn poll(&mut self, is_so: impl Fn(&mut Held<T>) -> bool, context: &Context<'_>) -> Poll<()> {
        // A waker is somebody's code: it is cloned before the lock is taken, and dropped after it is released.
        let mut notify = Some(Notify::Task(context.waker().clone()));
        let mut held = self.queue.waits.lock();
        if is_so(&mut held) {
            return Poll::Ready(());
        }
        let line = (self.line)(&mut held);
        if !self.number.is_some_and(|number| line.look(number, &mut notify).is_pending()) {
            self.number = line.join(&mut notify);
        }
        drop(held);
        if self.number.is_none() {
            context.waker().wake_by_ref();
        }
        Poll::Pending
    }
}

impl<T> Drop for Noted<'_, T> {
    fn drop(&mut self) {
        let noted = self.number.and_then(|number| (self.line)(&mut self.queue.waits.lock()).go(number).1);
        drop(noted);
    }
}

/// Lets other tasks go first, once.
pub(crate) async fn yield_once() {
    let mut has_yielded = false;
    future::poll_fn(|context| {
        if mem::replace(&mut has_yielded, true) {
            return Poll::Ready(());
        }
        context.waker().wake_by_ref();
        Poll::Pending
    })
    .await;
}

/// Waits as a task until the condition holds. Whoever makes it true wakes these tasks.
pub(crate) async fn until<T>(
    queue: &Shared<T>,
    line: fn(&mut Held<T>) -> &mut Line<()>,
    is_so: impl Fn(&mut Held<T>) -> bool,
) {
    let mut noted = Noted { queue, line, number: None };
    future::poll_fn(|context| noted.poll(&is_so, context)).await;
}

/// Waits as a task until the queue is drained.
pub(crate) async fn until_drained<T>(queue: &Shared<T>) {
    until(queue, |held| &mut held.drains, |held| held.freezer.poll_drained(&queue.erased)).await;
}
