//! Entering with any tag, and as a task.
use crate::body::Body;
use crate::errors::EnterError;
use crate::line::{self, Line, Lined};
use crate::owned::OwnedRequest;
use crate::places;
use crate::shared::Shared;
use crate::tag::Tag;
use crate::tasks::EnteringOwned;
use crate::threads;
use crate::waits::Held;
use std::sync::Arc;

/// A tag that is home and not reserved, on the slot of this thread.
pub(crate) enum AnyTag {}

impl<T> Lined<T> for AnyTag {
    type Thing = Body<T>;
    type Got<'q>
        = Tag<T>
    where
        T: 'q;
    type Error = EnterError;
    const NO_MEMORY: EnterError = EnterError::NoMemory;
    const SENT_AWAY: EnterError = EnterError::Dying;
    const TIMED_OUT: EnterError = EnterError::TimedOut;

    fn line(held: &mut Held<T>) -> &mut Line<Body<T>> {
        &mut held.line
    }

    fn get(queue: &Shared<T>, held: &mut Held<T>) -> Result<Option<Body<T>>, EnterError> {
        if held.is_dying || held.is_closed {
            return Err(EnterError::Dying);
        }
        Ok(if held.line.is_empty() { places::take_or_ask(queue.places.any()) } else { None })
    }

    fn got(queue: &Shared<T>, mut body: Body<T>) -> Tag<T> {
        body.state.slot = queue.slot_of(threads::hint().0);
        Tag::of(body)
    }
}

/// Enters with any tag, waiting as a task.
pub(crate) async fn enter_any<T>(queue: &Shared<T>) -> Result<OwnedRequest<T>, EnterError> {
    let tag = match queue.try_any() {
        Some(tag) => tag,
        None => line::wait_async::<T, AnyTag>(queue).await?,
    };
    Ok(EnteringOwned::new(tag, true).await?)
}

/// A share of a queue that a future has: the queue isn't removed while it is there.
pub(crate) struct Share<T>(pub(crate) Arc<Shared<T>>);

impl<T> Share<T> {
    pub(crate) fn of(queue: &Arc<Shared<T>>) -> Share<T> {
        queue.waits.lock().shares += 1;
        Share(Arc::clone(queue))
    }
}

impl<T> Drop for Share<T> {
    fn drop(&mut self) {
        self.0.waits.lock().shares -= 1;
    }
}
