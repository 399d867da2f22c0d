//! Entering with a tag that the request takes along.
use super::Queue;
use crate::body::TagState;
use crate::errors::EnterError;
use crate::owned::{Entered, OwnedRequest};
use crate::shared::Shared;
use crate::tag::Tag;
use crate::tasks::EnteringOwned;
use std::time::{Duration, Instant};

impl<T> Queue<T> {
    /// Enters as [`enter`](Queue::enter) does, with a tag that the request takes along, so that it may end on any thread.
    ///
    /// # Errors
    ///
    /// Returns the error of `enter`, and the tag.
    ///
    /// # Examples
    ///
    /// ```
    /// # use freeze_queue::{Limits, Queue};
    /// # use std::thread;
    /// let queue = Queue::builder(Limits::of_hardware(64)).slots(1).tags(1).build()?;
    /// let request = queue.enter_owned(queue.tag()?)?;
    /// let tag = thread::spawn(move || request.leave()).join().unwrap();
    /// drop(tag);
    /// # Ok::<(), Box<dyn std::error::Error + Send + Sync>>(())
    /// ```
    #[inline(always)]
    pub fn enter_owned(&self, tag: Tag<T>) -> Entered<T> {
        self.enters_owned(tag, |queue, tag| queue.in_by(tag, || None))
    }

    /// Enters as [`try_enter`](Queue::try_enter) does, with a tag that the request takes along.
    ///
    /// # Errors
    ///
    /// Returns the error of `try_enter`, and the tag.
    ///
    /// # Examples
    ///
    /// ```
    /// # use freeze_queue::{Limits, Queue, EnterError};
    /// let queue = Queue::builder(Limits::of_hardware(64)).slots(1).tags(1).build()?;
    /// let frozen = queue.freeze()?;
    /// let refused = queue.try_enter_owned(queue.tag()?).unwrap_err();
    /// assert_eq!(refused.reason, EnterError::Frozen);
    /// drop(frozen);
    /// let request = queue.try_enter_owned(refused.value)?;
    /// assert_eq!(request.limits().max, 64);
    /// # Ok::<(), Box<dyn std::error::Error + Send + Sync>>(())
    /// ```
    #[inline(always)]
    pub fn try_enter_owned(&self, tag: Tag<T>) -> Entered<T> {
        self.enters_owned(tag, Shared::in_at_once)
    }

    /// Enters as [`enter_timeout`](Queue::enter_timeout) does, with a tag that the request takes along.
    ///
    /// # Errors
    ///
    /// Returns the error of `enter_timeout`, and the tag.
    ///
    /// # Examples
    ///
    /// ```
    /// # use freeze_queue::{EnterError, Limits, Queue};
    /// # use std::time::Duration;
    /// let queue = Queue::builder(Limits::of_hardware(64)).slots(1).tags(1).build()?;
    /// let frozen = queue.freeze()?;
    /// let late = queue.enter_owned_timeout(queue.tag()?, Duration::from_millis(1));
    /// assert_eq!(late.unwrap_err().reason, EnterError::TimedOut);
    /// # Ok::<(), Box<dyn std::error::Error + Send + Sync>>(())
    /// ```
    #[inline]
    pub fn enter_owned_timeout(&self, tag: Tag<T>, timeout: Duration) -> Entered<T> {
        self.enters_owned(tag, |queue, tag| queue.in_by(tag, || Instant::now().checked_add(timeout)))
    }

    /// Enters as [`try_enter_frozen`](Queue::try_enter_frozen) does, with a tag that the request takes along.
    ///
    /// # Errors
    ///
    /// Returns the error of `try_enter_frozen`, and the tag.
    ///
    /// # Examples
    ///
    /// ```
    /// # use freeze_queue::{EnterError, Limits, Queue};
    /// let queue = Queue::builder(Limits::of_hardware(64)).slots(1).tags(1).build()?;
    /// let frozen = queue.freeze()?; // and drained
    /// let refused = queue.try_enter_frozen_owned(queue.tag()?).unwrap_err();
    /// assert_eq!(refused.reason, EnterError::Drained);
    /// # Ok::<(), Box<dyn std::error::Error + Send + Sync>>(())
    /// ```
    pub fn try_enter_frozen_owned(&self, tag: Tag<T>) -> Entered<T> {
        self.enters_owned(tag, Shared::in_to_look)
    }

    /// Enters as [`enter_async`](Queue::enter_async) does, with a tag that the request takes along. The future borrows
    /// nothing, so it can be spawned. If the future is dropped before it is done, its tag goes back to the queue.
    ///
    /// # Errors
    ///
    /// Returns the error of `enter`, and the tag.
    ///
    /// # Examples
    ///
    /// ```
    /// # use freeze_queue::{Limits, Queue};
    /// # use std::{future::Future, pin::pin, task::{Context, Poll, Waker}};
    /// let queue = Queue::builder(Limits::of_hardware(64)).slots(1).tags(1).build()?;
    /// let entering = pin!(queue.enter_owned_async(queue.tag()?));
    /// let Poll::Ready(request) = entering.poll(&mut Context::from_waker(Waker::noop())) else { panic!("it is live") };
    /// assert_eq!(request?.limits().max, 64);
    /// # Ok::<(), Box<dyn std::error::Error + Send + Sync>>(())
    /// ```
    #[inline]
    pub fn enter_owned_async(&self, mut tag: Tag<T>) -> impl Future<Output = Entered<T>> + use<T> {
        let is_of_queue = tag.state_of(&self.shared).is_some();
        EnteringOwned::new(tag, is_of_queue)
    }

    #[inline(always)]
    pub(super) fn enters_owned(
        &self,
        mut tag: Tag<T>,
        enter: impl FnOnce(&Shared<T>, &mut TagState) -> Result<(), EnterError>,
    ) -> Entered<T> {
        let queue = &self.shared;
        let entered = tag.state_of(queue).ok_or(EnterError::OtherQueue).and_then(|tag| enter(queue, tag));
        OwnedRequest::or_handed_back(tag, entered)
    }
}
