//! Entering with a tag.
use super::Queue;
use crate::body::TagState;
use crate::errors::EnterError;
use crate::request::Request;
use crate::shared::Shared;
use crate::tag::Tag;
use crate::tasks::Entering;
use std::time::{Duration, Instant};

impl<T> Queue<T> {
    /// Enters, and waits while the queue is frozen. A thread that holds a [`Frozen`](crate::Frozen) must drop it first, or it
    /// waits forever for its own thaw. A thread that holds a request must use
    /// [`try_enter_frozen`](Queue::try_enter_frozen) instead: otherwise a freeze may wait for that request, and this call
    /// for the thaw. Linux: `blk_queue_enter`.
    ///
    /// # Errors
    ///
    /// Returns [`EnterError::OtherQueue`], [`EnterError::StillEntered`] or [`EnterError::Dying`].
    ///
    /// # Examples
    ///
    /// ```
    /// # use freeze_queue::{EnterError, Limits, Queue};
    /// # let queue = Queue::builder(Limits::of_hardware(64)).slots(1).tags(1).build()?;
    /// let mut tag = queue.tag()?;
    /// let request = queue.enter(&mut tag)?;
    /// assert_eq!(request.limits().hardware, 64);
    /// drop(request);
    /// queue.mark_dying();
    /// assert_eq!(queue.enter(&mut tag).unwrap_err(), EnterError::Dying);
    /// # Ok::<(), Box<dyn std::error::Error>>(())
    /// ```
    #[inline]
    pub fn enter<'e>(&'e self, tag: &'e mut Tag<T>) -> Result<Request<'e, T>, EnterError> {
        self.enters(tag, |queue, tag| queue.in_by(tag, || None))
    }

    /// Enters unless the queue is frozen. Linux: `blk_queue_enter` with `BLK_MQ_REQ_NOWAIT`.
    ///
    /// # Errors
    ///
    /// Returns [`EnterError::Frozen`], or an error of [`enter`](Queue::enter).
    ///
    /// # Examples
    ///
    /// ```
    /// # use freeze_queue::{Limits, Queue, EnterError};
    /// # let queue = Queue::builder(Limits::of_hardware(64)).slots(1).tags(1).build()?;
    /// let mut tag = queue.tag()?;
    /// assert!(queue.try_enter(&mut tag).is_ok());
    /// let _frozen = queue.freeze()?;
    /// assert_eq!(queue.try_enter(&mut tag).unwrap_err(), EnterError::Frozen);
    /// # Ok::<(), Box<dyn std::error::Error>>(())
    /// ```
    #[inline]
    pub fn try_enter<'e>(&'e self, tag: &'e mut Tag<T>) -> Result<Request<'e, T>, EnterError> {
        self.enters(tag, Shared::in_at_once)
    }

    /// Enters, and waits while the queue is frozen, until the timeout. It tries before it reads the clock, so with a timeout
    /// of 0 it enters a live queue. Linux: `blk_queue_enter`.
    ///
    /// # Errors
    ///
    /// Returns [`EnterError::TimedOut`], or an error of [`enter`](Queue::enter).
    ///
    /// # Examples
    ///
    /// ```
    /// # use freeze_queue::{EnterError, Limits, Queue};
    /// # use std::time::Duration;
    /// # let queue = Queue::builder(Limits::of_hardware(64)).slots(1).tags(1).build()?;
    /// let mut tag = queue.tag()?;
    /// let _frozen = queue.freeze()?;
    /// let late = queue.enter_timeout(&mut tag, Duration::from_millis(1));
    /// assert_eq!(late.unwrap_err(), EnterError::TimedOut);
    /// # Ok::<(), Box<dyn std::error::Error>>(())
    /// ```
    #[inline]
    pub fn enter_timeout<'e>(&'e self, tag: &'e mut Tag<T>, timeout: Duration) -> Result<Request<'e, T>, EnterError> {
        self.enters(tag, |queue, tag| queue.in_by(tag, || Instant::now().checked_add(timeout)))
    }

    /// Enters a queue that may be frozen or dying, unless it is drained: for example to look at what is in flight. The queue
    /// doesn't drain before the request leaves. So as long as such requests overlap, each entering before the last one leaves, the
    /// freeze doesn't drain. Linux: `percpu_ref_tryget` of `q_usage_counter`.
    ///
    /// # Errors
    ///
    /// Returns [`EnterError::OtherQueue`], [`EnterError::StillEntered`] or [`EnterError::Drained`].
    ///
    /// # Examples
    ///
    /// ```
    /// # use freeze_queue::{EnterError, Limits, Queue};
    /// # let queue = Queue::builder(Limits::of_hardware(64)).slots(1).tags(1).build()?;
    /// let mut tag = queue.tag()?;
    /// assert!(queue.try_enter_frozen(&mut tag).is_ok());
    /// let _frozen = queue.freeze()?; // and drained
    /// assert_eq!(queue.try_enter_frozen(&mut tag).unwrap_err(), EnterError::Drained);
    /// # Ok::<(), Box<dyn std::error::Error>>(())
    /// ```
    pub fn try_enter_frozen<'e>(&'e self, tag: &'e mut Tag<T>) -> Result<Request<'e, T>, EnterError> {
        self.enters(tag, Shared::in_to_look)
    }

    /// Enters as [`enter`](Queue::enter) does, and waits as a task while the queue is frozen: a thaw wakes it. The future
    /// doesn't allocate, and dropping it has no effect on the queue.
    ///
    /// # Errors
    ///
    /// Returns the errors of `enter`.
    ///
    /// # Examples
    ///
    /// ```
    /// # use freeze_queue::{Limits, Queue, Tag};
    /// # use std::{future::Future, pin::pin, task::{Context, Waker}};
    /// async fn request(queue: &Queue, tag: &mut Tag) -> u32 {
    ///     let request = queue.enter_async(tag).await.unwrap();
    ///     request.limits().max
    /// }
    /// # let queue = Queue::builder(Limits::of_hardware(64)).slots(1).tags(1).build()?;
    /// # let mut tag = queue.tag()?;
    /// # let done = pin!(request(&queue, &mut tag)).poll(&mut Context::from_waker(Waker::noop()));
    /// # assert_eq!(done, std::task::Poll::Ready(64));
    /// # Ok::<(), Box<dyn std::error::Error>>(())
    /// ```
    #[inline]
    pub fn enter_async<'e>(
        &'e self,
        tag: &'e mut Tag<T>,
    ) -> impl Future<Output = Result<Request<'e, T>, EnterError>> + use<'e, T> {
        Entering::new(&self.shared, tag.state_of(&self.shared))
    }

    #[inline]
    fn enters<'e>(
        &'e self,
        tag: &'e mut Tag<T>,
        enter: impl FnOnce(&Shared<T>, &mut TagState) -> Result<(), EnterError>,
    ) -> Result<Request<'e, T>, EnterError> {
        let (queue, tag) = (&*self.shared, tag.state_of(&self.shared).ok_or(EnterError::OtherQueue)?);
        enter(queue, tag)?;
        Ok(Request::of(queue, tag))
    }
}
