//! Entering with any free tag.
use super::Queue;
use crate::enter_any::{self, AnyTag, Share};
use crate::errors::EnterError;
use crate::line::{self, Lined};
use crate::owned::OwnedRequest;
use std::time::{Duration, Instant};

impl<T> Queue<T> {
    /// Enters with a free tag, which the request takes along. Dropping the request, on any thread, gives the tag back to the
    /// queue. This call waits while no tag is free, and while the queue is frozen. Waiting threads and tasks get tags in
    /// order of arrival. Linux: `blk_mq_alloc_request`.
    ///
    /// The request counts on a slot of the calling thread. A thread waits forever if it holds a freeze, or all
    /// tags that aren't reserved.
    ///
    /// # Errors
    ///
    /// Returns [`EnterError::Dying`], or [`EnterError::NoMemory`] if there is no memory to wait in line.
    ///
    /// # Examples
    ///
    /// ```
    /// # use freeze_queue::{Limits, Queue};
    /// # use std::thread;
    /// let queue = Queue::builder(Limits::of_hardware(64)).slots(2).tags(2).build()?;
    /// thread::scope(|threads| {
    ///     for thread in 0..8 {
    ///         let queue = &queue;
    ///         threads.spawn(move || {
    ///             let request = queue.enter_any().unwrap(); // at most two at once
    ///             assert_eq!(request.pieces(thread * 100, 100).unwrap().count(), 2);
    ///         });
    ///     }
    /// });
    /// queue.remove()?; // each tag is back
    /// # Ok::<(), Box<dyn std::error::Error>>(())
    /// ```
    #[inline]
    pub fn enter_any(&self) -> Result<OwnedRequest<T>, EnterError> {
        self.any_by(None)
    }

    /// Enters with any tag as [`enter_any`](Queue::enter_any) does, or returns at the timeout.
    ///
    /// # Errors
    ///
    /// Returns [`EnterError::Dying`], [`EnterError::NoMemory`] if there is no memory to wait in line, or
    /// [`EnterError::TimedOut`].
    ///
    /// # Examples
    ///
    /// ```
    /// # use freeze_queue::{EnterError, Limits, Queue};
    /// # use std::time::Duration;
    /// # let queue = Queue::builder(Limits::of_hardware(64)).slots(1).tags(1).build()?;
    /// let _request = queue.enter_any()?;
    /// let late = queue.enter_any_timeout(Duration::from_millis(1));
    /// assert_eq!(late.unwrap_err(), EnterError::TimedOut);
    /// # Ok::<(), Box<dyn std::error::Error>>(())
    /// ```
    pub fn enter_any_timeout(&self, timeout: Duration) -> Result<OwnedRequest<T>, EnterError> {
        self.any_by(Instant::now().checked_add(timeout))
    }

    #[inline]
    fn any_by(&self, deadline: Option<Instant>) -> Result<OwnedRequest<T>, EnterError> {
        let mut tag = match self.shared.try_any() {
            Some(tag) => tag,
            None => line::wait::<T, AnyTag>(&self.shared, deadline)?,
        };
        let entered = self.shared.in_by(tag.parts_mut().1, || deadline);
        Ok(OwnedRequest::or_handed_back(tag, entered)?)
    }

    /// Enters with any tag as [`enter_any`](Queue::enter_any) does, or refuses at once. Linux: `blk_mq_alloc_request` with
    /// `BLK_MQ_REQ_NOWAIT`.
    ///
    /// # Errors
    ///
    /// Returns [`EnterError::Dying`] if the queue is dying, or else [`EnterError::NoTag`] if no tag was free at some moment
    /// of the call, or else [`EnterError::Frozen`].
    ///
    /// # Examples
    ///
    /// ```
    /// # use freeze_queue::{Limits, Queue, EnterError};
    /// # let queue = Queue::builder(Limits::of_hardware(64)).slots(1).tags(1).build()?;
    /// let request = queue.try_enter_any()?;
    /// assert_eq!(queue.try_enter_any().unwrap_err(), EnterError::NoTag);
    /// drop(request);
    /// let _frozen = queue.freeze()?;
    /// assert_eq!(queue.try_enter_any().unwrap_err(), EnterError::Frozen);
    /// # Ok::<(), Box<dyn std::error::Error>>(())
    /// ```
    pub fn try_enter_any(&self) -> Result<OwnedRequest<T>, EnterError> {
        let queue = &self.shared;
        let under_lock = || queue.under_lock(queue.places.any()).map(|tag| AnyTag::got(queue, tag));
        let Some(tag) = queue.try_any().or_else(under_lock) else {
            return Err(if queue.waits.lock().is_dying { EnterError::Dying } else { EnterError::NoTag });
        };
        Ok(self.try_enter_owned(tag)?)
    }

    /// Enters with any tag as [`enter_any`](Queue::enter_any) does, and waits as a task. Thousands of tasks may wait for the
    /// queue's tags, and get them in order of arrival. Dropping the future gives up its place in line; if it was handed a
    /// tag, the next waiter gets that tag.
    ///
    /// A future that was handed a tag and isn't polled keeps the tag from the waiters behind it. A leaked future
    /// (`mem::forget`) keeps it forever.
    ///
    /// # Errors
    ///
    /// Returns the errors of `enter_any`.
    ///
    /// # Examples
    ///
    /// ```
    /// # use freeze_queue::{EnterError, Limits, Queue};
    /// # use std::{future::Future, pin::pin, sync::Arc, task::{Context, Poll, Waker}};
    /// async fn read(queue: Arc<Queue>, start: u64) -> Result<usize, EnterError> {
    ///     let request = queue.enter_any_async().await?;
    ///     Ok(request.pieces(start, 100).expect("it is within the device").count())
    /// }
    /// # let queue = Arc::new(Queue::builder(Limits::of_hardware(64)).slots(1).tags(1).build()?);
    /// # let done = pin!(read(queue, 0)).poll(&mut Context::from_waker(Waker::noop()));
    /// # assert_eq!(done, Poll::Ready(Ok(2)));
    /// # Ok::<(), Box<dyn std::error::Error>>(())
    /// ```
    pub async fn enter_any_async(&self) -> Result<OwnedRequest<T>, EnterError> {
        enter_any::enter_any(&self.shared).await
    }

    /// Enters with any tag as [`enter_any_async`](Queue::enter_any_async) does. The future borrows nothing, so it can be
    /// spawned or stored. In an `async move` block that owns an `Arc` of the queue, `enter_any_async` is enough. While the
    /// future exists, the queue can't be removed ([`RemoveError::Shared`](crate::RemoveError::Shared)). If the queue is
    /// dropped, a future that waits for a tag returns [`EnterError::Dying`].
    ///
    /// # Errors
    ///
    /// Returns the errors of `enter_any`.
    ///
    /// # Examples
    ///
    /// ```
    /// # use freeze_queue::{Limits, Queue};
    /// # use std::{future::Future, pin::pin, task::{Context, Poll, Waker}};
    /// # fn spawn<F: Future + Send + 'static>(future: F) -> F { future }
    /// # let queue = Queue::new(Limits::of_hardware(64))?;
    /// let entering = spawn(queue.enter_any_owned_async());
    /// # let entered = pin!(entering).poll(&mut Context::from_waker(Waker::noop()));
    /// # assert!(matches!(entered, Poll::Ready(Ok(_))));
    /// # Ok::<(), Box<dyn std::error::Error>>(())
    /// ```
    pub fn enter_any_owned_async(&self) -> impl Future<Output = Result<OwnedRequest<T>, EnterError>> + use<T> {
        let share = Share::of(&self.shared);
        async move { enter_any::enter_any(&share.0).await }
    }
}
