//! Freezing a queue.
use super::Queue;
use crate::errors::FreezeError;
use crate::freezing::Freezing;
use crate::frozen::Frozen;
use std::panic::Location;
use std::time::Duration;

impl<T> Queue<T> {
    /// Freezes the queue, and waits until each request in flight has left. Freezes nest: dropping the [`Frozen`] thaws this
    /// freeze, and requests enter again when the last one is thawed. The caller must drop its own request first, or it waits
    /// forever. Linux: `blk_mq_freeze_queue`.
    ///
    /// # Errors
    ///
    /// Returns [`FreezeError::DepthFull`] or [`FreezeError::WornOut`].
    ///
    /// # Panics
    ///
    /// Like every call that begins a freeze, panics if it finds a biased tag and the system refuses `membarrier(2)`, having
    /// allowed it when the first queue was made. The queue stays frozen then.
    ///
    /// # Examples
    ///
    /// ```
    /// # use freeze_queue::{Limits, Queue};
    /// # let queue = Queue::builder(Limits::of_hardware(64)).slots(1).tags(1).build()?;
    /// let frozen = queue.freeze()?;
    /// frozen.set(queue.limits().with_max(8))?;
    /// drop(frozen); // thaws
    /// # assert_eq!((queue.limits().max, queue.depth()), (8, 0));
    /// # Ok::<(), Box<dyn std::error::Error>>(())
    /// ```
    #[track_caller]
    pub fn freeze(&self) -> Result<Frozen<'_, T>, FreezeError> {
        Ok(self.begin_freeze()?.wait())
    }

    /// Begins a freeze: from then on no request enters, except by [`try_enter_frozen`](Queue::try_enter_frozen) and
    /// [`try_enter_frozen_owned`](Queue::try_enter_frozen_owned) until the queue is drained. Those in flight drain. To freeze several
    /// queues, begin each freeze, and then wait for each. Linux: `blk_freeze_queue_start`.
    ///
    /// # Errors
    ///
    /// Returns [`FreezeError::DepthFull`] or [`FreezeError::WornOut`].
    ///
    /// # Panics
    ///
    /// Panics in the same case as [`freeze`](Queue::freeze).
    ///
    /// # Examples
    ///
    /// ```
    /// # use freeze_queue::{Limits, Queue};
    /// # let (one, other) = (Queue::builder(Limits::of_hardware(64)).slots(1).tags(1).build()?, Queue::builder(Limits::of_hardware(64)).slots(1).tags(1).build()?);
    /// let begun = [one.begin_freeze()?, other.begin_freeze()?]; // both drain at once
    /// let frozen = begun.map(|freezing| freezing.wait());
    /// # assert!(one.is_drained() && other.is_drained());
    /// # drop(frozen);
    /// # Ok::<(), Box<dyn std::error::Error>>(())
    /// ```
    #[track_caller]
    pub fn begin_freeze(&self) -> Result<Freezing<'_, T>, FreezeError> {
        Freezing::begin(&self.shared, Location::caller())
    }

    /// Freezes the queue as [`freeze`](Queue::freeze) does, and waits as a task: the last request that leaves wakes it.
    /// Dropping the future thaws its freeze. After its first poll the queue stays frozen as long as the future exists, even
    /// if nobody polls it again. For a future that borrows nothing use `begin_freeze()?.into_owned().drained()`, whose
    /// freeze begins at once.
    ///
    /// # Errors
    ///
    /// Returns the errors of `freeze`.
    ///
    /// # Panics
    ///
    /// Panics in the same case as `freeze`.
    ///
    /// # Examples
    ///
    /// ```
    /// # use freeze_queue::{FreezeError, Limits, Queue};
    /// # use std::{future::Future, pin::pin, task::{Context, Poll, Waker}};
    /// async fn halve(queue: &Queue) -> Result<(), FreezeError> {
    ///     let frozen = queue.freeze_async().await?;
    ///     let limits = frozen.limits();
    ///     frozen.set(limits.with_max(limits.max / 2)).expect("they are limits");
    ///     Ok(())
    /// }
    /// # let queue = Queue::builder(Limits::of_hardware(64)).slots(1).tags(1).build()?;
    /// # let done = pin!(halve(&queue)).poll(&mut Context::from_waker(Waker::noop()));
    /// # assert_eq!((done, queue.limits().max, queue.depth()), (Poll::Ready(Ok(())), 32, 0));
    /// # Ok::<(), Box<dyn std::error::Error>>(())
    /// ```
    #[track_caller]
    pub fn freeze_async(&self) -> impl Future<Output = Result<Frozen<'_, T>, FreezeError>> {
        let location = Location::caller();
        async move { Ok(Freezing::begin(&self.shared, location)?.drained().await) }
    }

    /// Freezes the queue if no request is in flight. Otherwise this freeze is thawed at once; requests may be refused or wait
    /// for a moment even then. Linux: `blk_freeze_queue_start`, if the queue turns out to be drained.
    ///
    /// # Errors
    ///
    /// Returns [`FreezeError::NotDrained`], or an error of [`freeze`](Queue::freeze).
    ///
    /// # Panics
    ///
    /// Panics in the same case as `freeze`.
    ///
    /// # Examples
    ///
    /// ```
    /// # use freeze_queue::{Limits, Queue, FreezeError};
    /// # let queue = Queue::builder(Limits::of_hardware(64)).slots(1).tags(1).build()?;
    /// let mut tag = queue.tag()?;
    /// let request = queue.enter(&mut tag)?;
    /// assert_eq!(queue.try_freeze().unwrap_err(), FreezeError::NotDrained);
    /// drop(request);
    /// assert!(queue.try_freeze().is_ok());
    /// # Ok::<(), Box<dyn std::error::Error>>(())
    /// ```
    #[track_caller]
    pub fn try_freeze(&self) -> Result<Frozen<'_, T>, FreezeError> {
        let freezing = self.begin_freeze()?;
        if freezing.is_drained() { Ok(freezing.wait()) } else { Err(FreezeError::NotDrained) }
    }

    /// Freezes the queue, and waits until each request in flight has left, or until the timeout. If a request is still in
    /// flight then, this freeze is thawed. Linux: `blk_mq_freeze_queue_wait_timeout`.
    ///
    /// # Errors
    ///
    /// Returns [`FreezeError::TimedOut`], or an error of [`freeze`](Queue::freeze).
    ///
    /// # Panics
    ///
    /// Panics in the same case as `freeze`.
    ///
    /// # Examples
    ///
    /// ```
    /// # use freeze_queue::{FreezeError, Limits, Queue};
    /// # use std::time::Duration;
    /// # let queue = Queue::builder(Limits::of_hardware(64)).slots(1).tags(1).build()?;
    /// let mut tag = queue.tag()?;
    /// let request = queue.enter(&mut tag)?;
    /// let late = queue.freeze_timeout(Duration::from_millis(1));
    /// assert_eq!(late.unwrap_err(), FreezeError::TimedOut);
    /// # Ok::<(), Box<dyn std::error::Error>>(())
    /// ```
    #[track_caller]
    pub fn freeze_timeout(&self, timeout: Duration) -> Result<Frozen<'_, T>, FreezeError> {
        self.begin_freeze()?.wait_timeout(timeout).map_err(|_thawed| FreezeError::TimedOut)
    }
}
