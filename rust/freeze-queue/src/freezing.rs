//! A freeze that has begun, and may not have drained yet.
use crate::errors::FreezeError;
use crate::frozen::{Frozen, OwnedFrozen};
use crate::queue::Queue;
use crate::seats::wake_each;
use crate::shared::Shared;
use crate::tasks;
use std::marker::PhantomData;
use std::ops::Deref;
use std::panic::Location;
use std::sync::Arc;
use std::time::{Duration, Instant};

/// A freeze with a share of its queue. Dropping it thaws.
pub(crate) struct Freeze<T> {
    /// None after the thaw.
    queue: Option<Arc<Shared<T>>>,
    /// Its number in the queue's list of freezes.
    number: u64,
}

impl<T> Freeze<T> {
    pub(crate) fn queue(&self) -> &Shared<T> {
        self.queue.as_deref().expect("it is there until the freeze ends")
    }

    /// Marks the queue dying and ends this freeze. A waker may panic, after the freeze has ended.
    pub(crate) fn mark_dying(mut self) {
        if let Some(queue) = self.queue.take() {
            queue.mark_dying(Some(self.number));
        }
    }
}

/// The borrow of a queue. Dropping it ends the borrow, so a freeze that borrows its queue is thawed before the queue ends.
pub(crate) struct Borrow<'q, T>(PhantomData<&'q Queue<T>>);

impl<T> Borrow<'_, T> {
    pub(crate) const OF: Self = Borrow(PhantomData);
}

impl<T> Drop for Borrow<'_, T> {
    fn drop(&mut self) {}
}

impl<T> Drop for Freeze<T> {
    fn drop(&mut self) {
        if let Some(queue) = self.queue.take() {
            queue.thaw(self.number);
        }
    }
}

/// A freeze that has begun ([`Queue::begin_freeze`]): no request enters, except by [`try_enter_frozen`](Queue::try_enter_frozen),
/// and those in flight drain.
///
/// Dropping it thaws this freeze. It borrows its queue, and derefs to [`OwnedFreezing`].
///
/// ```
/// use freeze_queue::{Limits, Queue, EnterError};
///
/// let queue = Queue::builder(Limits::of_hardware(64)).slots(1).tags(2).build()?;
/// let (mut tag, mut other) = (queue.tag()?, queue.tag()?);
/// let request = queue.enter(&mut tag)?;
/// let freezing = queue.begin_freeze()?;
/// assert_eq!(queue.try_enter(&mut other).unwrap_err(), EnterError::Frozen);
/// assert!(!freezing.is_drained());
/// drop(request);
/// freezing.wait().set(queue.limits().with_max(8))?;
/// # Ok::<(), Box<dyn std::error::Error>>(())
/// ```
#[must_use = "an unused freeze is thawed at once"]
pub struct Freezing<'q, T = ()> {
    owned: OwnedFreezing<T>,
    _queue: Borrow<'q, T>,
}

/// A freeze that has begun. It doesn't borrow its queue, but keeps the queue's memory alive ([`Freezing::into_owned`]).
///
/// ```
/// # use freeze_queue::{Limits, Queue};
/// # use std::thread;
/// # let queue = Queue::new(Limits::of_hardware(64))?;
/// let freezing = queue.begin_freeze()?.into_owned();
/// thread::spawn(move || drop(freezing.wait())).join().unwrap();
/// assert_eq!(queue.depth(), 0);
/// # Ok::<(), Box<dyn std::error::Error>>(())
/// ```
#[must_use = "an unused freeze is thawed at once"]
pub struct OwnedFreezing<T = ()> {
    freeze: Freeze<T>,
}

impl<'q, T> Freezing<'q, T> {
    pub(crate) fn begin(
        queue: &'q Arc<Shared<T>>,
        location: &'static Location<'static>,
    ) -> Result<Freezing<'q, T>, FreezeError> {
        let (number, updates) = queue.begin_freeze(location)?;
        let freeze = Freeze { queue: Some(Arc::clone(queue)), number };
        wake_each(updates); // which may panic: then the freeze is thawed
        Ok(Freezing::of(OwnedFreezing { freeze }))
    }

    fn of(owned: OwnedFreezing<T>) -> Freezing<'q, T> {
        Freezing { owned, _queue: Borrow::OF }
    }

    /// Returns the same freeze, which no longer borrows the queue.
    pub fn into_owned(self) -> OwnedFreezing<T> {
        self.owned
    }

    /// Waits until each request has left. Linux: `blk_mq_freeze_queue_wait`.
    ///
    /// ```
    /// # use freeze_queue::{Limits, Queue};
    /// # let queue = Queue::new(Limits::of_hardware(64))?;
    /// let frozen = queue.begin_freeze()?.wait();
    /// assert!(queue.is_drained());
    /// # Ok::<(), Box<dyn std::error::Error>>(())
    /// ```
    pub fn wait(self) -> Frozen<'q, T> {
        Frozen::of(self.owned.wait())
    }

    /// Waits until each request has left, or until the timeout. Linux: `blk_mq_freeze_queue_wait_timeout`.
    ///
    /// # Errors
    ///
    /// Returns the freeze if a request is still in flight.
    ///
    /// # Examples
    ///
    /// ```
    /// # use freeze_queue::{Limits, Queue};
    /// # use std::time::Duration;
    /// # let queue = Queue::new(Limits::of_hardware(64))?;
    /// # let mut tag = queue.tag()?;
    /// let request = queue.enter(&mut tag)?;
    /// let freezing = queue.begin_freeze()?.wait_timeout(Duration::ZERO).unwrap_err();
    /// drop(request);
    /// assert!(freezing.wait_timeout(Duration::ZERO).is_ok());
    /// # Ok::<(), Box<dyn std::error::Error>>(())
    /// ```
    pub fn wait_timeout(self, timeout: Duration) -> Result<Frozen<'q, T>, Freezing<'q, T>> {
        self.owned.wait_timeout(timeout).map(Frozen::of).map_err(Freezing::of)
    }

    /// Waits as a task until each request has left: the last request wakes it. Dropping the future thaws the freeze.
    ///
    /// ```
    /// # use freeze_queue::{FreezeError, Limits, Queue};
    /// # use std::{future::Future, pin::pin, task::{Context, Poll, Waker}};
    /// async fn halve(queue: &Queue) -> Result<(), FreezeError> {
    ///     let freezing = queue.begin_freeze()?; // no request enters from now on
    ///     let frozen = freezing.drained().await;
    ///     let limits = frozen.limits();
    ///     frozen.set(limits.with_max(limits.max / 2)).expect("they are limits");
    ///     Ok(())
    /// }
    /// # let queue = Queue::new(Limits::of_hardware(64))?;
    /// # let done = pin!(halve(&queue)).poll(&mut Context::from_waker(Waker::noop()));
    /// # assert_eq!((done, queue.limits().max, queue.depth()), (Poll::Ready(Ok(())), 32, 0));
    /// # Ok::<(), Box<dyn std::error::Error>>(())
    /// ```
    pub async fn drained(self) -> Frozen<'q, T> {
        Frozen::of(self.owned.drained().await)
    }

    /// Marks the queue dying, as [`Queue::mark_dying`] does, and ends this freeze: no request enters in between. Linux:
    /// `blk_queue_start_drain` with `QUEUE_FLAG_DYING`.
    ///
    /// ```
    /// # use freeze_queue::{Limits, Queue, EnterError};
    /// # let queue = Queue::new(Limits::of_hardware(64))?;
    /// let (mut tag, mut other) = (queue.tag()?, queue.tag()?);
    /// let request = queue.enter(&mut tag)?; // its device may never answer
    /// queue.begin_freeze()?.mark_dying();
    /// assert_eq!(queue.try_enter(&mut other).unwrap_err(), EnterError::Dying);
    /// assert!(!queue.is_drained());
    /// drop(request);
    /// assert!(queue.is_drained());
    /// # Ok::<(), Box<dyn std::error::Error>>(())
    /// ```
    pub fn mark_dying(self) {
        self.owned.mark_dying();
    }
}

impl<T> OwnedFreezing<T> {
    pub(crate) fn queue(&self) -> &Shared<T> {
        self.freeze.queue()
    }

    /// Returns whether all requests had left at some moment of the call. Once this call has returned true, it returns true
    /// until the last thaw. Linux: `percpu_ref_is_zero` in `blk_mq_freeze_queue_wait`.
    ///
    /// ```
    /// # use freeze_queue::{Limits, Queue};
    /// # let queue = Queue::new(Limits::of_hardware(64))?;
    /// assert!(queue.begin_freeze()?.is_drained());
    /// # Ok::<(), Box<dyn std::error::Error>>(())
    /// ```
    #[must_use]
    pub fn is_drained(&self) -> bool {
        self.queue().is_drained()
    }

    /// Waits as [`Freezing::wait`] does.
    pub fn wait(self) -> OwnedFrozen<T> {
        self.queue().until_drained(None);
        OwnedFrozen::of(self.freeze)
    }

    /// Waits as [`Freezing::wait_timeout`] does.
    ///
    /// # Errors
    ///
    /// Returns the freeze if a request is still in flight.
    pub fn wait_timeout(self, timeout: Duration) -> Result<OwnedFrozen<T>, OwnedFreezing<T>> {
        let deadline = Instant::now().checked_add(timeout);
        if self.queue().until_drained(deadline) { Ok(OwnedFrozen::of(self.freeze)) } else { Err(self) }
    }

    /// Waits as [`Freezing::drained`] does.
    pub async fn drained(self) -> OwnedFrozen<T> {
        tasks::until_drained(self.queue()).await;
        OwnedFrozen::of(self.freeze)
    }

    /// Marks the queue dying, as [`Freezing::mark_dying`] does.
    pub fn mark_dying(self) {
        self.freeze.mark_dying();
    }
}

impl<T> Deref for Freezing<'_, T> {
    type Target = OwnedFreezing<T>;

    fn deref(&self) -> &OwnedFreezing<T> {
        &self.owned
    }
}
