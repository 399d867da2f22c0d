//! A frozen queue.
use crate::errors::UpdateError;
use crate::freezing::{Borrow, Freeze};
use crate::limits::Limits;
use crate::shared::Shared;
use std::ops::Deref;

/// A freeze of a drained queue: while it exists no request is in flight, and none enters.
///
/// It borrows its queue, and derefs to [`OwnedFrozen`], which has [`set`](OwnedFrozen::set),
/// [`limits`](OwnedFrozen::limits) and [`lock`](OwnedFrozen::lock). Dropping it, on any thread, thaws this freeze. When the
/// last freeze is thawed, requests enter again, and waiting threads and tasks are woken. A leaked freeze (`mem::forget`) is
/// never thawed. Linux: `blk_mq_unfreeze_queue`.
///
/// ```
/// use freeze_queue::{Limits, Queue};
///
/// let queue = Queue::builder(Limits::of_hardware(64)).slots(1).tags(1).build()?;
/// let frozen = queue.freeze()?;
/// let nested = queue.freeze()?;
/// drop(frozen);
/// assert_eq!(queue.depth(), 1);
/// nested.set(queue.limits().with_chunk(8))?;
/// # Ok::<(), Box<dyn std::error::Error>>(())
/// ```
#[must_use = "an unused freeze is thawed at once"]
pub struct Frozen<'q, T = ()> {
    owned: OwnedFrozen<T>,
    _queue: Borrow<'q, T>,
}

/// A freeze that doesn't borrow its queue, but keeps the queue's memory alive ([`Frozen::into_owned`]). A server can keep it
/// between two messages, and thaw it on any thread.
///
/// ```
/// # use freeze_queue::{Limits, OwnedFrozen, Queue};
/// /// A service that freezes at one message, and thaws at another.
/// struct Service {
///     queue: Queue,
///     frozen: Option<OwnedFrozen>,
/// }
///
/// let mut service = Service { queue: Queue::new(Limits::of_hardware(64))?, frozen: None };
/// service.frozen = Some(service.queue.freeze()?.into_owned());
/// assert_eq!(service.queue.depth(), 1);
/// service.frozen = None;
/// assert_eq!(service.queue.depth(), 0);
/// # Ok::<(), Box<dyn std::error::Error>>(())
/// ```
#[must_use = "an unused freeze is thawed at once"]
pub struct OwnedFrozen<T = ()> {
    /// A freeze of a drained queue.
    freeze: Freeze<T>,
}

impl<'q, T> Frozen<'q, T> {
    pub(crate) fn of(owned: OwnedFrozen<T>) -> Frozen<'q, T> {
        Frozen { owned, _queue: Borrow::OF }
    }

    /// Returns the same freeze, which no longer borrows the queue.
    pub fn into_owned(self) -> OwnedFrozen<T> {
        self.owned
    }

    /// Marks the queue dying, as [`Queue::mark_dying`](crate::Queue::mark_dying) does, and ends this freeze. No request
    /// enters in between.
    ///
    /// ```
    /// # use freeze_queue::{EnterError, Limits, Queue};
    /// # use std::thread;
    /// # let queue = Queue::builder(Limits::of_hardware(64)).slots(1).tags(1).build()?;
    /// # let mut tag = queue.tag()?;
    /// let frozen = queue.freeze()?;
    /// thread::scope(|threads| {
    ///     let waits = threads.spawn(|| queue.enter(&mut tag).map(drop));
    ///     frozen.mark_dying();
    ///     assert_eq!(waits.join().unwrap(), Err(EnterError::Dying));
    /// });
    /// drop(tag);
    /// queue.remove()?;
    /// # Ok::<(), Box<dyn std::error::Error>>(())
    /// ```
    pub fn mark_dying(self) {
        self.owned.mark_dying();
    }
}

impl<T> OwnedFrozen<T> {
    /// The freeze of a queue that is drained.
    pub(crate) fn of(freeze: Freeze<T>) -> OwnedFrozen<T> {
        OwnedFrozen { freeze }
    }

    pub(crate) fn queue(&self) -> &Shared<T> {
        self.freeze.queue()
    }

    /// Sets the limits, for the requests that enter after the thaw. Linux: `queue_limits_commit_update`, under a freeze.
    ///
    /// Freezes nest, and an update freezes too. So between this freeze's [`limits`](OwnedFrozen::limits) and `set`, another
    /// freeze or an update may set limits, which this call then undoes. Only updates don't undo one another
    /// ([`update`](crate::Queue::update)). A loop of `freeze` and `set` may also starve the threads that wait to enter: only
    /// `update` lets them in first.
    ///
    /// # Errors
    ///
    /// Returns [`UpdateError::Limits`] if the limits are invalid, or else [`UpdateError::OtherHardware`] if `hardware` isn't
    /// the queue's, or else [`UpdateError::Nested`] if the closure of an update of this queue calls it.
    ///
    /// # Examples
    ///
    /// ```
    /// # use freeze_queue::{Limits, Queue, UpdateError};
    /// # let queue = Queue::builder(Limits::of_hardware(64)).slots(1).tags(1).build()?;
    /// # let mut tag = queue.tag()?;
    /// let frozen = queue.freeze()?;
    /// frozen.set(Limits::of_hardware(64).with_max(8))?;
    /// assert_eq!(frozen.set(Limits::of_hardware(32)), Err(UpdateError::OtherHardware));
    /// drop(frozen);
    /// assert_eq!(queue.enter(&mut tag)?.limits().max, 8);
    /// # Ok::<(), Box<dyn std::error::Error>>(())
    /// ```
    pub fn set(&self, limits: Limits) -> Result<(), UpdateError> {
        self.queue().store_limits(limits.checked()?)
    }

    /// Returns the current limits. Another freeze or an update may change them meanwhile ([`set`](OwnedFrozen::set)).
    ///
    /// ```
    /// # use freeze_queue::{Limits, Queue};
    /// # let queue = Queue::new(Limits::of_hardware(64))?;
    /// let frozen = queue.freeze()?;
    /// frozen.set(frozen.limits().with_max(8))?;
    /// assert_eq!(frozen.limits().max, 8);
    /// # Ok::<(), Box<dyn std::error::Error>>(())
    /// ```
    #[must_use]
    pub fn limits(&self) -> Limits {
        self.queue().waits.lock().freezer.limits().into()
    }

    /// Marks the queue dying, as [`Frozen::mark_dying`] does.
    pub fn mark_dying(self) {
        self.freeze.mark_dying();
    }
}

impl<T> Deref for Frozen<'_, T> {
    type Target = OwnedFrozen<T>;

    fn deref(&self) -> &OwnedFrozen<T> {
        &self.owned
    }
}
