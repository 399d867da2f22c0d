//! Marking a queue dying.
use super::Queue;
use crate::tasks;
use std::sync::Arc;
use std::time::{Duration, Instant};

impl<T> Queue<T> {
    /// Marks the queue dying. Call this when its device is gone or is being removed. Calls that wait to enter, or for a tag, return
    /// [`EnterError::Dying`](crate::EnterError::Dying), and so do later ones, even if no tag is free. Until the queue is
    /// drained, [`try_enter_frozen`](Queue::try_enter_frozen) and
    /// [`try_enter_frozen_owned`](Queue::try_enter_frozen_owned) still enter. [`tag`](Queue::tag) still gives out tags.
    /// Requests in flight go on to their end. Linux: `blk_mark_disk_dead`, which sets `QUEUE_FLAG_DYING`.
    ///
    /// This call returns no error, and doesn't count towards [`MAX_DEPTH`](Queue::MAX_DEPTH). Freezes and updates of a dying
    /// queue still drain it and set limits; when they end, the queue stays closed.
    ///
    /// # Panics
    ///
    /// Panics in the same case as [`freeze`](Queue::freeze).
    ///
    /// # Examples
    ///
    /// ```
    /// # use freeze_queue::{Limits, Queue, EnterError};
    /// # let queue = Queue::builder(Limits::of_hardware(64)).slots(1).tags(2).build()?;
    /// let mut tag = queue.tag()?;
    /// let request = queue.enter_any()?; // its device may never answer
    /// queue.mark_dying();
    /// assert_eq!(queue.try_enter(&mut tag).unwrap_err(), EnterError::Dying);
    /// assert!(!queue.is_drained());
    /// drop(request);
    /// assert!(queue.is_drained());
    /// # Ok::<(), Box<dyn std::error::Error>>(())
    /// ```
    pub fn mark_dying(&self) {
        Arc::clone(&self.shared).mark_dying(None);
    }

    /// Marks the queue dying, and waits until each request has left. Linux: `del_gendisk`.
    ///
    /// # Panics
    ///
    /// Panics in the same case as [`freeze`](Queue::freeze).
    ///
    /// # Examples
    ///
    /// ```
    /// # use freeze_queue::{Limits, Queue};
    /// # let queue = Queue::builder(Limits::of_hardware(64)).slots(1).tags(1).build()?;
    /// queue.shut_down();
    /// assert!(queue.is_drained());
    /// # Ok::<(), Box<dyn std::error::Error>>(())
    /// ```
    pub fn shut_down(&self) {
        self.mark_dying();
        self.shared.until_drained(None);
    }

    /// Marks the queue dying, and waits until each request has left, or until the timeout. Returns whether all have left; the
    /// queue is dying either way. If a device hangs, you may drop the queue: see [`Queue`].
    ///
    /// # Panics
    ///
    /// Panics in the same case as [`freeze`](Queue::freeze).
    ///
    /// # Examples
    ///
    /// ```
    /// # use freeze_queue::{Limits, Queue};
    /// # use std::time::Duration;
    /// # let queue = Queue::builder(Limits::of_hardware(64)).slots(1).tags(1).build()?;
    /// let request = queue.enter_any()?;
    /// assert!(!queue.shut_down_timeout(Duration::from_millis(1)));
    /// drop(request);
    /// assert!(queue.shut_down_timeout(Duration::ZERO));
    /// # Ok::<(), Box<dyn std::error::Error>>(())
    /// ```
    #[must_use = "requests may be in flight still"]
    pub fn shut_down_timeout(&self, timeout: Duration) -> bool {
        self.mark_dying();
        self.shared.until_drained(Instant::now().checked_add(timeout))
    }

    /// Marks the queue dying at the first poll, and waits as a task until each request has left. Dropping the future after
    /// its first poll leaves the queue dying.
    ///
    /// # Panics
    ///
    /// Panics in the same case as [`freeze`](Queue::freeze).
    ///
    /// # Examples
    ///
    /// ```
    /// # use freeze_queue::{Limits, Queue};
    /// # use std::{future::Future, pin::pin, task::{Context, Poll, Waker}};
    /// # let queue = Queue::builder(Limits::of_hardware(64)).slots(1).tags(1).build()?;
    /// let request = queue.enter_any()?;
    /// let mut shut = pin!(queue.shut_down_async());
    /// let mut context = Context::from_waker(Waker::noop());
    /// assert!(shut.as_mut().poll(&mut context).is_pending() && queue.is_dying());
    /// drop(request);
    /// assert!(shut.poll(&mut context).is_ready());
    /// # Ok::<(), Box<dyn std::error::Error>>(())
    /// ```
    pub async fn shut_down_async(&self) {
        self.mark_dying();
        tasks::until_drained(&self.shared).await;
    }
}
