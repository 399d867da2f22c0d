//! Updating the value of a queue.
use super::Queue;
use crate::errors::UpdateError;
use crate::freezing::Freezing;
use crate::line;
use crate::tasks;
use crate::turns::{Taken, Turns};
use std::panic::Location;
use std::time::{Duration, Instant};

impl<T> Queue<T> {
    /// Freezes the queue, and calls `change` with its value, which no request uses meanwhile. Returns what `change` returns.
    ///
    /// It has its turn among the [updates](Queue::update) of the limits, in order of arrival, and lets in first the threads that were
    /// waiting at the last thaw. `change` runs under the freeze, so a slow closure holds requests up. It may not update this queue or set its
    /// limits, which return [`UpdateError::Nested`], nor enter it, which waits for ever.
    ///
    /// # Errors
    ///
    /// Returns [`UpdateError::Nested`], `NoMemory`, or an error of [`freeze`](Queue::freeze). `change` wasn't called then.
    ///
    /// # Panics
    ///
    /// Panics in the same cases as [`update`](Queue::update), and on a thread that holds the value ([`OwnedFrozen::lock`](crate::OwnedFrozen::lock)). If
    /// `change` panics, the value stays as it left it, and the freeze is thawed.
    ///
    /// # Examples
    ///
    /// ```
    /// # use freeze_queue::{Limits, Queue};
    /// let queue = Queue::builder(Limits::of_hardware(64)).slots(1).tags(1).value(vec!["sda"]).build()?;
    /// queue.update_value(|disks| disks.push("sdb"))?;
    /// assert_eq!(queue.enter_any()?.len(), 2);
    /// # Ok::<(), Box<dyn std::error::Error>>(())
    /// ```
    #[track_caller]
    pub fn update_value<R>(&self, change: impl FnOnce(&mut T) -> R) -> Result<R, UpdateError> {
        self.update_value_by(None, change)
    }

    /// Changes the value as [`update_value`](Queue::update_value) does, or returns at the timeout, which ends the waits for other updates and
    /// for the drain. It doesn't interrupt `change`, nor the wait for another freeze that has the value.
    ///
    /// # Errors
    ///
    /// Returns [`UpdateError::TimedOut`], or an error of `update_value`. `change` wasn't called then.
    ///
    /// # Panics
    ///
    /// Panics in the same cases as `update_value`.
    ///
    /// # Examples
    ///
    /// ```
    /// # use freeze_queue::{Limits, Queue, UpdateError};
    /// # use std::time::Duration;
    /// # let queue = Queue::builder(Limits::of_hardware(64)).slots(1).tags(1).value(7).build()?;
    /// let request = queue.enter_any()?;
    /// assert_eq!(queue.update_value_timeout(Duration::from_millis(1), |value| *value = 8), Err(UpdateError::TimedOut));
    /// assert_eq!(*request, 7);
    /// # Ok::<(), Box<dyn std::error::Error>>(())
    /// ```
    #[track_caller]
    pub fn update_value_timeout<R>(
        &self,
        timeout: Duration,
        change: impl FnOnce(&mut T) -> R,
    ) -> Result<R, UpdateError> {
        self.update_value_by(Instant::now().checked_add(timeout), change)
    }

    #[track_caller]
    fn update_value_by<R>(
        &self,
        deadline: Option<Instant>,
        change: impl FnOnce(&mut T) -> R,
    ) -> Result<R, UpdateError> {
        let turn = line::wait::<T, Turns>(&self.shared, deadline)?;
        self.shared.waits.until_let_in(deadline);
        let freezing = self.begin_freeze()?;
        if !self.shared.until_drained(deadline) {
            return Err(UpdateError::TimedOut);
        }
        let frozen = freezing.wait();
        Ok(changed(&turn, &mut frozen.lock(), change))
    }

    /// Changes the value as [`update_value`](Queue::update_value) does, and waits as a task for its turn and for the drain. Dropping the
    /// future before it is done changes nothing, and thaws its freeze. While it has its turn no other update runs, even if nobody polls it.
    ///
    /// # Errors
    ///
    /// Returns the errors of `update_value`.
    ///
    /// # Panics
    ///
    /// Panics in the same cases as `update_value`.
    ///
    /// # Examples
    ///
    /// ```
    /// # use freeze_queue::{Limits, Queue, UpdateError};
    /// # use std::{future::Future, pin::pin, task::{Context, Poll, Waker}};
    /// async fn count(queue: &Queue<u32>) -> Result<u32, UpdateError> {
    ///     queue.update_value_async(|value| { *value += 1; *value }).await
    /// }
    /// # let queue = Queue::builder(Limits::of_hardware(64)).slots(1).tags(1).value(7).build()?;
    /// # let done = pin!(count(&queue)).poll(&mut Context::from_waker(Waker::noop()));
    /// # assert_eq!(done, Poll::Ready(Ok(8)));
    /// # Ok::<(), Box<dyn std::error::Error>>(())
    /// ```
    #[track_caller]
    pub fn update_value_async<R>(
        &self,
        change: impl FnOnce(&mut T) -> R,
    ) -> impl Future<Output = Result<R, UpdateError>> {
        let location = Location::caller();
        async move {
            let turn = line::wait_async::<T, Turns>(&self.shared).await?;
            tasks::until(&self.shared, |held| &mut held.let_in, |held| held.has_let_in()).await;
            let frozen = Freezing::begin(&self.shared, location)?.drained().await;
            Ok(changed(&turn, &mut frozen.lock(), change))
        }
    }
}

/// What the closure returns, which may not update this queue itself.
fn changed<T, R>(turn: &Taken<'_, T>, value: &mut T, change: impl FnOnce(&mut T) -> R) -> R {
    turn.runs(|| change(value))
}
