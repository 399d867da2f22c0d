//! Updating the limits.
use super::Queue;
use crate::erased::queue_core;
use crate::errors::UpdateError;
use crate::freezing::Freezing;
use crate::limits::Limits;
use crate::line;
use crate::tasks;
use crate::turns::{Taken, Turns};
use std::panic::Location;
use std::time::{Duration, Instant};

impl<T> Queue<T> {
    /// Calls `change` with the current limits, then freezes the queue, sets the limits that `change` returned, and returns the
    /// limits that are now in force: for example, if `change` set `max` to 0, `max` is `hardware`.
    ///
    /// One update runs at a time, in order of arrival, so no update undoes another's change. Before it freezes, an update
    /// first lets in the threads that were waiting at the last thaw, so back-to-back updates don't starve threads. It
    /// doesn't wait for tasks: a task that is polled only after the next freeze began waits again, so let a loop of updates
    /// pause between updates. `change` runs before the freeze, so a slow closure holds up no request. If another freeze sets limits
    /// meanwhile ([`OwnedFrozen::set`](crate::OwnedFrozen::set)), `change` is called again. It may freeze and enter this
    /// queue, but not update it or set its limits, which return [`UpdateError::Nested`].
    ///
    /// # Errors
    ///
    /// Returns any [`UpdateError`] except `TimedOut`. The update has set nothing and holds no freeze.
    ///
    /// # Panics
    ///
    /// Panics in the same case as [`freeze`](Queue::freeze). It also panics if `change` does; then the update has set nothing
    /// and holds no freeze.
    ///
    /// # Examples
    ///
    /// ```
    /// # use freeze_queue::{Limits, LimitsError, Queue, UpdateError};
    /// # let queue = Queue::builder(Limits::of_hardware(64)).slots(1).tags(1).build()?;
    /// let halved = queue.update(|limits| limits.with_max(limits.max / 2))?;
    /// assert_eq!((halved.max, queue.limits().max), (32, 32));
    /// let refused = queue.update(|limits| limits.with_max(65));
    /// assert_eq!(refused, Err(UpdateError::Limits(LimitsError::AboveHardware)));
    /// # Ok::<(), Box<dyn std::error::Error>>(())
    /// ```
    #[track_caller]
    pub fn update(&self, change: impl FnMut(Limits) -> Limits) -> Result<Limits, UpdateError> {
        self.update_by(None, change)
    }

    /// Updates the limits as [`update`](Queue::update) does, or returns at the timeout. The timeout ends the
    /// waits for other updates and for the drain, and `change` isn't called again after it. It doesn't interrupt `change`.
    ///
    /// # Errors
    ///
    /// Returns any [`UpdateError`]. The update has set nothing and holds no freeze.
    ///
    /// # Panics
    ///
    /// Panics in the same cases as `update`.
    ///
    /// # Examples
    ///
    /// ```
    /// # use freeze_queue::{Limits, Queue, UpdateError};
    /// # use std::time::Duration;
    /// # let queue = Queue::builder(Limits::of_hardware(64)).slots(1).tags(1).build()?;
    /// let request = queue.enter_any()?;
    /// let late = queue.update_timeout(Duration::from_millis(1), |limits| limits.with_max(8));
    /// assert_eq!(late, Err(UpdateError::TimedOut));
    /// drop(request);
    /// assert_eq!(queue.update_timeout(Duration::from_millis(1), |limits| limits.with_max(8))?.max, 8);
    /// # Ok::<(), Box<dyn std::error::Error>>(())
    /// ```
    #[track_caller]
    pub fn update_timeout(
        &self,
        timeout: Duration,
        change: impl FnMut(Limits) -> Limits,
    ) -> Result<Limits, UpdateError> {
        self.update_by(Instant::now().checked_add(timeout), change)
    }

    #[track_caller]
    fn update_by(
        &self,
        deadline: Option<Instant>,
        mut change: impl FnMut(Limits) -> Limits,
    ) -> Result<Limits, UpdateError> {
        let turn = line::wait::<T, Turns>(&self.shared, deadline)?;
        loop {
            let (from, to) = self.wanted(&turn, &mut change)?;
            self.shared.waits.until_let_in(deadline);
            let _freezing = self.begin_freeze()?;
            if !self.shared.until_drained(deadline) {
                return Err(UpdateError::TimedOut);
            }
            if self.shared.replace_limits(from, to) {
                return Ok(to.into());
            }
            if deadline.is_some_and(|deadline| deadline <= Instant::now()) {
                return Err(UpdateError::TimedOut);
            }
        }
    }

    /// Updates the limits as [`update`](Queue::update) does, and waits as a task for its turn and for the drain. Dropping
    /// the future before it is done sets nothing, and thaws its freeze. While the future has its turn no other update runs,
    /// even if nobody polls it again. Before it calls `change` again it is pending once, so that a timeout around it ends it.
    ///
    /// # Errors
    ///
    /// Returns the errors of `update`.
    ///
    /// # Panics
    ///
    /// Panics in the same cases as `update`.
    ///
    /// # Examples
    ///
    /// ```
    /// # use freeze_queue::{Limits, Queue, UpdateError};
    /// # use std::{future::Future, pin::pin, task::{Context, Poll, Waker}};
    /// async fn halve(queue: &Queue) -> Result<Limits, UpdateError> {
    ///     queue.update_async(|limits| limits.with_max(limits.max / 2)).await
    /// }
    /// # let queue = Queue::builder(Limits::of_hardware(64)).slots(1).tags(1).build()?;
    /// # let done = pin!(halve(&queue)).poll(&mut Context::from_waker(Waker::noop()));
    /// # assert_eq!(done, Poll::Ready(Ok(Limits::of_hardware(64).with_max(32))));
    /// # Ok::<(), Box<dyn std::error::Error>>(())
    /// ```
    #[track_caller]
    pub fn update_async(
        &self,
        mut change: impl FnMut(Limits) -> Limits,
    ) -> impl Future<Output = Result<Limits, UpdateError>> {
        let location = Location::caller();
        async move {
            let turn = line::wait_async::<T, Turns>(&self.shared).await?;
            loop {
                let (from, to) = self.wanted(&turn, &mut change)?;
                tasks::until(&self.shared, |held| &mut held.let_in, |held| held.has_let_in()).await;
                let frozen = Freezing::begin(&self.shared, location)?.drained().await;
                if self.shared.replace_limits(from, to) {
                    return Ok(to.into());
                }
                drop(frozen);
                tasks::yield_once().await;
            }
        }
    }

    /// The limits in force, and those that the closure returns for them.
    fn wanted(
        &self,
        turn: &Taken<'_, T>,
        change: impl FnOnce(Limits) -> Limits,
    ) -> Result<(Limits, queue_core::Limits), UpdateError> {
        let from = self.limits();
        let to = turn.runs(|| change(from)).checked()?;
        if to.hw() == from.hardware { Ok((from, to)) } else { Err(UpdateError::OtherHardware) }
    }
}
