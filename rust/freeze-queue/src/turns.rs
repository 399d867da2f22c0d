//! The turn to update. One update runs at a time, in order of arrival, so none is lost, and no closure of a user runs under
//! the queue's lock.
use crate::errors::UpdateError;
use crate::line::{Line, Lined};
use crate::seats::wake_each;
use crate::shared::Shared;
use crate::waits::Held;
use std::mem;
use std::panic::{AssertUnwindSafe, catch_unwind, resume_unwind};
use std::thread::{self, ThreadId};

/// The turn, which one update at a time has. It is under the queue's lock.
pub(crate) struct Turns {
    is_taken: bool,
    /// The thread that runs the closure of the update that has the turn.
    in_closure: Option<ThreadId>,
    line: Line<()>,
}

impl Turns {
    /// None if memory is refused.
    pub(crate) fn new() -> Option<Turns> {
        Some(Turns { is_taken: false, in_closure: None, line: Line::new(1)? })
    }

    /// Refuses a caller that the closure of an update called.
    pub(crate) fn refuse_nested(&self) -> Result<(), UpdateError> {
        let is_nested = self.in_closure == Some(thread::current().id());
        if is_nested { Err(UpdateError::Nested) } else { Ok(()) }
    }
}

/// The turn of an update. Dropping it passes the turn to the first in line.
#[must_use = "the turn ends when it is dropped"]
pub(crate) struct Taken<'q, T>(&'q Shared<T>);

impl<T> Lined<T> for Turns {
    type Thing = ();
    type Got<'q>
        = Taken<'q, T>
    where
        T: 'q;
    type Error = UpdateError;
    const NO_MEMORY: UpdateError = UpdateError::NoMemory;
    /// Never returned: nobody is sent away from this line, since each update borrows the queue.
    const SENT_AWAY: UpdateError = UpdateError::TimedOut;
    const TIMED_OUT: UpdateError = UpdateError::TimedOut;

    fn line(held: &mut Held<T>) -> &mut Line<()> {
        &mut held.turns.line
    }

    fn get(_: &Shared<T>, held: &mut Held<T>) -> Result<Option<()>, UpdateError> {
        held.turns.refuse_nested()?;
        Ok((!mem::replace(&mut held.turns.is_taken, true)).then_some(()))
    }

    fn got(queue: &Shared<T>, (): ()) -> Taken<'_, T> {
        Taken(queue)
    }
}

impl<T> Taken<'_, T> {
    /// Runs the closure of the update that has the turn. An update or a set inside it, on this thread, is refused.
    pub(crate) fn runs<R>(&self, closure: impl FnOnce() -> R) -> R {
        let is_run_by = |thread| self.0.waits.lock().turns.in_closure = thread;
        is_run_by(Some(thread::current().id()));
        let result = catch_unwind(AssertUnwindSafe(closure));
        is_run_by(None);
        result.unwrap_or_else(|panic| resume_unwind(panic))
    }
}

impl<T> Drop for Taken<'_, T> {
    fn drop(&mut self) {
        let mut held = self.0.waits.lock();
        let next = held.turns.line.hand(());
        held.turns.is_taken = next.is_ok();
        drop(held);
        wake_each(next.into_iter());
    }
}
