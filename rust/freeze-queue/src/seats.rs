//! The wakers of a queue's futures: a seat for each tag, so that no future allocates.
use crate::line::Notify;
use std::any::Any;
use std::cell::RefCell;
use std::collections::VecDeque;
use std::mem;
use std::panic::{AssertUnwindSafe, catch_unwind, resume_unwind};
use std::task::Waker;
use std::thread;

/// The seats of a queue, by the numbers of its tags. Each has the waker of the future that waits with its tag, if one does.
pub(crate) struct Seats {
    seats: Vec<Option<Waker>>,
    /// The number of waiting futures.
    waiting: usize,
}

impl Seats {
    /// Makes seats for this many tags. None if memory is refused.
    pub(crate) fn new(tags: usize) -> Option<Seats> {
        let mut seats = Vec::new();
        seats.try_reserve_exact(tags).ok()?;
        seats.resize_with(tags, || None);
        Some(Seats { seats, waiting: 0 })
    }

    /// Notes a waker, and returns the old one.
    pub(crate) fn note(&mut self, seat: usize, waker: Waker) -> Option<Waker> {
        let old = self.seats[seat].replace(waker);
        self.waiting += usize::from(old.is_none());
        old
    }

    /// Removes the waker of this seat, whose tag no future waits with any more.
    pub(crate) fn forget(&mut self, seat: usize) -> Option<Waker> {
        let old = self.seats[seat].take();
        self.waiting -= usize::from(old.is_some());
        old
    }

    /// Returns the first seat from this one on in which a future waits.
    pub(crate) fn next(&self, from: usize) -> Option<usize> {
        let end = if self.waiting > 0 { self.seats.len() } else { from };
        (from..end).find(|seat| self.seats[*seat].is_some())
    }
}

thread_local! {
    /// The tasks to wake that wakers on this thread asked for by calling this crate. None while no waker is called.
    static PUT_OFF: RefCell<Option<VecDeque<Notify>>> = const { RefCell::new(None) };
}

/// Wakes each waiter, even if waking one of them panics. Then the first panic continues, unless the thread is already
/// panicking: a second panic would abort. A panic that doesn't continue is forgotten, since dropping its payload may panic
/// again.
///
/// A waker may make calls that wake others, for example if its task ends and passes its tag on. Their wakes are postponed
/// until that waker has returned, so a chain of such tasks doesn't deepen the stack.
pub(crate) fn wake_each(all: impl Iterator<Item = Notify>) {
    let (is_outermost, mut first) = (is_outermost(), None);
    for one in all {
        let now = if is_outermost { Some(one) } else { put_off(one) };
        if let Some(one) = now {
            wake(one, &mut first);
        }
    }
    while let Some(one) = is_outermost.then(next_put_off).flatten() {
        wake(one, &mut first);
    }
    match first {
        Some(panic) if !thread::panicking() => resume_unwind(panic),
        other => mem::forget(other),
    }
}

fn wake(one: Notify, first: &mut Option<Box<dyn Any + Send>>) {
    match catch_unwind(AssertUnwindSafe(|| one.notify())) {
        Err(panic) if first.is_none() => *first = Some(panic),
        other => mem::forget(other),
    }
}

/// Runs a closure over the postponed wakes of this thread. None if the thread is ending, and no longer has them.
fn with_put_off<R>(closure: impl FnOnce(&mut Option<VecDeque<Notify>>) -> R) -> Option<R> {
    PUT_OFF.try_with(|off| closure(&mut off.borrow_mut())).ok()
}

/// Whether no waker is being called on this thread. The caller calls wakers from now on, until nothing is postponed. (Each
/// call of a thread that is ending wakes at once.)
fn is_outermost() -> bool {
    with_put_off(|off| {
        let is_outermost = off.is_none();
        off.get_or_insert_default();
        is_outermost
    })
    .unwrap_or(true)
}

/// Postpones waking a task. A thread is woken at once, which runs nobody's code, and so is a task if memory is refused.
fn put_off(one: Notify) -> Option<Notify> {
    let mut one = Some(one);
    if matches!(one, Some(Notify::Task(_))) {
        with_put_off(|off| {
            let off = off.as_mut()?;
            off.try_reserve(1).ok()?;
            off.extend(one.take());
            Some(())
        });
    }
    one
}

/// The next postponed wake. If there is none, no waker is being called on this thread any more.
fn next_put_off() -> Option<Notify> {
    with_put_off(|off| {
        let next = off.as_mut()?.pop_front();
        if next.is_none() {
            *off = None;
        }
        next
    })
    .flatten()
}
