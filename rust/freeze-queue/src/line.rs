//! A line of threads and tasks. Each is handed something in order of arrival: a tag, or the turn to update.
//!
//! While the line for tags isn't empty no unreserved tag is home, and each of their places asks for its tag. So a tag that comes home
//! is handed to the first in line, and no later caller takes it before.
use crate::shared::Shared;
use crate::sync::{self, Thread};
use crate::waits::Held;
use std::collections::VecDeque;
use std::future;
use std::marker::PhantomData;
use std::mem;
use std::task::{Poll, Waker};
use std::time::Instant;

/// How a waiter is woken.
pub(crate) enum Notify {
    Thread(Thread),
    Task(Waker),
}

impl Notify {
    /// Wakes the waiter. A waker may panic.
    pub(crate) fn notify(self) {
        match self {
            Notify::Thread(thread) => thread.unpark(),
            Notify::Task(waker) => waker.wake(),
        }
    }
}

pub(crate) struct Line<T> {
    /// The waiters by their numbers, which only grow. A waiter that left keeps its place, empty, until it is the first, or
    /// until half of the places are empty, so that leaving doesn't walk along the line.
    waiting: VecDeque<(u64, Option<Notify>)>,
    /// The number of empty places.
    left: usize,
    last: u64,
    /// Things that were handed over and not fetched yet, with capacity for all.
    handed: Vec<(u64, T)>,
}

impl<T> Line<T> {
    /// Makes a line for this many things. None if memory is refused.
    pub(crate) fn new(things: usize) -> Option<Line<T>> {
        let mut handed = Vec::new();
        handed.try_reserve_exact(things).ok()?;
        Some(Line { waiting: VecDeque::new(), left: 0, last: 0, handed })
    }

    pub(crate) fn is_empty(&self) -> bool {
        self.waiting.len() == self.left
    }

    /// Adds a waiter at the end, and returns its number. None if memory is refused.
    pub(crate) fn join(&mut self, notify: &mut Option<Notify>) -> Option<u64> {
        self.waiting.try_reserve(1).ok()?;
        self.last += 1;
        self.waiting.push_back((self.last, notify.take()));
        Some(self.last)
    }

    /// Hands the thing to the first waiter, if there is one, and returns how that is woken. Otherwise returns the thing.
    pub(crate) fn hand(&mut self, thing: T) -> Result<Notify, T> {
        while let Some((number, notify)) = self.waiting.pop_front() {
            match notify {
                Some(notify) => {
                    self.handed.push((number, thing)); // there is room for each thing
                    return Ok(notify);
                }
                None => self.left -= 1,
            }
        }
        Err(thing)
    }

    /// Returns what waiter `number` was handed; none if it was sent away. If it still waits, `notify` wakes it from now on, and
    /// the old way to wake it is left there.
    pub(crate) fn look(&mut self, number: u64, notify: &mut Option<Notify>) -> Poll<Option<T>> {
        if let Some(at) = self.handed.iter().position(|(of, _)| *of == number) {
            return Poll::Ready(Some(self.handed.swap_remove(at).1));
        }
        let Some(Some(noted)) = self.place_of(number) else { return Poll::Ready(None) };
        if let Some(notify) = notify {
            mem::swap(noted, notify);
        }
        Poll::Pending
    }

    /// Removes waiter `number`. Returns what it was handed, or how it would have been woken.
    pub(crate) fn go(&mut self, number: u64) -> (Option<T>, Option<Notify>) {
        if let Poll::Ready(handed) = self.look(number, &mut None) {
            return (handed, None);
        }
        let notify = self.place_of(number).and_then(Option::take);
        self.left += 1;
        if self.left > self.waiting.len() / 2 {
            self.waiting.retain(|(_, notify)| notify.is_some());
            self.left = 0;
        }
        (None, notify)
    }

    /// The index of waiter `number`, unless it is gone.
    fn place_of(&mut self, number: u64) -> Option<&mut Option<Notify>> {
        let at = self.waiting.binary_search_by_key(&number, |(of, _)| *of).ok()?;
        Some(&mut self.waiting[at].1)
    }

    /// Removes all waiters. Returns how each is woken.
    pub(crate) fn send_away(&mut self) -> impl Iterator<Item = Notify> + use<T> {
        self.left = 0;
        mem::take(&mut self.waiting).into_iter().filter_map(|(_, notify)| notify)
    }

    /// The things that were handed to leaked waiters.
    pub(crate) fn take_handed(&mut self) -> Vec<(u64, T)> {
        mem::take(&mut self.handed)
    }
}

/// Something that threads and tasks of a queue wait for in line.
pub(crate) trait Lined<T> {
    /// What is handed over in the line.
    type Thing;
    /// What the waiter gets. Dropping it passes the thing on.
    type Got<'q>
    where
        T: 'q;
    type Error;
    const NO_MEMORY: Self::Error;
    const SENT_AWAY: Self::Error;
    const TIMED_OUT: Self::Error;

    fn line(held: &mut Held<T>) -> &mut Line<Self::Thing>;

    /// Returns a thing that is free, so that nobody waits for it; or an error, for a caller that must not wait.
    fn get(queue: &Shared<T>, held: &mut Held<T>) -> Result<Option<Self::Thing>, Self::Error>;

    fn got(queue: &Shared<T>, thing: Self::Thing) -> Self::Got<'_>;
}

/// A place in line. Dropping it leaves the line.
struct InLine<'q, T, L: Lined<T>> {
    queue: &'q Shared<T>,
    number: u64,
    of: PhantomData<fn() -> L>,
}

impl<'q, T, L: Lined<T>> InLine<'q, T, L> {
    /// Returns the thing, if one is free, or else takes a place in line.
    fn join(queue: &'q Shared<T>, notify: Notify) -> Result<Result<L::Got<'q>, Self>, L::Error> {
        let mut notify = Some(notify);
        let mut held = queue.waits.lock();
        let joined = match L::get(queue, &mut held)? {
            Some(thing) => Ok(thing),
            None => Err(L::line(&mut held).join(&mut notify).ok_or(L::NO_MEMORY)?),
        };
        held.counts.stats.waited += u64::from(joined.is_err());
        drop(held);
        let joined =
            joined.map(|thing| L::got(queue, thing)).map_err(|number| InLine { queue, number, of: PhantomData });
        drop(notify); // if it isn't needed: a waker's drop may panic, and what is got is passed on then
        Ok(joined)
    }

    /// Returns the thing, once it was handed over. Until then this waker wakes the task.
    fn look(&self, mut notify: Option<Notify>) -> Poll<Result<L::Got<'q>, L::Error>> {
        let handed = L::line(&mut self.queue.waits.lock()).look(self.number, &mut notify);
        let got = handed.map(|thing| Ok(L::got(self.queue, thing.ok_or(L::SENT_AWAY)?)));
        drop(notify);
        got
    }
}

impl<T, L: Lined<T>> Drop for InLine<'_, T, L> {
    fn drop(&mut self) {
        let (thing, notify) = L::line(&mut self.queue.waits.lock()).go(self.number);
        drop(thing.map(|thing| L::got(self.queue, thing)));
        drop(notify);
    }
}

/// Waits in line as a thread.
#[cold]
pub(crate) fn wait<T, L: Lined<T>>(queue: &Shared<T>, deadline: Option<Instant>) -> Result<L::Got<'_>, L::Error> {
    let place: InLine<'_, T, L> = match InLine::join(queue, Notify::Thread(sync::current()))? {
        Ok(got) => return Ok(got),
        Err(place) => place,
    };
    let waited = loop {
        let in_time = park(deadline);
        match place.look(None) {
            Poll::Ready(got) => break got,
            Poll::Pending if in_time => {}
            Poll::Pending => {
                queue.waits.lock().counts.stats.timed_out += 1;
                break Err(L::TIMED_OUT);
            }
        }
    };
    drop(place);
    // The wait may have used up the thread's token, which may belong to somebody else: an executor that parks its thread.
    sync::current().unpark();
    waited
}

/// Waits in line as a task.
pub(crate) async fn wait_async<T, L: Lined<T>>(queue: &Shared<T>) -> Result<L::Got<'_>, L::Error> {
    let mut place: Option<InLine<'_, T, L>> = None;
    future::poll_fn(|context| {
        let notify = Notify::Task(context.waker().clone()); // before the lock, since it is somebody's code
        if let Some(place) = &place {
            return place.look(Some(notify));
        }
        match InLine::join(queue, notify)? {
            Ok(got) => return Poll::Ready(Ok(got)),
            Err(joined) => place = Some(joined),
        }
        Poll::Pending
    })
    .await
}

/// Sleeps until the thread is woken, perhaps spuriously. Returns whether that was before the deadline.
fn park(deadline: Option<Instant>) -> bool {
    let Some(deadline) = deadline else {
        sync::park();
        return true;
    };
    let left = deadline.saturating_duration_since(Instant::now());
    sync::park_timeout(left);
    Instant::now() < deadline
}

#[cfg(test)]
mod tests {
    use super::*;
    use std::task::Waker;

    fn joined(line: &mut Line<u8>) -> u64 {
        line.join(&mut Some(Notify::Task(Waker::noop().clone()))).expect("there is memory")
    }

    #[test]
    fn those_that_left_take_no_room() {
        for stay in [1, 3_000] {
            let mut line = Line::new(1).unwrap();
            for _ in 0..stay {
                joined(&mut line);
            }
            for _ in 0..10_000 {
                let number = joined(&mut line);
                assert!(matches!(line.go(number), (None, Some(_))));
                assert!(line.waiting.len() <= 2 * stay + 2 && !line.is_empty());
            }
        }
    }

    #[test]
    fn those_that_stay_are_found_between_those_that_left() {
        let mut line = Line::new(1).unwrap();
        let all: Vec<u64> = (0..100).map(|_| joined(&mut line)).collect();
        for number in all.iter().filter(|number| **number % 3 != 0) {
            assert!(matches!(line.go(*number), (None, Some(_))));
            assert!(matches!(line.go(*number), (None, None)));
        }
        for number in &all {
            assert_eq!(line.look(*number, &mut None).is_pending(), number % 3 == 0);
        }
        assert_eq!(line.send_away().count(), 33);
        assert!(line.is_empty());
    }
}
