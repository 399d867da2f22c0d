//! Waiting for a tag or for the drain, beside the models.
use super::life::{Boxed, Life, Seat, Seated, is_free};
use super::plain;
use super::shared::Woken;
use super::some_limits;
use freeze_queue::{EnterError, Freezing, Frozen, UpdateError};
use std::pin::Pin;
use std::sync::Arc;
use std::task::{Context, Poll, Waker};
use std::time::Duration;

/// How far a future is that enters with any tag.
#[derive(Clone, Copy, PartialEq, Eq)]
pub enum At {
    Begin,
    Line,
    /// It has a tag, perhaps without knowing it.
    Has,
}

/// A freeze that isn't drained yet.
pub enum Freezes<'q> {
    Begun(Freezing<'q>),
    Polled(Boxed<'q, Frozen<'q>>, Arc<Woken>),
}

fn noted(woken: &mut Arc<Woken>) -> Waker {
    *woken = Arc::default();
    Waker::from(Arc::clone(woken))
}

impl<'q> Life<'q, '_> {
    /// A tag goes home, or to the first in line, which is woken once.
    pub fn goes_home(&mut self, q: usize) {
        match self.lines[q].pop_front() {
            None => {
                let plain = &mut self.plains[q];
                (plain.waiting, plain.out) = (plain.waiting + 1, plain.out - 1);
            }
            Some(first) => {
                let Some(Seat { seated: Seated::Any(_, at, woken), .. }) = &mut self.seats[first] else {
                    panic!("it waits in line")
                };
                assert_eq!((Arc::strong_count(woken), woken.times()), (1, 1));
                *at = At::Has;
            }
        }
    }

    /// The device is gone: the line is woken.
    pub fn all_sent_away(&mut self, q: usize) {
        while let Some(first) = self.lines[q].pop_front() {
            let Some(Seat { seated: Seated::Any(_, at, woken), .. }) = &mut self.seats[first] else {
                panic!("it waits in line")
            };
            assert_eq!((Arc::strong_count(woken), woken.times()), (1, 1));
            *at = At::Begin;
        }
    }

    pub fn enter_any(&mut self, q: usize, s: usize) {
        if self.seats[s].is_none() {
            let seated = Seated::Any(Box::pin(self.queues[q].0.enter_any_async()), At::Begin, Arc::default());
            self.seats[s] = Some(Seat { queue: q, forgotten: false, seated });
        }
    }

    pub fn try_any(&mut self, q: usize, s: usize) {
        if self.seats[s].is_some() {
            return;
        }
        let (plain, waits) = (&mut self.plains[q], self.chance.one_in(2));
        let queue = &self.queues[q].0;
        let entered = match (plain.waiting, plain.depth, plain.dying, waits) {
            (0, _, false, false) => queue.try_enter_any().map_err(|why| assert_eq!(why, EnterError::NoTag)),
            (0, _, dying, true) => {
                let late = if dying { EnterError::Dying } else { EnterError::TimedOut };
                queue.enter_any_timeout(Duration::ZERO).map_err(|why| assert_eq!(why, late))
            }
            (_, 0, false, false) => queue.try_enter_any().map_err(|why| panic!("{why}")),
            (_, 0, false, true) => queue.enter_any().map_err(|why| panic!("{why}")),
            (_, _, true, true) => queue.enter_any().map_err(|why| assert_eq!(why, EnterError::Dying)),
            (_, _, true, false) => queue.try_enter_any().map_err(|why| assert_eq!(why, EnterError::Dying)),
            (..) => queue.try_enter_any().map_err(|why| assert_eq!(why, EnterError::Frozen)),
        };
        assert_eq!(entered.is_ok(), plain.waiting > 0 && !plain.is_closed());
        if let Ok(request) = entered {
            (plain.waiting, plain.out) = (plain.waiting - 1, plain.out + 1);
            plain.entered += 1;
            self.seats[s] = Some(Seat { queue: q, forgotten: false, seated: Seated::Owned(request) });
        }
    }

    /// A free tag is waited with, by a future that has it.
    pub fn enter_owned_by_future(&mut self, s: usize) {
        let Some(Seat { queue, seated: Seated::Free(tag), .. }) =
            self.seats[s].take_if(|seat| is_free(seat) && !seat.forgotten)
        else {
            return;
        };
        let entering = Box::pin(self.queues[queue].0.enter_owned_async(tag));
        let seated = Seated::OwnedEnters(entering, Arc::default());
        self.seats[s] = Some(Seat { queue, forgotten: false, seated });
    }

    /// Polls a future that has its tag, or will have one.
    pub fn poll_owned(&mut self, s: usize, mut seat: Seat<'q>) {
        let (q, why) = (seat.queue, self.refusal(seat.queue, &seat));
        let done = match &mut seat.seated {
            Seated::OwnedEnters(entering, woken) => {
                let polled = Pin::new(entering).poll(&mut Context::from_waker(&noted(woken)));
                polled.map_err(|refused| (refused.reason, drop(refused.value)).0)
            }
            Seated::Any(entering, at, woken) => {
                let plain = &mut self.plains[q];
                if *at == At::Begin && plain.waiting > 0 {
                    (plain.waiting, plain.out) = (plain.waiting - 1, plain.out + 1);
                    *at = At::Has;
                } else if *at == At::Begin && !plain.dying {
                    self.lines[q].push_back(s);
                    *at = At::Line;
                }
                let polled = Pin::new(entering).poll(&mut Context::from_waker(&noted(woken)));
                if *at == At::Line {
                    assert!(polled.is_pending());
                    self.seats[s] = Some(seat);
                    return;
                }
                polled.map_err(|why| (assert_eq!(why, EnterError::Dying), EnterError::Dying).1)
            }
            _ => unreachable!("it was asked for"),
        };
        let had_tag = !matches!(seat.seated, Seated::Any(_, At::Begin, _));
        match done {
            Poll::Pending => {
                assert_eq!(why, Some(EnterError::Frozen));
                self.seats[s] = Some(seat);
            }
            Poll::Ready(Ok(request)) => {
                assert_eq!(why, None);
                self.plains[q].entered += 1;
                self.seats[s] = Some(Seat { seated: Seated::Owned(request), ..seat });
            }
            Poll::Ready(Err(reason)) => {
                assert_eq!((reason, self.plains[q].dying), (EnterError::Dying, true));
                drop(seat);
                if had_tag {
                    self.goes_home(q);
                }
            }
        }
    }

    /// Begins a freeze, and doesn't wait.
    pub fn begin_freeze(&mut self, q: usize) {
        if self.plains[q].depth > 900 || self.freezing.len() > 20 {
            return;
        }
        let queue = &self.queues[q].0;
        let freezing = queue.begin_freeze().unwrap();
        let drained = self.plains[q].freezes();
        assert_eq!(freezing.is_drained(), drained);
        self.freezing.push((q, Freezes::Begun(freezing)));
    }

    /// Waits for the drain of some freeze that was begun, without patience; a freeze that is drained is thawed then.
    pub fn go_on_freezing(&mut self) {
        if self.freezing.is_empty() {
            return;
        }
        let which = self.chance.below(u32::try_from(self.freezing.len()).unwrap()) as usize;
        let (q, freezes) = self.freezing.swap_remove(which);
        let drained = self.plains[q].is_drained();
        let (frozen, left) = match freezes {
            Freezes::Begun(freezing) if self.chance.one_in(2) => match freezing.wait_timeout(Duration::ZERO) {
                Ok(frozen) => (Some(frozen), None),
                Err(freezing) => (None, Some(Freezes::Begun(freezing))),
            },
            Freezes::Begun(freezing) => (None, Some(Freezes::Polled(Box::pin(freezing.drained()), Arc::default()))),
            Freezes::Polled(mut future, mut woken) => {
                let was_noted = Arc::strong_count(&woken) == 2;
                assert!(!(was_noted && drained), "the drain wakes it, and lets its waker go");
                match Pin::new(&mut future).poll(&mut Context::from_waker(&noted(&mut woken))) {
                    Poll::Ready(frozen) => (Some(frozen), None),
                    Poll::Pending => (None, Some(Freezes::Polled(future, woken))),
                }
            }
        };
        self.freezing.extend(left.map(|left| (q, left)));
        if let Some(frozen) = frozen {
            assert!(drained);
            drop(frozen);
            self.is_thawed(q);
        }
    }

    /// Drops some freeze that isn't drained, perhaps.
    pub fn give_up_freezing(&mut self) {
        if let Some((q, freezes)) = self.freezing.pop() {
            drop(freezes);
            self.is_thawed(q);
        }
    }

    fn is_thawed(&mut self, q: usize) {
        self.plains[q].depth -= 1;
        if self.plains[q].depth == 0 {
            self.all_woken(q);
        }
    }

    pub fn update(&mut self, q: usize) {
        let (limits, plain) = (some_limits(self.chance), &mut self.plains[q]);
        if plain.entered > 0 || plain.depth > 900 {
            return;
        }
        let before = plain.limits;
        let limits = limits.with_hardware(before.hardware);
        let set = self.queues[q].0.update(|old| (assert_eq!(old, before), limits).1);
        if let Some(why) = plain::refusal(&limits) {
            assert_eq!(set, Err(UpdateError::Limits(why)));
            return; // nothing was frozen
        }
        plain.freezes();
        plain.updates += 1;
        plain.limits = plain::kept(limits);
        assert_eq!(set, Ok(plain.limits));
        self.is_thawed(q);
    }
}
