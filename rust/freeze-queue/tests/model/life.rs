//! A few queues live beside their models.
use super::line::{At, Freezes};
use super::plain::{self, Plain};
use super::refusals::{agrees, in_time, look, waiting};
use super::shared::{Chance, Woken};
use super::some_limits;
use freeze_queue::{
    EnterError, Final, FreezeError, Frozen, HandedBack, Limits, OwnedRequest, Piece, Queue, RemoveError, Request, Tag,
    UpdateError,
};
use std::collections::VecDeque;
use std::mem;
use std::pin::Pin;
use std::sync::Arc;
use std::task::{Context, Poll, Waker};
use std::time::Duration;

const SEATS: usize = 16;

/// A future that waits.
pub type Boxed<'q, T> = Pin<Box<dyn Future<Output = T> + 'q>>;

/// A tag, in the forms that the crate has. One that stays where it is for ever is used by what borrows it.
pub enum Seated<'q> {
    Free(Tag),
    Owned(OwnedRequest),
    Borrowed(Request<'q>),
    Enters(Boxed<'q, Result<Request<'q>, EnterError>>, Arc<Woken>),
    OwnedEnters(Boxed<'q, Result<OwnedRequest, HandedBack<Tag, EnterError>>>, Arc<Woken>),
    Any(Boxed<'q, Result<OwnedRequest, EnterError>>, At, Arc<Woken>),
}

/// A seat: the tag or request that it has, and its queue.
pub struct Seat<'q> {
    pub queue: usize,
    /// A request of it was forgotten.
    pub forgotten: bool,
    pub seated: Seated<'q>,
}

pub struct Life<'q, 'c> {
    pub chance: &'c mut Chance,
    pub queues: &'q [(Arc<Queue>, Plain)],
    pub plains: Vec<Plain>,
    pub seats: [Option<Seat<'q>>; SEATS],
    frozen: Vec<(usize, Frozen<'q>)>,
    pub freezing: Vec<(usize, Freezes<'q>)>,
    /// Which seats wait for a tag of each queue, in order of arrival.
    pub lines: [VecDeque<usize>; 3],
}

impl<'q, 'c> Life<'q, 'c> {
    pub fn of(chance: &'c mut Chance, queues: &'q [(Arc<Queue>, Plain)]) -> Life<'q, 'c> {
        let plains = queues.iter().map(|(_, plain)| plain.clone()).collect();
        Life {
            chance,
            queues,
            plains,
            seats: Default::default(),
            frozen: vec![],
            freezing: vec![],
            lines: Default::default(),
        }
    }

    /// Makes this many calls, lets go of all, and returns the models.
    pub fn run(mut self, calls: u64) -> Vec<Plain> {
        for _ in 0..calls {
            self.call();
        }
        for s in 0..SEATS {
            self.let_go(s);
        }
        while !self.freezing.is_empty() {
            self.give_up_freezing();
        }
        while !self.frozen.is_empty() {
            self.thaw();
        }
        self.plains
    }

    fn call(&mut self) {
        let (q, s) = (self.chance.below(3) as usize, self.chance.below(16) as usize);
        match self.chance.below(50) {
            0..=4 => self.give(q, s),
            5 | 6 => self.give_back(q, s),
            7..=12 => self.enter(q, s),
            13..=17 => self.leave(s),
            18..=20 => self.pass_through(q, s),
            21 | 22 => self.enter_by_future(s),
            23 | 24 => self.poll(s),
            25..=27 => self.freeze(q),
            28..=31 => self.thaw(),
            32..=34 => self.set(),
            35 | 36 => self.ask(q),
            37 => super::cut(self.chance),
            38 if self.chance.one_in(10) => self.let_go(s),
            39 if self.chance.one_in(40) => self.mark_dying(q),
            40 | 41 => self.enter_any(q, s),
            42 | 43 => self.try_any(q, s),
            44 => self.enter_owned_by_future(s),
            45 => self.begin_freeze(q),
            46 | 47 => self.go_on_freezing(),
            48 => self.give_up_freezing(),
            49 => self.update(q),
            _ => {}
        }
    }

    fn give(&mut self, q: usize, s: usize) {
        if self.seats[s].is_some() {
            return;
        }
        let plain = &mut self.plains[q];
        match self.queues[q].0.tag() {
            Err(EnterError::NoTag) => assert_eq!(plain.waiting, 0),
            Err(other) => panic!("{other}"),
            Ok(tag) => {
                assert!(plain.waiting > 0);
                assert_eq!(tag.queue_id(), self.queues[q].0.id());
                (plain.waiting, plain.out) = (plain.waiting - 1, plain.out + 1);
                self.seats[s] = Some(Seat { queue: q, forgotten: false, seated: Seated::Free(tag) });
            }
        }
    }

    fn give_back(&mut self, q: usize, s: usize) {
        let Some(seat) = self.seats[s].take_if(|seat| is_free(seat) && seat.queue == q && !seat.forgotten) else {
            return;
        };
        drop(seat);
        self.goes_home(q);
    }

    /// Why a tag doesn't enter at once.
    pub fn refusal(&self, q: usize, seat: &Seat<'q>) -> Option<EnterError> {
        let plain = &self.plains[q];
        if seat.queue != q {
            Some(EnterError::OtherQueue)
        } else if seat.forgotten {
            Some(EnterError::StillEntered)
        } else if plain.dying {
            Some(EnterError::Dying)
        } else {
            (plain.depth > 0).then_some(EnterError::Frozen)
        }
    }

    /// A free tag enters, and stays in, with its tag or by a tag that stays where it is for ever.
    fn enter(&mut self, q: usize, s: usize) {
        let Some(seat) = self.seats[s].take_if(is_free) else { return };
        let (why, queue) = (self.refusal(q, &seat), &self.queues[q].0);
        let Seat { queue: home, forgotten, seated: Seated::Free(tag) } = seat else { unreachable!() };
        let seated = if self.chance.one_in(20) && why.is_none() {
            let tag: &'q mut Tag = Box::leak(Box::new(tag));
            Seated::Borrowed(if self.chance.one_in(2) {
                queue.enter(tag).unwrap()
            } else {
                queue.try_enter(tag).unwrap()
            })
        } else if self.chance.one_in(2) && why != Some(EnterError::Frozen) {
            match queue.enter_owned(tag) {
                Ok(request) => Seated::Owned(request),
                Err(HandedBack { value, reason }) => {
                    assert_eq!(Some(reason), why.map(waiting));
                    Seated::Free(value)
                }
            }
        } else {
            match queue.try_enter_owned(tag) {
                Ok(request) => Seated::Owned(request),
                Err(HandedBack { value, reason }) => {
                    assert_eq!(Some(reason), why);
                    Seated::Free(value)
                }
            }
        };
        let entered = !matches!(seated, Seated::Free(_));
        assert_eq!(entered, why.is_none());
        self.plains[q].entered += u32::from(entered);
        self.seats[s] = Some(Seat { queue: home, forgotten, seated });
    }

    /// A request looks at its limits, and leaves. A tag that is borrowed for ever goes with it.
    fn leave(&mut self, s: usize) {
        let start = u64::from(self.chance.below(5000));
        let Some(seat) = &mut self.seats[s] else { return };
        let plain = &mut self.plains[seat.queue];
        let (limits, pieces) = match &mut seat.seated {
            Seated::Owned(r) => (*r.limits(), r.pieces(start, 50).map(Iterator::collect)),
            Seated::Borrowed(r) => (*r.limits(), r.pieces(start, 50).map(Iterator::collect)),
            _ => return,
        };
        let pieces: Vec<Piece> = pieces.unwrap();
        assert_eq!(limits, plain.limits);
        if limits.max < 1000 {
            assert_eq!(pieces, plain::pieces(&limits, start, 50));
        }
        plain.leaves();
        match self.seats[s].take() {
            Some(Seat { queue, forgotten, seated: Seated::Owned(request) }) => {
                self.seats[s] = Some(Seat { queue, forgotten, seated: Seated::Free(request.leave()) });
            }
            other => drop(other),
        }
    }

    /// A free tag enters in one of the ways that borrow it, and leaves at once, or is forgotten.
    fn pass_through(&mut self, q: usize, s: usize) {
        let (how, forgets) = (self.chance.below(4), self.chance.one_in(200));
        let Some(mut seat) = self.seats[s].take_if(is_free) else { return };
        let (why, plain, queue) = (self.refusal(q, &seat), &mut self.plains[q], &self.queues[q].0);
        let Seated::Free(tag) = &mut seat.seated else { unreachable!() };
        let entered = match how {
            0 => agrees(queue.try_enter_frozen(tag), look(why, plain)),
            1 => agrees(queue.try_enter(tag), why),
            2 if why != Some(EnterError::Frozen) => agrees(queue.enter(tag), why.map(waiting)),
            _ => agrees(queue.enter_timeout(tag, Duration::ZERO), why.map(in_time)),
        };
        seat.forgotten |= entered.is_some_and(|request| {
            assert_eq!(*request.limits(), plain.limits);
            plain.entered += 1;
            if forgets {
                mem::forget(request);
            } else {
                drop(request);
                plain.leaves();
            }
            forgets
        });
        self.seats[s] = Some(seat);
    }

    /// A free tag that stays where it is for ever is waited with.
    fn enter_by_future(&mut self, s: usize) {
        if !self.chance.one_in(8) {
            return;
        }
        let Some(Seat { queue, forgotten: false, seated: Seated::Free(tag) }) =
            self.seats[s].take_if(|seat| is_free(seat) && !seat.forgotten)
        else {
            return;
        };
        let entering = Box::pin(self.queues[queue].0.enter_async(Box::leak(Box::new(tag))));
        self.seats[s] = Some(Seat { queue, forgotten: false, seated: Seated::Enters(entering, Arc::default()) });
    }

    fn poll(&mut self, s: usize) {
        let Some(mut seat) = self.seats[s].take() else { return };
        if matches!(seat.seated, Seated::Any(..) | Seated::OwnedEnters(..)) {
            self.poll_owned(s, seat);
            return;
        }
        let why = self.refusal(seat.queue, &seat);
        if let Seated::Enters(entering, woken) = &mut seat.seated {
            *woken = Arc::default();
            let waker = Waker::from(Arc::clone(woken));
            match Pin::new(entering).poll(&mut Context::from_waker(&waker)) {
                Poll::Pending => assert_eq!(why, Some(EnterError::Frozen)),
                Poll::Ready(Err(reason)) => {
                    assert_eq!((reason, why), (EnterError::Dying, Some(EnterError::Dying)));
                    return; // and its tag is gone
                }
                Poll::Ready(Ok(request)) => {
                    assert_eq!(why, None);
                    self.plains[seat.queue].entered += 1;
                    seat.seated = Seated::Borrowed(request);
                }
            }
        }
        self.seats[s] = Some(seat);
    }

    /// Freezes, in one of the ways, and keeps what is frozen or forgets it.
    fn freeze(&mut self, q: usize) {
        let (how, forgets) = (self.chance.below(3), self.chance.one_in(200));
        let (plain, queue) = (&mut self.plains[q], &self.queues[q].0);
        if plain.depth == Queue::MAX_DEPTH {
            assert_eq!(queue.freeze().unwrap_err(), FreezeError::DepthFull);
            return;
        }
        let (before, was_closed) = (plain.depth, plain.is_closed());
        let drained = plain.freezes();
        let frozen = match how {
            0 if drained => agrees(queue.freeze(), None),
            1 => agrees(queue.try_freeze(), (!drained).then_some(FreezeError::NotDrained)),
            _ => agrees(queue.freeze_timeout(Duration::ZERO), (!drained).then_some(FreezeError::TimedOut)),
        };
        match frozen {
            Some(frozen) if forgets => mem::forget(frozen),
            Some(frozen) => self.frozen.push((q, frozen)),
            None => plain.depth = before,
        }
        if !drained && !was_closed {
            self.all_woken(q);
        }
    }

    /// Drops some freeze; the last of a queue wakes each future that waits.
    fn thaw(&mut self) {
        if self.frozen.is_empty() {
            return;
        }
        let which = self.chance.below(u32::try_from(self.frozen.len()).unwrap()) as usize;
        let (q, frozen) = self.frozen.swap_remove(which);
        drop(frozen);
        self.plains[q].depth -= 1;
        if self.plains[q].depth == 0 {
            self.all_woken(q);
        }
    }

    /// Each future that waits at a queue was woken, and its waker let go.
    pub fn all_woken(&self, q: usize) {
        for seat in self.seats.iter().flatten().filter(|seat| seat.queue == q) {
            match &seat.seated {
                Seated::Enters(_, woken) | Seated::OwnedEnters(_, woken) | Seated::Any(_, At::Has, woken) => {
                    assert_eq!(Arc::strong_count(woken), 1);
                }
                _ => {}
            }
        }
    }

    fn mark_dying(&mut self, q: usize) {
        let freeze = self.frozen.iter().position(|(of, _)| *of == q);
        if let Some(which) = freeze.filter(|_| self.chance.one_in(2)) {
            self.frozen.swap_remove(which).1.mark_dying();
            self.plains[q].dying = true;
            self.plains[q].depth -= 1;
        } else {
            self.queues[q].0.mark_dying();
            self.plains[q].dies();
        }
        self.all_woken(q);
        self.all_sent_away(q);
    }

    fn set(&mut self) {
        let mut limits = some_limits(self.chance);
        let same = !self.chance.one_in(3);
        let Some((q, frozen)) = self.frozen.last() else { return };
        let plain = &mut self.plains[*q];
        limits.hardware = if same { plain.limits.hardware } else { limits.hardware };
        let want = match plain::refusal(&limits) {
            Some(why) => Err(UpdateError::Limits(why)),
            None if limits.hardware != plain.limits.hardware => Err(UpdateError::OtherHardware),
            None => Ok(()),
        };
        assert_eq!(frozen.set(limits), want);
        if want.is_ok() {
            plain.limits = plain::kept(limits);
        }
    }

    fn ask(&mut self, q: usize) {
        let (plain, queue) = (&self.plains[q], &self.queues[q].0);
        assert_eq!((queue.depth(), queue.is_drained()), (plain.depth, plain.is_drained()));
        assert_eq!((queue.limits(), queue.is_dying()), (plain.limits, plain.dying));
        let stats = queue.stats();
        assert_eq!((stats.freezes, stats.updates), (plain.begun, plain.updates));
        assert!(stats.longest_drain <= stats.draining);
        assert_eq!((queue.slots(), queue.tags()), (plain.slots, plain.tags));
        if self.chance.one_in(2) { queue.switch_to_atomic() } else { queue.switch_to_slots() }
    }

    /// Drops the tag or request of a seat: a request leaves, and a tag that isn't borrowed for ever goes home.
    fn let_go(&mut self, s: usize) {
        let Some(seat) = self.seats[s].take() else { return };
        if matches!(seat.seated, Seated::Owned(_) | Seated::Borrowed(_)) {
            self.plains[seat.queue].leaves();
        }
        let has_tag = match &seat.seated {
            Seated::Free(_) => !seat.forgotten,
            Seated::Owned(_) | Seated::OwnedEnters(..) | Seated::Any(_, At::Has, _) => true,
            Seated::Borrowed(_) | Seated::Enters(..) | Seated::Any(..) => false,
        };
        let q = seat.queue;
        self.lines[q].retain(|waits| *waits != s);
        drop(seat);
        if has_tag {
            self.goes_home(q);
        }
    }
}

pub fn is_free(seat: &mut Seat<'_>) -> bool {
    matches!(seat.seated, Seated::Free(_))
}

/// The queue is removed, as far as its tags are back and its freezes are thawed.
pub fn end(queue: Arc<Queue>, plain: &Plain) {
    let Some(queue) = Arc::into_inner(queue) else { panic!("each request has left") };
    let live = u64::from(!plain.is_closed()); // it is frozen once more, and drained by that
    let limits: Limits = plain.limits;
    match queue.remove() {
        Ok(last) => {
            let want = Final { kills: plain.kills + live, releases: plain.releases + live, limits, value: () };
            assert_eq!((last, plain.out), (want, 0));
        }
        Err(HandedBack { value, reason }) => {
            // A freeze that was forgotten has a share of the queue for ever.
            let want = if plain.depth > 0 { RemoveError::Shared } else { RemoveError::TagsOut };
            assert!(reason == want && (plain.depth > 0 || plain.out > 0));
            assert_eq!(value.depth(), plain.depth);
        }
    }
}
