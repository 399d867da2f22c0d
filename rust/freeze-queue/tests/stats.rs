//! What a queue says of its own times and waits. Each time lies between the bounds that the test's own looks at the clock give, however long the
//! machine takes. Each wait counts once.
use freeze_queue::{EnterError, Freezing, Limits, OwnedRequest, Queue, Stats};
use std::future::Future;
use std::mem;
use std::pin::Pin;
use std::task::{Context, Poll, Waker};
use std::thread;
use std::time::{Duration, Instant};

mod shared;
use shared::{Chance, LIMITS, number_of, until};

/// A moment within a call: it is neither before the first time nor after the second.
type Moment = (Instant, Instant);

/// The least and the greatest that a time can be.
#[derive(Clone, Copy, Debug, Default)]
struct Span(Duration, Duration);

impl Span {
    fn between(from: Moment, to: Moment) -> Span {
        Span(to.0.saturating_duration_since(from.1), to.1 - from.0)
    }

    fn has(self, time: Duration) -> bool {
        (self.0..=self.1).contains(&time)
    }
}

/// A queue with requests in flight and freezes, and what its statistics have to be.
struct Model<'q> {
    queue: &'q Queue,
    requests: Vec<OwnedRequest>,
    freezes: Vec<Freezing<'q>>,
    /// When the first of the freezes began, or the queue was marked dying.
    closed_at: Option<Moment>,
    is_draining: bool,
    is_dying: bool,
    begun: u64,
    updates: u64,
    abandoned: u64,
    draining: Span,
    longest: Span,
    frozen: Span,
}

/// Makes a call, and returns when.
fn timed<T>(call: impl FnOnce() -> T) -> (T, Moment) {
    let before = Instant::now();
    let done = call();
    (done, (before, Instant::now()))
}

fn plus(sum: &mut Span, more: Span) {
    *sum = Span(sum.0 + more.0, sum.1 + more.1);
}

impl<'q> Model<'q> {
    fn of(queue: &'q Queue) -> Model<'q> {
        let [draining, longest, frozen] = [Span::default(); 3];
        let (requests, freezes) = (vec![], vec![]);
        let [begun, updates, abandoned] = [0; 3];
        let (is_draining, is_dying, closed_at) = (false, false, None);
        Model {
            queue,
            requests,
            freezes,
            closed_at,
            is_draining,
            is_dying,
            begun,
            updates,
            abandoned,
            draining,
            longest,
            frozen,
        }
    }

    fn enter(&mut self) {
        if self.closed_at.is_none() && self.requests.len() < 3 {
            self.requests.push(self.queue.enter_any().unwrap());
        }
    }

    /// The last request to leave drains a queue that is frozen or dying.
    fn leave(&mut self) {
        let Some(request) = self.requests.pop() else { return };
        let ((), left) = timed(|| drop(request));
        if let (true, true, Some(from)) = (self.requests.is_empty(), self.is_draining, self.closed_at) {
            self.is_draining = false;
            (self.draining, self.longest) = self.with_drain(Span::between(from, left));
        }
    }

    /// The time of all drains and of the longest, with one more.
    fn with_drain(&self, took: Span) -> (Span, Span) {
        let mut draining = self.draining;
        plus(&mut draining, took);
        (draining, Span(self.longest.0.max(took.0), self.longest.1.max(took.1)))
    }

    /// A first freeze, or the mark of a dying queue, begins at this moment.
    fn begins(&mut self, at: Moment) {
        if self.closed_at.is_none() {
            self.closed_at = Some(at);
            self.is_draining = !self.requests.is_empty();
        }
    }

    fn freeze(&mut self) {
        let (freezing, at) = timed(|| self.queue.begin_freeze().unwrap());
        self.freezes.push(freezing);
        self.begun += 1;
        self.begins(at);
    }

    /// Whether it was drained or not.
    fn thaw(&mut self) {
        let Some(freezing) = self.freezes.pop() else { return };
        let ((), at) = timed(|| drop(freezing));
        if self.freezes.is_empty() && !self.is_dying {
            let took = Span::between(self.closed_at.take().unwrap(), at);
            plus(&mut self.frozen, took);
            if std::mem::take(&mut self.is_draining) {
                self.abandoned += 1;
                (self.draining, self.longest) = self.with_drain(took);
            }
        }
    }

    /// An update of a live queue that is idle freezes it within the call.
    fn update(&mut self) {
        if self.closed_at.is_none() && self.requests.is_empty() {
            let (set, at) = timed(|| self.queue.update(|limits| limits.with_max(limits.max % 64 + 1)));
            set.unwrap();
            plus(&mut self.frozen, Span::between(at, at));
            (self.begun, self.updates) = (self.begun + 1, self.updates + 1);
        }
    }

    fn dies(&mut self) {
        let ((), at) = timed(|| self.queue.mark_dying());
        self.is_dying = true;
        if let Some(from) = self.closed_at {
            plus(&mut self.frozen, Span::between(from, at));
        }
        self.begins(at);
    }

    fn looks(&self) {
        let (stats, now): (Stats, Moment) = timed(|| self.queue.stats());
        let counts = (stats.freezes, stats.updates, stats.waited, stats.timed_out, stats.abandoned);
        assert_eq!(counts, (self.begun, self.updates, 0, 0, self.abandoned));
        assert_eq!(stats.free_tags, 4 - self.requests.len() as u64);
        let goes_on = self.closed_at.map(|from| Span::between(from, now)).unwrap_or_default();
        let (draining, longest) =
            if self.is_draining { self.with_drain(goes_on) } else { (self.draining, self.longest) };
        let mut frozen = self.frozen;
        if !self.is_dying {
            plus(&mut frozen, goes_on);
        }
        assert!(draining.has(stats.draining), "draining is {:?}, and not {draining:?}", stats.draining);
        assert!(longest.has(stats.longest_drain), "{:?}, and not {longest:?}", stats.longest_drain);
        assert!(frozen.has(stats.frozen), "frozen is {:?}, and not {frozen:?}", stats.frozen);
        let since = self.closed_at.map(|(before, after)| before..=after);
        assert_eq!(stats.frozen_since.is_some(), since.is_some());
        assert!(since.zip(stats.frozen_since).is_none_or(|(span, since)| span.contains(&since)), "frozen since then");
    }

    fn step(&mut self, chance: &mut Chance) {
        match chance.below(9) {
            0..=2 => self.enter(),
            3 | 4 => self.leave(),
            5 => self.freeze(),
            6 | 7 => self.thaw(),
            _ => self.update(),
        }
        self.looks();
        thread::sleep(Duration::from_micros(200 * u64::from(chance.below(10))));
    }
}

/// Requests, freezes, drains and thaws in random order, and then the queue dies. `FREEZE_QUEUE_SEED` is the first seed.
#[test]
fn times() {
    let first = number_of("FREEZE_QUEUE_SEED", 1);
    let lives = (first..first + 12).map(|seed| {
        thread::spawn(move || {
            let (queue, mut chance) = (Queue::builder(LIMITS).slots(2).tags(4).build().unwrap(), Chance(seed));
            let mut model = Model::of(&queue);
            (0..300).for_each(|_| model.step(&mut chance));
            model.dies();
            (0..20).for_each(|_| model.step(&mut chance));
            (model.longest.1 > Duration::ZERO, model.frozen.1 > Duration::ZERO)
        })
    });
    for life in lives.collect::<Vec<_>>() {
        assert_eq!(life.join().unwrap(), (true, true), "it drained, and was frozen");
    }
}

type Enters<'q, T> = Pin<Box<dyn Future<Output = T> + 'q>>;

/// Polls this often a future that waits.
fn poll_often<T>(future: &mut Enters<'_, T>, polls: u32) {
    for _ in 0..polls {
        assert!(future.as_mut().poll(&mut Context::from_waker(Waker::noop())).is_pending());
    }
}

fn done<T>(mut future: Enters<'_, T>) -> T {
    match future.as_mut().poll(&mut Context::from_waker(Waker::noop())) {
        Poll::Ready(done) => done,
        Poll::Pending => panic!("it waits"),
    }
}

fn queue() -> Queue {
    Queue::builder(Limits::of_hardware(8)).slots(1).tags(2).reserved(1).build().unwrap()
}

/// A future that waits for a thaw counts once, however often it is polled; so does the next one with its tag, whether the first entered or
/// was dropped.
#[test]
fn waits_of_tasks_for_a_thaw() {
    let queue = queue();
    let (mut tag, mut waited) = (queue.tag().unwrap(), 0);
    for polls in 1..=20 {
        for is_cancelled in [false, true] {
            let frozen = queue.freeze().unwrap();
            let mut borrows: Enters<'_, _> = Box::pin(queue.enter_async(&mut tag));
            let mut any: Enters<'_, _> = Box::pin(queue.enter_any_async());
            poll_often(&mut borrows, polls);
            poll_often(&mut any, polls);
            waited += 2;
            assert_eq!(queue.stats().waited, waited);
            drop(frozen);
            if !is_cancelled {
                drop((done(borrows).unwrap(), done(any).unwrap()));
            }
            assert_eq!(queue.stats().waited, waited);
        }
        let frozen = queue.freeze().unwrap();
        let mut owns: Enters<'_, _> = Box::pin(queue.enter_owned_async(tag));
        poll_often(&mut owns, polls);
        waited += 1;
        drop(frozen);
        tag = done(owns).unwrap().leave();
        assert_eq!(queue.stats().waited, waited);
    }
}

/// A future that waits for a tag and then for a thaw counts twice; one that waits for its turn to update counts once, and the one that has the
/// turn, and waits for the drain, doesn't.
#[test]
fn waits_of_tasks_for_more() {
    let (queue, mut waited) = (queue(), 0);
    for polls in 1..=20 {
        let request = queue.enter_any().unwrap();
        let mut any: Enters<'_, _> = Box::pin(queue.enter_any_owned_async());
        poll_often(&mut any, polls);
        assert_eq!(queue.stats().waited, waited + 1);
        let freezing = queue.begin_freeze().unwrap();
        drop(request);
        poll_often(&mut any, polls);
        assert_eq!(queue.stats().waited, waited + 2);
        drop(freezing);
        let request = done(any).unwrap();
        let mut first: Enters<'_, _> = Box::pin(queue.update_async(|limits| limits));
        let mut second: Enters<'_, _> = Box::pin(queue.update_async(|limits| limits));
        poll_often(&mut first, polls);
        poll_often(&mut second, polls);
        drop(request);
        assert_eq!((done(first), done(second)), (Ok(queue.limits()), Ok(queue.limits())));
        waited += 3;
        assert_eq!(queue.stats().waited, waited);
    }
}

/// The same of threads. A call that is refused at once, or enters at once, doesn't wait.
#[test]
fn waits_of_threads() {
    let queue = queue();
    let mut tag = queue.tag().unwrap();
    for round in 0..5_u64 {
        let waited = |more| queue.stats().waited == 4 * round + more;
        let request = queue.enter_any().unwrap();
        drop(queue.enter(&mut tag).unwrap());
        drop(queue.enter_timeout(&mut tag, Duration::MAX).unwrap());
        assert_eq!(queue.try_enter_any().unwrap_err(), EnterError::NoTag);
        assert!(waited(0));
        thread::scope(|threads| {
            let any = threads.spawn(|| drop(queue.enter_any().unwrap()));
            until("it waits for a tag", || waited(1));
            let freezing = queue.begin_freeze().unwrap();
            drop(request);
            until("it waits for the thaw", || waited(2));
            assert_eq!(queue.try_enter(&mut tag).unwrap_err(), EnterError::Frozen);
            let late = queue.enter_timeout(&mut tag, Duration::from_millis(1));
            assert_eq!(late.unwrap_err(), EnterError::TimedOut);
            assert!(waited(3));
            assert_eq!(queue.stats().timed_out, 3 * round + 1);
            let freezing = freezing.wait_timeout(Duration::ZERO).unwrap();
            drop(freezing);
            any.join().unwrap();
            let request = queue.enter_any().unwrap();
            let first = threads.spawn(|| queue.update(|limits| limits).unwrap());
            until("it has its turn", || queue.depth() == 1);
            assert!(queue.update_timeout(Duration::from_millis(1), |limits| limits).is_err());
            assert!(waited(4));
            assert_eq!(queue.stats().timed_out, 3 * round + 2);
            drop(queue.begin_freeze().unwrap().wait_timeout(Duration::from_millis(1)).unwrap_err());
            assert_eq!(queue.stats().timed_out, 3 * round + 3);
            drop(request);
            first.join().unwrap();
        });
    }
}

/// A future that is forgotten while it waits counts, and so does the next one with its tag.
#[test]
fn waits_of_forgotten_tasks() {
    let (queue, context) = (queue(), &mut Context::from_waker(Waker::noop()));
    let mut tag = queue.tag().unwrap();
    for waited in 1..=5 {
        let frozen = queue.freeze().unwrap();
        let mut entering = Box::pin(queue.enter_async(&mut tag));
        assert!(entering.as_mut().poll(context).is_pending());
        assert!(entering.as_mut().poll(context).is_pending());
        mem::forget(entering);
        drop(frozen);
        drop(queue.enter(&mut tag).unwrap());
        assert_eq!(queue.stats().waited, waited);
    }
}
