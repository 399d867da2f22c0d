//! The requests in flight that a queue which is watched lists: each form of a request, until it leaves, and no other.
use freeze_queue::{FreezeError, InFlight, Limits, Queue};
use std::future::Future;
use std::mem;
use std::pin::pin;
use std::sync::Arc;
use std::sync::atomic::{AtomicBool, AtomicUsize, Ordering};
use std::sync::mpsc;
use std::task::{Context, Poll, Wake, Waker};
use std::thread;
use std::time::{Duration, Instant};

mod shared;
use shared::{LIMITS, ends, number_of, until};

fn watched(tags: u32) -> Queue {
    let queue = Queue::builder(LIMITS).slots(4).tags(tags).build().unwrap();
    queue.watch(true);
    queue
}

fn listed(queue: &Queue) -> Vec<InFlight> {
    queue.in_flight().collect()
}

/// The one request that is in flight.
fn only(queue: &Queue) -> InFlight {
    let all = listed(queue);
    assert_eq!(all.len(), 1, "{all:?}");
    all[0]
}

#[test]
fn a_request_is_listed_from_entering_to_leaving() {
    let (queue, before) = (watched(2), Instant::now());
    let (_idle, mut tag) = (queue.tag().unwrap(), queue.tag().unwrap());
    assert_eq!(listed(&queue), [], "a tag that a caller keeps is not in flight");
    let request = queue.enter(&mut tag).unwrap();
    let noted = only(&queue);
    assert_eq!((noted.tag, noted.thread), (request.tag_number(), thread::current().id()));
    assert!((before..=Instant::now()).contains(&noted.since));
    drop(request);
    assert_eq!(listed(&queue), []);
}

#[test]
fn each_form_is_listed() {
    let queue = watched(1);
    let mut tag = queue.tag().unwrap();
    let mut seen = 0;
    let mut is_listed = || {
        seen += 1;
        only(&queue);
    };
    drop(queue.try_enter(&mut tag).map(|it| (is_listed(), it)).unwrap());
    drop(queue.enter_timeout(&mut tag, Duration::ZERO).map(|it| (is_listed(), it)).unwrap());
    drop(queue.try_enter_frozen(&mut tag).map(|it| (is_listed(), it)).unwrap());
    {
        let polled = pin!(queue.enter_async(&mut tag)).poll(&mut Context::from_waker(Waker::noop()));
        let Poll::Ready(Ok(_request)) = polled else { panic!("it is live") };
        is_listed();
    }
    assert_eq!(listed(&queue), []);
    let request = queue.enter_owned(tag).unwrap();
    is_listed();
    let tag = request.leave();
    assert_eq!(listed(&queue), []);
    drop(tag);
    let request = queue.enter_any().unwrap();
    is_listed();
    thread::spawn(move || drop(request)).join().unwrap();
    assert_eq!((listed(&queue), seen), (vec![], 6));
}

/// Each listed request is found by the number of its tag, whichever holds the tag. No number changes, and no two tags have one.
#[test]
fn a_tag_has_its_number() {
    let queue = watched(3);
    let (mut kept, owned) = (queue.tag().unwrap(), queue.tag().unwrap());
    let numbers = [kept.number(), owned.number()];
    let (borrowing, owning, any) =
        (queue.enter(&mut kept).unwrap(), queue.enter_owned(owned).unwrap(), queue.enter_any().unwrap());
    assert_eq!([borrowing.tag_number(), owning.tag_number()], numbers);
    let mut all = [numbers[0], numbers[1], any.tag_number()];
    all.sort_unstable();
    assert_eq!(all, [0, 1, 2]);
    drop((borrowing, any));
    assert_eq!((kept.number(), owning.leave().number()), (numbers[0], numbers[1]));
    drop(kept);
    let again: Vec<_> = (0..3).map(|_| queue.tag().unwrap()).collect();
    assert!((0..3).all(|number| again.iter().any(|tag| tag.number() == number)));
}

/// The list shows by which request a freeze hangs.
#[test]
fn a_freeze_that_hangs_is_explained() {
    ends(|| {
        let queue = &watched(3);
        thread::scope(|threads| {
            let (held, end) = mpsc::channel::<()>();
            let slow = threads.spawn(move || {
                let request = queue.enter_any().unwrap();
                let _ended = end.recv();
                drop(request);
            });
            until("it is in flight", || queue.in_flight().count() == 1);
            drop(queue.enter_any().unwrap());
            assert_eq!(queue.freeze_timeout(Duration::from_millis(1)).unwrap_err(), FreezeError::TimedOut);
            let noted = only(queue);
            assert_eq!(noted.thread, slow.thread().id());
            assert!(noted.since.elapsed() >= Duration::from_millis(1));
            drop(held);
        });
        drop(queue.freeze().unwrap());
        assert_eq!(listed(queue), []);
    });
}

/// The watch begins and ends while threads enter and leave: under a freeze the list is empty.
#[test]
fn a_watch_is_switched_under_load() {
    ends(|| {
        let (queue, over) = (Queue::builder(LIMITS).slots(2).tags(3).build().unwrap(), AtomicBool::new(false));
        thread::scope(|threads| {
            for _ in 0..2 {
                threads.spawn(|| {
                    let mut tag = queue.tag().unwrap();
                    while !over.load(Ordering::Relaxed) {
                        let request = queue.enter(&mut tag).unwrap();
                        drop(request);
                        drop(queue.enter_any().unwrap());
                    }
                });
            }
            let is_empty = (0..number_of("FREEZE_QUEUE_ROUNDS", 2_000).min(2_000)).all(|round| {
                queue.watch(round % 2 == 0);
                let _frozen = queue.freeze().unwrap();
                queue.in_flight().count() == 0
            });
            over.store(true, Ordering::Relaxed);
            assert!(is_empty, "no request is in flight under a freeze");
        });
        queue.remove().unwrap();
    });
}

/// A request that entered before the watch began or after it ended is not listed; one that entered meanwhile is, until it leaves.
#[test]
fn a_watch_begins_and_ends() {
    let queue = Queue::builder(LIMITS).slots(1).tags(3).build().unwrap();
    let before = queue.enter_any().unwrap();
    queue.watch(true);
    let meanwhile = queue.enter_any().unwrap();
    let noted = only(&queue);
    queue.watch(false);
    let after = queue.enter_any().unwrap();
    assert_eq!(only(&queue), noted);
    drop((before, after));
    assert_eq!(only(&queue), noted);
    drop(meanwhile);
    assert_eq!(listed(&queue), []);
}

/// One that was forgotten holds each freeze up for ever, and is listed as long.
#[test]
fn a_forgotten_request_is_listed() {
    let queue = watched(2);
    mem::forget(queue.enter_any().unwrap());
    drop(queue.enter_any().unwrap());
    let noted = only(&queue);
    assert!(queue.freeze_timeout(Duration::ZERO).is_err());
    assert_eq!(only(&queue), noted);
}

/// A queue that is made after others ended lists nothing of theirs.
#[test]
fn the_next_queue_lists_its_own() {
    for _ in 0..10 {
        let queue = Queue::builder(Limits::of_hardware(8)).slots(1).tags(1_023).build().unwrap();
        assert_eq!(listed(&queue), []);
        queue.watch(true);
        let all: Vec<_> = (0..1_023).map(|_| queue.enter_any().unwrap()).collect();
        let mut tags: Vec<usize> = queue.in_flight().map(|it| it.tag).collect();
        tags.sort_unstable();
        assert_eq!(tags, (0..1_023).collect::<Vec<_>>());
        drop(all);
        queue.remove().unwrap();
    }
}

/// A watch begins between two requests of a tag that is biased: the next one is listed, by each form of a future.
#[test]
fn a_future_of_a_biased_tag_is_listed() {
    let queue = Queue::builder(LIMITS).slots(1).tags(1).build().unwrap();
    let context = &mut Context::from_waker(Waker::noop());
    for form in 0..6 {
        queue.watch(false);
        until("the tag is biased", || {
            drop(queue.enter_any().unwrap());
            queue.stats().biased == 1
        });
        queue.watch(true);
        match form % 3 {
            0 => {
                let mut tag = queue.tag().unwrap();
                let Poll::Ready(Ok(_request)) = pin!(queue.enter_async(&mut tag)).poll(context) else { panic!() };
                only(&queue);
            }
            1 => {
                let entering = pin!(queue.enter_owned_async(queue.tag().unwrap()));
                let Poll::Ready(Ok(_request)) = entering.poll(context) else { panic!("it is live") };
                only(&queue);
            }
            _ => {
                let Poll::Ready(Ok(_request)) = pin!(queue.enter_any_async()).poll(context) else { panic!() };
                only(&queue);
            }
        }
        assert_eq!(listed(&queue), []);
    }
}

/// Counts the requests that are listed as it is woken.
struct Counts(Arc<Queue>, AtomicUsize);

impl Wake for Counts {
    fn wake(self: Arc<Self>) {
        self.1.store(listed(&self.0).len(), Ordering::SeqCst);
    }
}

/// Whoever is woken by the drain doesn't find the request that left last.
#[test]
fn a_request_that_left_is_not_listed_at_the_drain() {
    let queue = Arc::new(watched(1));
    for _ in 0..3 {
        let request = queue.enter_any().unwrap();
        let counts = Arc::new(Counts(Arc::clone(&queue), AtomicUsize::new(9)));
        let mut drained = Box::pin(queue.begin_freeze().unwrap().drained());
        assert!(drained.as_mut().poll(&mut Context::from_waker(&Waker::from(Arc::clone(&counts)))).is_pending());
        drop(request);
        assert_eq!(counts.1.load(Ordering::SeqCst), 0);
        drop(drained);
    }
}
