//! Biased tags: a request enters by a store and a load, and a freeze takes the bias of a tag wherever its owner is.
use freeze_queue::{EnterError, FreezeError, Limits, Queue, Tag};
use std::future::Future;
use std::mem;
use std::pin::pin;
use std::sync::Arc;
use std::sync::atomic::{AtomicBool, AtomicU32, AtomicU64, Ordering};
use std::sync::mpsc;
use std::task::{Context, Poll, Waker};
use std::thread;
use std::time::Duration;

mod shared;
use shared::{LIMITS, Woken, ends, queue, until};

/// Requests until the tag is biased, of a queue that has no other such tag: by its first one, unless a change was a moment ago.
fn biased(queue: &Queue, tag: &mut Tag) {
    until("the tag is biased", || {
        drop(queue.enter(tag).unwrap());
        queue.stats().biased == 1
    });
}

fn max_of(queue: &Queue, tag: &mut Tag) -> u32 {
    queue.enter(tag).unwrap().limits().max
}

#[test]
fn a_tag_is_biased_from_its_first_request_to_a_freeze() {
    let queue = queue(2, 2);
    let (mut tag, mut other) = (queue.tag().unwrap(), queue.tag().unwrap());
    assert_eq!(queue.stats().biased, 0);
    for _ in 0..3 {
        drop(queue.enter(&mut tag).unwrap());
        assert_eq!(queue.stats().biased, 1);
    }
    drop(queue.enter(&mut other).unwrap());
    assert_eq!(queue.stats().biased, 2);
    let frozen = queue.try_freeze().unwrap();
    assert_eq!(queue.stats().biased, 0);
    assert_eq!(queue.try_enter(&mut tag).unwrap_err(), EnterError::Frozen);
    drop(frozen);
    biased(&queue, &mut tag);
    drop((tag, other));
    let left = queue.remove().unwrap();
    assert_eq!((left.kills, left.releases), (2, 2), "one release for each drain");
}

/// Limits in which any two of these values come together: of the hardware, the largest request, the chunk and the physical block. The numbers
/// of values have no common divisor, so 112 limits are enough.
fn limits_of_each_kind() -> impl Iterator<Item = Limits> {
    (0..112_u32).map(|kind| {
        let hardware: u32 = [1, 8, 9, 1_024, 65_535][kind as usize % 5];
        let max = [hardware, hardware.div_ceil(2), 1][kind as usize % 3];
        let chunk = [0, 1, 4, 8, 100, 4_096, 65_535][kind as usize % 7];
        Limits::of_hardware(hardware).with_max(max).with_chunk(chunk).with_physical(1 << (kind % 16))
    })
}

/// Under any limits a tag on any slot is biased by its first request, and some time after a change to them.
#[test]
fn a_tag_of_any_device_is_biased() {
    for (limits, slots) in limits_of_each_kind().zip([1, 2, 3, 64, 512].into_iter().cycle()) {
        let made = Queue::builder(limits).slots(slots).tags(5).build().unwrap();
        let changed = Queue::builder(Limits::of_hardware(limits.hardware)).slots(slots).tags(5).build().unwrap();
        let tags: Vec<Tag> = (0..5).map(|_| made.tag().unwrap()).collect();
        for (mut tag, biased) in tags.into_iter().zip(1..) {
            drop(made.enter(&mut tag).unwrap());
            assert_eq!(made.stats().biased, biased, "{limits:?}, {slots} slots");
        }
        changed.update(|_| limits).unwrap();
        biased(&changed, &mut changed.tag().unwrap());
    }
}

/// Tags that a freeze finds in with their first requests, on any slots, aren't biased once these have left.
#[test]
fn a_request_that_a_freeze_finds_leaves_no_bias() {
    for (tags, slots) in [(1, 1), (2, 2), (3, 2), (3, 64), (65, 64), (1_023, 512)] {
        let queue = queue(slots, tags);
        let mut all: Vec<Tag> = (0..tags).map(|_| queue.tag().unwrap()).collect();
        let requests: Vec<_> = all.iter_mut().map(|tag| queue.enter(tag).unwrap()).collect();
        let freezing = queue.begin_freeze().unwrap();
        drop(requests);
        assert_eq!((queue.stats().biased, freezing.is_drained()), (0, true), "{tags} tags on {slots} slots");
    }
}

/// A freeze takes the bias of every idle tag, the last of the most tags too: the queue is drained at once, and a thread that sleeps
/// with its tag isn't waited for.
#[test]
fn a_freeze_takes_each_bias() {
    ends(|| {
        for tags in [1, 2, 65, 1_023] {
            let queue = queue(1, tags);
            let mut all: Vec<Tag> = (0..tags).map(|_| queue.tag().unwrap()).collect();
            for (tag, biased) in all.iter_mut().zip(1..) {
                until("the tag is biased too", || {
                    drop(queue.enter(tag).unwrap());
                    queue.stats().biased == biased
                });
            }
            for _ in 0..2 {
                drop(queue.try_freeze().expect("a drained queue"));
                assert_eq!(queue.stats().biased, 0, "{tags} tags");
            }
        }
    });
}

/// A tag whose owner stays away is counted once, by the freeze that takes its bias. Each later freeze still takes the bias of another.
#[test]
fn a_tag_that_stays_away_is_counted_once() {
    ends(|| {
        let queue = queue(1, 2);
        let (mut away, mut other) = (queue.tag().unwrap(), queue.tag().unwrap());
        biased(&queue, &mut away);
        for biased in [2, 1, 1, 1] {
            until("the tag is biased", || {
                drop(queue.enter(&mut other).unwrap());
                queue.stats().biased == biased
            });
            drop(queue.try_freeze().expect("a drained queue"));
            assert_eq!(queue.stats().biased, 0);
        }
    });
}

/// The limits are those in force, by whichever way the request enters: each change is seen by the first request after it.
#[test]
fn a_request_after_a_change_has_its_limits() {
    let (queue, mut tag) = shared::with_tag();
    for max in 1..=32 {
        biased(&queue, &mut tag);
        queue.update(|limits| limits.with_max(max)).unwrap();
        assert_eq!((max_of(&queue, &mut tag), max_of(&queue, &mut tag)), (max, max));
    }
}

/// A thread sleeps with an idle tag, another is gone and its tag was forgotten, a third tag is home: no freeze waits for any of them.
#[test]
fn a_biased_tag_at_rest_holds_up_no_freeze() {
    ends(|| {
        let queue = queue(4, 4);
        thread::scope(|threads| {
            let ((wakes, sleeps), (rests, is_at_rest)) = (mpsc::channel::<()>(), mpsc::channel());
            let (mut kept, mut lost) = (queue.tag().unwrap(), queue.tag().unwrap());
            let queue = &queue;
            threads.spawn(move || {
                drop(queue.enter(&mut kept).unwrap());
                rests.send(()).unwrap();
                let _ended = sleeps.recv();
                assert_eq!(max_of(queue, &mut kept), 1);
            });
            let gone = threads.spawn(move || {
                drop(queue.enter(&mut lost).unwrap());
                mem::forget(lost);
            });
            drop(queue.enter_any().unwrap());
            gone.join().unwrap();
            is_at_rest.recv().unwrap();
            assert_eq!(queue.stats().biased, 3);
            queue.try_freeze().unwrap().set(LIMITS.with_max(1)).unwrap();
            drop(wakes);
        });
    });
}

/// A request that is in holds up a freeze, which its leaving wakes: a thread, a task, and a freeze that was given up meanwhile.
#[test]
fn a_biased_request_holds_up_a_freeze() {
    ends(|| {
        let (queue, mut tag) = shared::with_tag();
        for _ in 0..100 {
            biased(&queue, &mut tag);
            let request = queue.enter(&mut tag).unwrap();
            assert_eq!(queue.try_freeze().unwrap_err(), FreezeError::NotDrained);
            drop(queue.begin_freeze().unwrap()); // given up
            assert_eq!(queue.freeze_timeout(Duration::from_micros(1)).unwrap_err(), FreezeError::TimedOut);
            let woken = Arc::new(Woken::default());
            let mut freezes = pin!(queue.freeze_async());
            let waker = Waker::from(Arc::clone(&woken));
            assert!(freezes.as_mut().poll(&mut Context::from_waker(&waker)).is_pending());
            thread::scope(|threads| {
                let waits = threads.spawn(|| drop(queue.freeze().unwrap()));
                until("both freeze", || queue.depth() == 2);
                assert!(!queue.is_drained());
                drop(request);
                waits.join().unwrap();
            });
            assert_eq!(woken.times(), 1);
            let Poll::Ready(frozen) = freezes.poll(&mut Context::from_waker(Waker::noop())) else {
                panic!("it is drained")
            };
            drop(frozen.unwrap());
        }
    });
}

/// A request goes on over a freeze that was given up, and so over the end of its bias: it leaves once, and its tag is biased again.
#[test]
fn a_request_goes_on_over_a_freeze_that_is_given_up() {
    let (queue, mut tag) = shared::with_tag();
    biased(&queue, &mut tag);
    let request = queue.enter(&mut tag).unwrap();
    drop(queue.begin_freeze().unwrap());
    assert_eq!(*request.limits(), LIMITS);
    drop(request);
    assert_eq!(queue.stats().biased, 0, "its bias was of before the freeze");
    biased(&queue, &mut tag);
    drop(queue.begin_freeze().unwrap());
    drop(queue.enter(&mut tag).unwrap());
    drop(tag);
    let left = queue.remove().unwrap();
    assert_eq!((left.kills, left.releases), (3, 2), "the first freeze never drained");
}

#[test]
fn a_queue_of_biased_tags_is_removed() {
    let queue = queue(3, 3);
    let mut tags: Vec<_> = (0..3).map(|_| queue.tag().unwrap()).collect();
    for tag in &mut tags {
        drop(queue.enter(tag).unwrap());
    }
    drop(tags);
    assert_eq!(queue.stats().biased, 3, "a tag that is home keeps its bias");
    let left = queue.remove().unwrap();
    assert_eq!((left.kills, left.releases), (1, 1));
}

/// A tag under a request that was forgotten is out for ever, and keeps the queue from draining; a queue that is dropped is no matter.
#[test]
fn a_forgotten_biased_request_is_in_for_ever() {
    let (queue, mut tag) = shared::with_tag();
    biased(&queue, &mut tag);
    mem::forget(queue.enter(&mut tag).unwrap());
    assert_eq!(queue.try_enter(&mut tag).unwrap_err(), EnterError::StillEntered);
    drop(tag);
    assert_eq!(queue.try_freeze().unwrap_err(), FreezeError::NotDrained);
    assert_eq!(queue.tag().map(|tag| tag.number()).unwrap(), 1);
    assert_eq!(queue.try_freeze().unwrap_err(), FreezeError::NotDrained);
}

/// A look in ends the bias, and holds up the drain itself; a drained queue refuses it.
#[test]
fn a_look_ends_the_bias() {
    let (queue, mut tag) = shared::with_tag();
    biased(&queue, &mut tag);
    let looks = queue.try_enter_frozen(&mut tag).unwrap();
    assert_eq!(queue.stats().biased, 0);
    let freezing = queue.begin_freeze().unwrap();
    assert!(!freezing.is_drained());
    drop(looks);
    assert!(freezing.is_drained());
    drop(freezing);
    biased(&queue, &mut tag);
    let frozen = queue.freeze().unwrap();
    assert_eq!(queue.try_enter_frozen(&mut tag).unwrap_err(), EnterError::Drained);
    assert!(queue.is_drained());
    drop(frozen);
}

/// A request of a queue that is watched is listed from entering to leaving, whether its tag had a bias or not.
#[test]
fn a_watch_ends_the_bias() {
    let (queue, mut tag) = shared::with_tag();
    biased(&queue, &mut tag);
    let unseen = queue.enter(&mut tag).unwrap();
    queue.watch(true);
    drop(unseen);
    for _ in 0..2 {
        let seen = queue.enter(&mut tag).unwrap();
        assert_eq!((queue.in_flight().count(), queue.stats().biased), (1, 0));
        drop(seen);
        assert_eq!(queue.in_flight().count(), 0);
    }
    queue.watch(false);
    biased(&queue, &mut tag);
    assert_eq!(queue.in_flight().count(), 0);
}

#[test]
fn any_tag_keeps_its_bias_at_home() {
    let queue = queue(2, 1);
    until("it is biased", || {
        drop(queue.enter_any().unwrap());
        queue.stats().biased == 1
    });
    let request = thread::scope(|threads| threads.spawn(|| queue.enter_any().unwrap()).join().unwrap());
    assert_eq!((queue.stats().biased, queue.try_freeze().unwrap_err()), (1, FreezeError::NotDrained));
    drop(request);
    drop(queue.try_freeze().unwrap());
}

/// Whoever has a bias and is refused drains nothing, and holds up nothing.
#[test]
fn a_try_in_vain_leaves_the_queue_drained() {
    ends(|| {
        let (queue, mut tag) = shared::with_tag();
        for max in 1..=64 {
            biased(&queue, &mut tag);
            let frozen = queue.freeze().unwrap();
            assert_eq!(queue.try_enter(&mut tag).unwrap_err(), EnterError::Frozen);
            frozen.set(Limits::of_hardware(64).with_max(max)).unwrap();
        }
    });
}

/// Threads try in vain, again and again, beside changes that wait for each drain: each set finds the queue drained, and no freezer sleeps on.
#[test]
fn tries_in_vain_beside_changes() {
    ends(|| {
        let (queue, over) = (queue(3, 3), AtomicBool::new(false));
        queue.update(|limits| limits.with_max(1).with_chunk(1)).unwrap();
        thread::scope(|threads| {
            for _ in 0..2 {
                threads.spawn(|| {
                    let mut tag = queue.tag().unwrap();
                    while !over.load(Ordering::SeqCst) {
                        if let Ok(request) = queue.try_enter(&mut tag) {
                            assert_eq!(request.limits().max, request.limits().chunk);
                        }
                    }
                });
            }
            for change in 0..shared::number_of("FREEZE_QUEUE_ROUNDS", 20_000) {
                let max = 1 + u32::try_from(change).unwrap() % 64;
                queue.update(|limits| limits.with_max(max).with_chunk(max)).unwrap();
                if change % 64 == 0 {
                    thread::sleep(Duration::from_micros(50)); // so that tags are biased again
                }
            }
            over.store(true, Ordering::SeqCst);
        });
    });
}

/// Four threads send without a pause. Each freeze drains all the same, and no request sees two settings.
#[test]
fn a_drain_ends_while_four_threads_never_idle() {
    const CHANGES: u32 = 300;
    ends(|| {
        let (queue, done, begun) = (queue(4, 4), AtomicBool::new(false), AtomicU32::new(0));
        let sent = AtomicU64::new(0);
        thread::scope(|threads| {
            for _ in 0..4 {
                threads.spawn(|| {
                    let mut tag = queue.tag().unwrap();
                    begun.fetch_add(1, Ordering::SeqCst);
                    while !done.load(Ordering::SeqCst) {
                        let request = queue.enter(&mut tag).unwrap();
                        assert_eq!(*request.limits(), queue.limits(), "none can be set while a request is in");
                        sent.fetch_add(1, Ordering::Relaxed);
                    }
                });
            }
            until("all are busy", || begun.load(Ordering::SeqCst) == 4);
            for change in 0..CHANGES {
                let frozen = queue.freeze().unwrap();
                assert!(queue.is_drained());
                frozen.set(LIMITS.with_max(1 + change % 64)).unwrap();
            }
            done.store(true, Ordering::SeqCst);
        });
        assert!(sent.load(Ordering::Relaxed) > 0);
        assert_eq!((queue.depth(), queue.limits().max), (0, 1 + (CHANGES - 1) % 64));
        let left = queue.remove().unwrap();
        assert_eq!(left.kills, u64::from(CHANGES) + 1);
        assert_eq!(left.releases, left.kills, "one release for each drain");
    });
}

/// A queue that changes all the time has no biases in the end: few of its changes find one to take.
#[test]
fn a_queue_that_changes_all_the_time_has_no_biases() {
    let (queue, mut tag) = shared::with_tag();
    let mut taken = 0;
    for change in 0..4_000 {
        drop(queue.enter(&mut tag).unwrap());
        taken += queue.stats().biased;
        queue.update(|limits| limits.with_max(1 + change % 64)).unwrap();
    }
    assert!((1..1_000).contains(&taken), "{taken} of 4000 changes took a bias");
}
