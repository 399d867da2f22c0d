//! Updates of the limits, of several threads and tasks, and beside freezes that set limits: none is lost.
use freeze_queue::{Limits, LimitsError, Queue, UpdateError};
use std::future::Future;
use std::hint;
use std::panic::{AssertUnwindSafe, catch_unwind};
use std::pin::pin;
use std::sync::atomic::{AtomicBool, Ordering::Relaxed};
use std::task::{Context, Poll, Waker};
use std::thread;
use std::time::Duration;

mod shared;
use shared::{block_on, ends, number_of, on_another_thread, until};

const THREADS: u32 = 4;

const LIMITS: Limits = Limits::of_hardware(60_000).with_max(1);

fn queue() -> Queue {
    Queue::builder(LIMITS).slots(1).tags(1).build().unwrap()
}

/// One more sector, by a closure that takes some time, so that others come in between.
fn one_more(limits: Limits) -> Limits {
    (0..100).for_each(|_| hint::spin_loop());
    limits.with_max(limits.max + 1)
}

fn rounds() -> u32 {
    u32::try_from(number_of("FREEZE_QUEUE_ROUNDS", 2_000).min(2_000)).unwrap()
}

#[test]
fn each_update_of_each_thread_is_kept() {
    let (queue, rounds) = (queue(), rounds());
    thread::scope(|threads| {
        for _ in 0..THREADS {
            threads.spawn(|| {
                for _ in 0..rounds {
                    queue.update(one_more).unwrap();
                }
            });
        }
    });
    assert_eq!(queue.limits().max, 1 + THREADS * rounds);
}

/// An update, and what comes between the first run of its closure and its end: what was set, and how often the closure ran.
fn update_beside(
    queue: &Queue,
    change: fn(Limits) -> Limits,
    between: impl Fn(Limits),
) -> (Result<Limits, UpdateError>, u32) {
    let mut calls = 0;
    let set = queue.update(|limits| {
        calls += 1;
        if calls == 1 {
            between(limits);
        }
        change(limits)
    });
    (set, calls)
}

/// A set of another freeze, between what the closure reads and what it returns, whichever of the limits each of them changes.
#[test]
fn a_set_while_the_closure_runs_is_kept() {
    let changes: [fn(Limits) -> Limits; 4] = [
        |limits| limits.with_max(limits.max + 99),
        |limits| limits.with_chunk(limits.chunk + 8),
        |limits| limits.with_physical(limits.physical * 4),
        |limits| limits.with_max(limits.max + 1).with_chunk(limits.chunk + 1).with_physical(limits.physical * 2),
    ];
    for updates in changes {
        for sets in changes {
            let queue = queue();
            let set_beside = |limits| on_another_thread(|| queue.freeze().unwrap().set(sets(limits)).unwrap());
            let (set, calls) = update_beside(&queue, updates, set_beside);
            let both = updates(sets(LIMITS));
            assert_eq!((set, queue.limits(), calls, queue.depth()), (Ok(both), both, 2, 0));
        }
    }
}

/// A set of a freeze stays, and so do the updates that come after it.
#[test]
fn updates_beside_freezes_that_set() {
    let (queue, rounds) = (queue(), rounds());
    let after_the_last = thread::scope(|threads| {
        let updates = threads.spawn(|| (0..rounds).filter(|_| queue.update(one_more).unwrap().chunk == rounds).count());
        for chunk in 1..=rounds {
            let frozen = queue.freeze().unwrap();
            assert_eq!(frozen.limits().chunk, chunk - 1);
            frozen.set(LIMITS.with_chunk(chunk)).unwrap();
        }
        updates.join().unwrap()
    });
    let most = 1 + u32::try_from(after_the_last).unwrap();
    assert_eq!(queue.limits(), LIMITS.with_chunk(rounds).with_max(most));
}

/// Sets each time that the closure of an update runs: the update ends at its deadline, and a future lets others go first.
#[test]
fn sets_without_end() {
    let queue = queue();
    let mut calls = 0;
    let mut beside = |limits: Limits| {
        calls += 1;
        on_another_thread(|| queue.freeze().unwrap().set(limits.with_chunk(calls)).unwrap());
        limits.with_max(9)
    };
    assert_eq!(queue.update_timeout(Duration::from_millis(5), &mut beside), Err(UpdateError::TimedOut));
    let mut update = pin!(queue.update_async(&mut beside));
    for _ in 0..3 {
        assert!(update.as_mut().poll(&mut Context::from_waker(Waker::noop())).is_pending());
        assert_eq!(queue.depth(), 0);
    }
    drop(queue.enter_any().unwrap());
    assert_eq!((queue.stats().updates, queue.limits().max, queue.limits().chunk < 3), (0, 1, false));
}

/// The closure of an update enters and freezes its queue, and is refused an update and a set of it.
#[test]
fn an_update_within_an_update() {
    let (queue, other) = (queue(), queue());
    let (set, calls) = update_beside(&queue, one_more, |_| {
        assert_eq!(queue.update(one_more), Err(UpdateError::Nested));
        assert_eq!(queue.update_timeout(Duration::MAX, one_more), Err(UpdateError::Nested));
        assert_eq!(ready(queue.update_async(one_more)), Err(UpdateError::Nested));
        assert_eq!(other.update(one_more).unwrap().max, 2);
        let (frozen, frozen_other) = (queue.freeze().unwrap(), other.freeze().unwrap());
        assert_eq!(frozen.set(LIMITS.with_chunk(8)), Err(UpdateError::Nested));
        assert_eq!(frozen.set(LIMITS.with_chunk(65_536)), Err(UpdateError::Limits(LimitsError::ChunkTooLarge)));
        assert_eq!(frozen.set(Limits::of_hardware(8)), Err(UpdateError::OtherHardware));
        frozen_other.set(LIMITS.with_chunk(8)).unwrap();
        on_another_thread(|| frozen.set(LIMITS).unwrap());
        drop(frozen);
        drop(queue.enter_any().unwrap()); // the closure isn't called under a freeze
    });
    assert_eq!((set.unwrap().max, queue.limits().max, calls), (2, 2, 1));
    assert_eq!(queue.update(one_more).unwrap().max, 3);
}

/// A closure that panics ends its turn.
#[test]
fn a_closure_panics() {
    let queue = queue();
    assert!(catch_unwind(AssertUnwindSafe(|| queue.update(|_| panic!("on purpose")))).is_err());
    assert_eq!((queue.depth(), queue.update(one_more).unwrap().max), (0, 2));
}

/// An update that waits for its turn gives up at its deadline, and so does one that waits for the drain, whose freeze is thawed.
#[test]
fn a_late_update_sets_nothing() {
    let queue = queue();
    let request = queue.enter_any().unwrap();
    thread::scope(|threads| {
        let drains = threads.spawn(|| queue.update(one_more));
        until("it freezes", || queue.depth() == 1);
        assert_eq!(queue.update_timeout(Duration::from_millis(1), one_more), Err(UpdateError::TimedOut));
        drop(request);
        assert_eq!(drains.join().unwrap().unwrap().max, 2);
    });
    let request = queue.enter_any().unwrap();
    assert_eq!(queue.update_timeout(Duration::from_millis(1), one_more), Err(UpdateError::TimedOut));
    assert_eq!((queue.depth(), queue.stats().updates), (0, 1));
    drop(request);
    assert_eq!(queue.update_timeout(Duration::ZERO, one_more).unwrap().max, 3);
}

fn ready<T>(future: impl Future<Output = T>) -> T {
    let Poll::Ready(done) = pin!(future).poll(&mut Context::from_waker(Waker::noop())) else { panic!("it waits") };
    done
}

/// Futures have their turns in order, and a future that is dropped passes its turn on.
#[test]
fn updates_by_futures() {
    let queue = queue();
    let request = queue.enter_any().unwrap();
    let mut context = Context::from_waker(Waker::noop());
    let mut all: Vec<_> = (0..5).map(|_| Box::pin(queue.update_async(one_more))).collect();
    for future in &mut all {
        assert!(future.as_mut().poll(&mut context).is_pending());
    }
    assert_eq!(queue.depth(), 1, "one has its turn");
    drop(all.remove(2));
    drop(all.remove(0));
    assert_eq!(queue.depth(), 0, "it thaws, and the next hasn't been polled");
    drop(request);
    assert!(all[1].as_mut().poll(&mut context).is_pending());
    for (future, most) in all.iter_mut().zip(2..) {
        let Poll::Ready(set) = future.as_mut().poll(&mut context) else { panic!("it is its turn") };
        assert_eq!(set.unwrap().max, most);
    }
    assert_eq!(queue.update(one_more).unwrap().max, 5);
}

/// An update lets a thread in that waited at the last thaw: its request has left when the update is done. One by a task waits for that
/// without being polled.
#[test]
fn an_update_lets_a_thread_in() {
    ends(|| {
        lets_a_thread_in(|queue| queue.update(one_more).unwrap());
        lets_a_thread_in(|queue| block_on(queue.update_async(one_more)).unwrap());
    });
}

fn lets_a_thread_in(update: fn(&Queue) -> Limits) {
    let queue = queue();
    for round in 1..=u64::from(rounds().min(200)) {
        let (has_entered, is_done) = (AtomicBool::new(false), AtomicBool::new(false));
        let frozen = queue.freeze().unwrap();
        thread::scope(|threads| {
            threads.spawn(|| {
                let request = queue.enter_any().unwrap();
                has_entered.store(true, Relaxed);
                drop(request);
                until("the update is done", || is_done.load(Relaxed)); // the end of a thread wakes the one that waits for it
            });
            until("it waits", || queue.stats().waited == round);
            drop(frozen);
            update(&queue);
            is_done.store(true, Relaxed);
            assert!(has_entered.load(Relaxed), "round {round}");
        });
    }
}
