//! The stand-ins for `crossbeam_utils` and for locks: rows, and threads that wait for one another.

use blkq::erased::crossbeam_utils::sync::EventCount;
use blkq::erased::crossbeam_utils::{Backoff, CachePadded};
use blkq::erased::sync::{Condvar, Mutex};
use std::panic::resume_unwind;
use std::sync::atomic::{AtomicUsize, Ordering};
use std::thread;
use std::time::Duration;

#[test]
fn a_backoff_is_completed_after_some_snoozes() {
    let backoff = Backoff::new();
    let mut snoozes = 0;
    while !backoff.is_completed() {
        backoff.snooze();
        snoozes += 1;
    }
    assert_eq!(snoozes, 11);
    let backoff = Backoff::new();
    (0..100).for_each(|_| backoff.spin());
    assert!(!backoff.is_completed());
}

#[test]
fn padded_values_lie_apart() {
    let pair = [CachePadded::new(1u8), CachePadded::new(2)];
    let places = [&raw const pair[0], &raw const pair[1]].map(|place| place as usize);
    assert_eq!((places[0] % 128, places[1] - places[0]), (0, 128));
    assert_eq!((*pair[0], *pair[1]), (1, 2));
}

#[test]
fn a_wake_between_announcement_and_sleep_is_kept() {
    let events = EventCount::new();
    let key = events.prepare_wait();
    events.notify_one();
    key.wait();
    let key = events.prepare_wait();
    events.notify_all();
    key.wait();
    // Two waits, two wakes.
    let keys = [events.prepare_wait(), events.prepare_wait()];
    events.notify_one();
    events.notify_one();
    keys.into_iter().for_each(|key| key.wait());
}

/// A wait that is dropped after its wake leaves the wake to another.
#[test]
fn a_dropped_wait_leaves_its_wake() {
    let events = EventCount::new();
    let (first, second) = (events.prepare_wait(), events.prepare_wait());
    events.notify_one();
    drop(first);
    second.wait();
    // A wait that is dropped before it is woken takes no wake away.
    let (first, second) = (events.prepare_wait(), events.prepare_wait());
    drop(first);
    events.notify_one();
    second.wait();
    // A wake of all wakes every current waiter, and no later one.
    let keys = [events.prepare_wait(), events.prepare_wait()];
    events.notify_all();
    let later = events.prepare_wait();
    keys.into_iter().for_each(|key| key.wait());
    thread::scope(|scope| {
        let waiter = scope.spawn(|| later.wait());
        thread::sleep(Duration::from_millis(50));
        assert!(!waiter.is_finished());
        events.notify_one();
    });
}

/// Tokens go round: a thread that finds none announces, looks again and sleeps. If a wake were lost, this would never end.
#[test]
fn no_wake_is_lost() {
    const THREADS: usize = 4;
    const ROUNDS: usize = 5_000;
    for tokens in [1, 2] {
        let (events, left, done) = (EventCount::new(), AtomicUsize::new(tokens), AtomicUsize::new(0));
        let take = || left.fetch_update(Ordering::SeqCst, Ordering::SeqCst, |left| left.checked_sub(1)).is_ok();
        thread::scope(|scope| {
            for _ in 0..THREADS {
                scope.spawn(|| {
                    for _ in 0..ROUNDS {
                        loop {
                            let key = events.prepare_wait();
                            if take() {
                                break;
                            }
                            key.wait();
                        }
                        done.fetch_add(1, Ordering::Relaxed);
                        left.fetch_add(1, Ordering::SeqCst);
                        events.notify_one();
                    }
                });
            }
        });
        assert_eq!((left.into_inner(), done.into_inner()), (tokens, THREADS * ROUNDS));
    }
}

/// The same by a call that wakes all, with a wait that is dropped by turns.
#[test]
fn no_wake_of_all_is_lost() {
    let (events, turn) = (EventCount::new(), AtomicUsize::new(0));
    thread::scope(|scope| {
        for me in 0..3 {
            let (events, turn) = (&events, &turn);
            scope.spawn(move || {
                for round in 0..2_000 {
                    loop {
                        let key = events.prepare_wait();
                        if turn.load(Ordering::SeqCst) == 3 * round + me {
                            break;
                        }
                        key.wait();
                    }
                    turn.fetch_add(1, Ordering::SeqCst);
                    events.notify_all();
                }
            });
        }
    });
    assert_eq!(turn.into_inner(), 6_000);
}

#[test]
fn a_lock_that_a_panic_leaves_is_taken_all_the_same() {
    let lock = Mutex::new(1);
    let panicked = thread::scope(|scope| {
        let holder = scope.spawn(|| {
            let mut guard = lock.lock();
            *guard = 2;
            resume_unwind(Box::new("with the lock held"));
        });
        holder.join().is_err()
    });
    assert!(panicked);
    assert_eq!(*lock.lock(), 2);
    assert_eq!(lock.into_inner(), 2);
}

#[test]
fn a_condition_wakes_who_sleeps() {
    let (lock, changed) = (Mutex::new(0), Condvar::new());
    thread::scope(|scope| {
        let waiters = [1, 2].map(|wanted| {
            let (lock, changed) = (&lock, &changed);
            scope.spawn(move || {
                let mut guard = lock.lock();
                while *guard < wanted {
                    guard = changed.wait(guard);
                }
            })
        });
        for number in [1, 2] {
            *lock.lock() = number;
            if number == 1 { changed.notify_one() } else { changed.notify_all() }
        }
        waiters.into_iter().for_each(|waiter| waiter.join().unwrap());
    });
}
