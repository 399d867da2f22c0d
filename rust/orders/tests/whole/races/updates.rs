//! Updates of the limits, beside requests, freezes and each other: each ends, and none is lost.
use super::race;
use crate::{Limits, Queue};
use orders::turns::{Condvar, Mutex, block_on};
use std::panic::{AssertUnwindSafe, catch_unwind, resume_unwind};
use std::pin::pin;
use std::sync::Arc;
use std::sync::PoisonError;
use std::task::{Context, Wake};

const LIMITS: Limits = Limits::of_hardware(64).with_max(1);

/// A queue, and whether the update was made.
struct Parts {
    queue: Queue,
    is_updated: Mutex<bool>,
    updated: Condvar,
}

fn parts() -> Parts {
    let queue = Queue::builder(LIMITS).slots(1).tags(1).build().unwrap();
    Parts { queue, is_updated: Mutex::new(false), updated: Condvar::new() }
}

fn enters(parts: &Parts) {
    drop(parts.queue.enter_any().unwrap());
}

fn one_more(limits: Limits) -> Limits {
    limits.with_max(limits.max + 1)
}

fn updates(parts: &Parts) {
    parts.queue.update(one_more).unwrap();
}

fn updates_async(parts: &Parts) {
    block_on(parts.queue.update_async(one_more)).unwrap();
}

/// Nobody waits any more, the queue is live, and so many updates were made.
fn is_updated(parts: &Parts, times: u32) {
    assert_eq!((parts.queue.depth(), parts.queue.limits()), (0, LIMITS.with_max(1 + times)));
    drop(parts.queue.try_enter_any().expect("the tag is home"));
    drop(parts.queue.try_freeze().expect("no request is in flight"));
}

#[test]
fn two_updates_beside_a_request() {
    race("two updates beside a request", 2, parts, &[updates, updates, enters], |it| is_updated(&it, 2));
}

#[test]
fn an_update_and_one_by_a_future_beside_a_request() {
    let acts: [fn(&Parts); 3] = [updates, updates_async, enters];
    race("an update and one by a future beside a request", 2, parts, &acts, |it| is_updated(&it, 2));
}

/// Freezes twice, and thaws the second freeze once the update was made.
fn freezes_until_it_is_updated(parts: &Parts) {
    drop(parts.queue.freeze().unwrap());
    let _frozen = parts.queue.freeze().unwrap();
    let mut is_updated = parts.is_updated.lock().unwrap_or_else(PoisonError::into_inner);
    while !*is_updated {
        is_updated = parts.updated.wait(is_updated).unwrap_or_else(PoisonError::into_inner);
    }
}

/// A thread that waited at the last thaw is let in first, unless another freeze comes before: under that one the update ends too.
#[test]
fn an_update_under_a_freeze_that_waits_for_it() {
    fn updates_and_says_so(parts: &Parts) {
        updates(parts);
        *parts.is_updated.lock().unwrap_or_else(PoisonError::into_inner) = true;
        parts.updated.notify_all();
    }
    let acts: [fn(&Parts); 3] = [enters, updates_and_says_so, freezes_until_it_is_updated];
    race("an update under a freeze that waits for it", 2, parts, &acts, |it| is_updated(&it, 1));
}

/// So does one by a future.
#[test]
fn an_update_by_a_future_under_a_freeze_that_waits_for_it() {
    fn updates_and_says_so(parts: &Parts) {
        updates_async(parts);
        *parts.is_updated.lock().unwrap_or_else(PoisonError::into_inner) = true;
        parts.updated.notify_all();
    }
    let acts: [fn(&Parts); 3] = [enters, updates_and_says_so, freezes_until_it_is_updated];
    race("an update by a future under a freeze that waits for it", 2, parts, &acts, |it| is_updated(&it, 1));
}

/// The waker of an update panics, in a thread that is let in or that freezes: the request has left then, and the freeze is thawed.
#[test]
fn the_waker_of_an_update_panics() {
    struct Panics;
    impl Wake for Panics {
        fn wake(self: Arc<Self>) {
            resume_unwind(Box::new("the executor is gone"));
        }
    }
    fn polls(parts: &Parts) {
        let mut update = pin!(parts.queue.update_async(one_more));
        let waker = Arc::new(Panics).into();
        let _gives_up = update.as_mut().poll(&mut Context::from_waker(&waker));
    }
    fn enters_or_panics(parts: &Parts) {
        let _panicked = catch_unwind(AssertUnwindSafe(|| enters(parts)));
    }
    fn freezes_or_panics(parts: &Parts) {
        for _ in 0..2 {
            let _panicked = catch_unwind(AssertUnwindSafe(|| drop(parts.queue.freeze().unwrap())));
        }
    }
    let acts: [fn(&Parts); 3] = [enters_or_panics, polls, freezes_or_panics];
    race("the waker of an update that panics", 3, parts, &acts, |parts| {
        let updates = parts.queue.limits().max - LIMITS.max;
        is_updated(&parts, updates);
    });
}
