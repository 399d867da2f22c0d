//! The list of freezes: each by where the program began it, as long as it isn't thawed.
use freeze_queue::{FreezeError, FrozenBy, Limits, Queue};
use std::future::Future;
use std::mem;
use std::panic::Location;
use std::pin::{Pin, pin};
use std::task::{Context, Poll, Waker};
use std::thread;
use std::time::{Duration, Instant};

mod shared;
use shared::until;

fn queue() -> Queue<u64> {
    Queue::builder(Limits::of_hardware(64)).slots(1).tags(2).value(7).build().unwrap()
}

const LONG: Duration = Duration::from_secs(600);

/// The lines of this file where the listed freezes began.
fn lines(queue: &Queue<u64>) -> Vec<u32> {
    let in_this_file = |freeze: FrozenBy| {
        assert_eq!(freeze.location.file(), file!());
        freeze.location.line()
    };
    queue.frozen_by().map(in_this_file).collect()
}

/// The line of the call.
#[track_caller]
fn here() -> u32 {
    Location::caller().line()
}

fn polled<F: Future>(future: Pin<&mut F>) -> Poll<F::Output> {
    future.poll(&mut Context::from_waker(Waker::noop()))
}

/// Each form that freezes is listed by the line of its call.
#[test]
fn each_freeze_is_listed_by_its_caller() {
    let queue = queue();
    let (begun, line) = (queue.begin_freeze(), here());
    assert_eq!(lines(&queue), [line]);
    drop(begun);
    let (frozen, line) = (queue.freeze(), here());
    assert_eq!(lines(&queue), [line]);
    drop(frozen);
    let (frozen, line) = (queue.try_freeze(), here());
    assert_eq!(lines(&queue), [line]);
    drop(frozen);
    let (frozen, line) = (queue.freeze_timeout(Duration::from_secs(60)), here());
    assert_eq!(lines(&queue), [line]);
    drop(frozen);
    let (made, line) = (queue.freeze_async(), here());
    let mut future = pin!(made);
    assert_eq!(lines(&queue), [0; 0], "a future that wasn't polled freezes nothing");
    let Poll::Ready(frozen) = polled(future.as_mut()) else { panic!("nothing is in flight") };
    assert_eq!(lines(&queue), [line]);
    drop(frozen);
    assert_eq!(lines(&queue), [0; 0]);
}

/// Each update of the limits is listed by the line of its call while it waits for the drain.
#[test]
fn each_update_is_listed_by_its_caller() {
    let queue = queue();
    let smaller = |limits: Limits| limits.with_max(limits.max / 2);
    let held = queue.enter_any().unwrap();
    thread::scope(|threads| {
        let (update, line) = (threads.spawn(|| queue.update(smaller)), here());
        until("the update freezes", || lines(&queue) == [line]);
        drop(held);
        update.join().unwrap().unwrap();
    });
    let held = queue.enter_any().unwrap();
    thread::scope(|threads| {
        let (update, line) = (threads.spawn(|| queue.update_timeout(LONG, smaller)), here());
        until("the update freezes", || lines(&queue) == [line]);
        drop(held);
        update.join().unwrap().unwrap();
    });
    let held = queue.enter_any().unwrap();
    let (made, line) = (queue.update_async(smaller), here());
    let mut future = pin!(made);
    assert!(polled(future.as_mut()).is_pending());
    assert_eq!(lines(&queue), [line]);
    drop(held);
    assert_eq!(polled(future.as_mut()).map(|set| set.unwrap().max), Poll::Ready(8));
    assert_eq!(lines(&queue), [0; 0]);
}

/// Each update of the value is listed by the line of its call while its closure runs.
#[test]
fn each_update_of_the_value_is_listed_by_its_caller() {
    let queue = queue();
    let listed = |value: &mut u64| (mem::replace(value, 8), lines(&queue));
    let (found, line) = (queue.update_value(listed), here());
    assert_eq!(found, Ok((7, vec![line])));
    let (found, line) = (queue.update_value_timeout(LONG, listed), here());
    assert_eq!(found, Ok((8, vec![line])));
    let (made, line) = (queue.update_value_async(listed), here());
    assert_eq!(polled(pin!(made)), Poll::Ready(Ok((8, vec![line]))));
    assert_eq!(lines(&queue), [0; 0]);
}

/// Freezes are listed in the order in which they began, whichever is thawed first, and an owned freeze as well.
#[test]
fn freezes_that_nest() {
    let queue = queue();
    let before = Instant::now();
    let first = queue.freeze().unwrap();
    let between = Instant::now();
    let second = queue.begin_freeze().unwrap().into_owned();
    let third = queue.freeze().unwrap();
    let all: Vec<FrozenBy> = queue.frozen_by().collect();
    assert_eq!(all.len(), 3);
    assert!(
        before <= all[0].since && all[0].since <= between && between <= all[1].since && all[1].since <= all[2].since
    );
    drop(second);
    assert_eq!(queue.frozen_by().collect::<Vec<_>>(), [all[0], all[2]]);
    drop(first);
    assert_eq!(queue.frozen_by().collect::<Vec<_>>(), [all[2]]);
    third.mark_dying();
    assert_eq!((queue.frozen_by().count(), queue.depth()), (0, 0));
    mem::forget(queue.freeze());
    assert_eq!((queue.frozen_by().count(), queue.depth()), (1, 1));
}

/// A freeze that was given up is listed no more, nor one that was refused.
#[test]
fn freezes_that_are_no_more() {
    let queue = queue();
    let held = queue.enter_any().unwrap();
    assert_eq!(queue.freeze_timeout(Duration::ZERO).unwrap_err(), FreezeError::TimedOut);
    assert_eq!(queue.try_freeze().unwrap_err(), FreezeError::NotDrained);
    assert_eq!(queue.frozen_by().count(), 0);
    let dropped = &mut Box::pin(queue.freeze_async());
    assert!(polled(dropped.as_mut()).is_pending());
    assert_eq!(queue.frozen_by().count(), 1);
    dropped.set(queue.freeze_async());
    assert_eq!(queue.frozen_by().count(), 0);
    drop(held);
    let many: Vec<_> = (0..1_000).map(|_| queue.begin_freeze().unwrap()).collect();
    assert_eq!(queue.begin_freeze().unwrap_err(), FreezeError::DepthFull);
    assert_eq!(queue.frozen_by().count(), 1_000);
    drop(many);
    assert_eq!(queue.frozen_by().count(), 0);
}
