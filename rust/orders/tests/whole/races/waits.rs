//! Threads and tasks that enter, beside threads that freeze: each wait ends.
use super::race;
use crate::{EnterError, FreezeError, Limits, Queue, Tag};
use orders::turns::{block_on, waker};
use std::pin::pin;
use std::sync::{Mutex, PoisonError};
use std::task::Context;
use std::time::Duration;

/// A queue and its tags, one for each actor that enters.
struct Parts {
    queue: Queue,
    tags: Vec<Mutex<Tag>>,
}

fn parts() -> Parts {
    let queue = Queue::builder(Limits::of_hardware(64)).slots(1).tags(2).build().unwrap();
    let tags = (0..2).map(|_| Mutex::new(queue.tag().unwrap())).collect();
    Parts { queue, tags }
}

/// One request, with the tag of this number, whose limits hold still.
fn visits(parts: &Parts, tag: usize) {
    let mut tag = parts.tags[tag].lock().unwrap_or_else(PoisonError::into_inner);
    let request = parts.queue.enter(&mut tag).unwrap();
    assert!([64, 8].contains(&request.limits().max));
}

fn visits_async(parts: &Parts, tag: usize) {
    let mut tag = parts.tags[tag].lock().unwrap_or_else(PoisonError::into_inner);
    drop(block_on(parts.queue.enter_async(&mut tag)).unwrap());
}

fn changes(parts: &Parts) {
    let frozen = parts.queue.freeze().unwrap();
    frozen.set(Limits::of_hardware(64)).unwrap();
}

/// Nobody waits any more, and the queue is live.
fn is_live(parts: Parts) {
    assert_eq!(parts.queue.depth(), 0);
    let frozen = parts.queue.try_freeze().expect("no request is in flight");
    drop(frozen);
    for tag in parts.tags {
        let mut tag = tag.into_inner().unwrap_or_else(PoisonError::into_inner);
        drop(parts.queue.try_enter(&mut tag).expect("a live queue"));
        drop(tag);
    }
    parts.queue.remove().unwrap();
}

#[test]
fn two_threads_enter_beside_a_freeze() {
    race(
        "two threads that enter beside a freeze",
        2,
        parts,
        &[|it| visits(it, 0), |it| visits(it, 1), changes],
        is_live,
    );
}

#[test]
fn a_thread_and_a_task_enter_beside_a_freeze() {
    let acts: [fn(&Parts); 3] = [|it| visits(it, 0), |it| visits_async(it, 1), changes];
    race("a thread and a task that enter beside a freeze", 3, parts, &acts, is_live);
}

#[test]
fn two_tasks_enter_beside_a_freeze() {
    let acts: [fn(&Parts); 3] = [|it| visits_async(it, 0), |it| visits_async(it, 1), changes];
    race("two tasks that enter beside a freeze", 3, parts, &acts, is_live);
}

#[test]
fn a_task_enters_beside_two_freezes() {
    race("a task that enters beside two freezes", 3, parts, &[|it| visits_async(it, 0), changes, changes], is_live);
}

#[test]
fn a_thread_enters_beside_a_freeze() {
    race("a thread that enters beside a freeze", 6, parts, &[|it| visits(it, 0), changes], is_live);
}

#[test]
fn a_task_enters_beside_a_freeze() {
    race("a task that enters beside a freeze", 6, parts, &[|it| visits_async(it, 0), changes], is_live);
}

/// The device goes away under a thread and a task: each has entered, or is sent away.
#[test]
fn the_device_goes_away() {
    fn enters(parts: &Parts) {
        let mut tag = parts.tags[0].lock().unwrap();
        assert!(parts.queue.enter(&mut tag).map_or_else(|why| why == EnterError::Dying, |_| true));
    }
    fn enters_async(parts: &Parts) {
        let mut tag = parts.tags[1].lock().unwrap();
        assert!(block_on(parts.queue.enter_async(&mut tag)).map_or_else(|why| why == EnterError::Dying, |_| true));
    }
    fn goes(parts: &Parts) {
        parts.queue.freeze().unwrap().mark_dying();
    }
    race("a thread and a task at a device that goes away", 3, parts, &[enters, enters_async, goes], |parts| {
        let mut tag = parts.tags[0].lock().unwrap();
        assert_eq!(parts.queue.try_enter(&mut tag).unwrap_err(), EnterError::Dying);
        assert_eq!((parts.queue.depth(), parts.queue.is_dying()), (0, true));
    });
}

/// Deadlines that pass at any moment: a late freeze is thawed, and wakes each caller that it held up.
#[test]
fn deadlines_pass_at_any_moment() {
    fn enters(parts: &Parts) {
        let mut tag = parts.tags[0].lock().unwrap();
        let entered = parts.queue.enter_timeout(&mut tag, Duration::from_secs(1000));
        assert!(entered.map_or_else(|why| why == EnterError::TimedOut, |_| true));
    }
    fn freezes(parts: &Parts) {
        let frozen = parts.queue.freeze_timeout(Duration::from_secs(1000));
        assert!(frozen.map_or_else(|why| why == FreezeError::TimedOut, |_| true));
    }
    race("deadlines that pass at any moment", 3, parts, &[enters, |it| visits_async(it, 1), freezes], is_live);
}

/// A future that is polled and dropped, beside another that goes on and a thaw: the one that goes on is woken.
#[test]
fn a_future_is_dropped() {
    fn gives_up(parts: &Parts) {
        let mut tag = parts.tags[0].lock().unwrap();
        let mut entering = pin!(parts.queue.enter_async(&mut tag));
        drop(entering.as_mut().poll(&mut Context::from_waker(&waker())));
    }
    race("a future that is dropped", 3, parts, &[gives_up, |it| visits_async(it, 1), changes], is_live);
}

/// A future that is polled with another waker is woken by that one.
#[test]
fn a_future_changes_its_waker() {
    fn moves(parts: &Parts) {
        let mut tag = parts.tags[0].lock().unwrap();
        let mut entering = Box::pin(parts.queue.enter_async(&mut tag));
        let quiet = std::task::Waker::noop();
        if entering.as_mut().poll(&mut Context::from_waker(quiet)).is_pending() {
            drop(block_on(entering).unwrap());
        }
    }
    race("a future that changes its waker", 5, parts, &[moves, changes], is_live);
}

/// The task of an update waits until a thread has entered, whose waker panics: the thread's request has left by then.
#[test]
fn a_waker_of_an_update_panics() {
    struct Panics;
    impl std::task::Wake for Panics {
        fn wake(self: std::sync::Arc<Self>) {
            std::panic::resume_unwind(Box::new("the executor is gone"));
        }
    }
    fn visits_though_a_waker_panics(parts: &Parts) {
        let _panicked = std::panic::catch_unwind(std::panic::AssertUnwindSafe(|| visits(parts, 0)));
    }
    fn updates(parts: &Parts) {
        changes(parts);
        let panics = std::task::Waker::from(std::sync::Arc::new(Panics));
        let mut update = Box::pin(parts.queue.update_async(|limits| limits.with_max(8)));
        let _polled = std::panic::catch_unwind(std::panic::AssertUnwindSafe(|| {
            update.as_mut().poll(&mut Context::from_waker(&panics)).is_ready()
        }));
        orders::turns::pause(); // the thread may enter meanwhile
        drop(update);
    }
    let acts: [fn(&Parts); 2] = [visits_though_a_waker_panics, updates];
    race("a waker of an update that panics", 3, parts, &acts, is_live);
}

/// A waker that panics keeps no other asleep, and thaws nothing twice.
#[test]
fn a_waker_panics() {
    struct Panics;
    impl std::task::Wake for Panics {
        fn wake(self: std::sync::Arc<Self>) {
            std::panic::resume_unwind(Box::new("the executor is gone"));
        }
    }
    fn polls(parts: &Parts) {
        let mut tag = parts.tags[0].lock().unwrap();
        let panics = std::task::Waker::from(std::sync::Arc::new(Panics));
        let mut entering = Box::pin(parts.queue.enter_async(&mut tag));
        let _pending = entering.as_mut().poll(&mut Context::from_waker(&panics));
        std::mem::forget(entering);
    }
    fn changes_though_a_waker_panics(parts: &Parts) {
        let _panicked = std::panic::catch_unwind(std::panic::AssertUnwindSafe(|| changes(parts)));
    }
    let acts: [fn(&Parts); 3] = [polls, |it| visits_async(it, 1), changes_though_a_waker_panics];
    race("a waker that panics", 2, parts, &acts, |parts| assert_eq!(parts.queue.depth(), 0));
}
