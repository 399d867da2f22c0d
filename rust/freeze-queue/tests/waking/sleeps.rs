//! Which calls wake sleeping threads, and waits that are woken in vain.

use crate::common::until;
use crate::limits::Limits;
use crate::queue::Queue;
use crate::sync::{notified, slept, tells_its_sleep, wake_in_vain};
use std::sync::mpsc;
use std::thread;

/// How often a wait is woken in vain.
const IN_VAIN: u64 = 50_000;

fn queue(tags: u32) -> Queue {
    Queue::builder(Limits::of_hardware(8)).slots(3).tags(tags).build().unwrap()
}

/// Runs this on a thread whose sleeps end at once, again and again. Once it sleeps on, the queue is changed, and the call ends.
fn outlasts<'q>(queue: &'q Queue, call: impl FnOnce(&'q Queue) + Send, change: impl FnOnce()) {
    let (sleeps, is_asleep) = mpsc::channel();
    thread::scope(|scope| {
        let calls = scope.spawn(|| {
            wake_in_vain(IN_VAIN);
            tells_its_sleep(sleeps);
            call(queue);
            slept()
        });
        is_asleep.recv().expect("it waits on");
        change();
        until("a wake is lost", || calls.is_finished());
        assert_eq!(calls.join().unwrap(), IN_VAIN + 1, "how often it slept");
    });
}

/// A wait to enter, for a tag and for the turn to update goes on, however often it is woken in vain.
#[test]
fn needless_wakes_end_no_wait() {
    let queue = queue(1);
    let frozen = queue.freeze().unwrap();
    let mut tag = queue.tag().unwrap();
    outlasts(&queue, |queue| drop(queue.enter(&mut tag).unwrap()), || drop(frozen));
    outlasts(&queue, |queue| drop(queue.enter_any().unwrap()), || drop(tag));
}

/// A wait for the drain goes on, however often it is woken in vain.
#[test]
fn needless_wakes_drain_nothing() {
    let queue = queue(1);
    let mut tag = queue.tag().unwrap();
    for _ in 0..3 {
        let request = queue.enter(&mut tag).unwrap();
        outlasts(&queue, |queue| drop(queue.freeze().unwrap()), || drop(request));
    }
}

/// Only the last thaw notifies those who sleep to enter, and only the last to leave those who sleep for the drain. Once they are up, nobody
/// is notified.
#[test]
fn who_sleeps_is_notified_once() {
    let queue = queue(4);
    let mut tags: Vec<_> = (0..4).map(|_| queue.tag().unwrap()).collect();
    for _ in 0..3 {
        notified();
        let (outer, inner) = (queue.freeze().unwrap(), queue.freeze().unwrap());
        let (sleeps, is_asleep) = mpsc::channel();
        thread::scope(|scope| {
            for tag in &mut tags {
                let sleeps = sleeps.clone();
                scope.spawn(|| {
                    tells_its_sleep(sleeps);
                    let request = queue.enter(tag).unwrap();
                    notified();
                    drop(request);
                    assert_eq!(notified(), 0, "a live queue notifies nobody");
                });
            }
            (0..4).for_each(|_| is_asleep.recv().unwrap());
            drop(inner);
            let nested = notified();
            drop(outer);
            assert_eq!((nested, notified()), (0, 1), "a nested thaw, and the last");
        });
        for _ in 0..3 {
            drop(queue.freeze().unwrap());
            assert_eq!(notified(), 0, "nobody sleeps");
        }
    }
}

/// Of several requests that a freeze waits for only the last to leave notifies, and once.
#[test]
fn the_last_to_leave_notifies() {
    let queue = queue(4);
    let mut tags: Vec<_> = (0..4).map(|_| queue.tag().unwrap()).collect();
    for round in 0..4 {
        let is_watched = round % 2 == 0; // then no request has a bias
        queue.watch(is_watched);
        let requests: Vec<_> = tags.iter_mut().map(|tag| queue.enter(tag).unwrap()).collect();
        let (sleeps, is_asleep) = mpsc::channel();
        let told: Vec<u64> = thread::scope(|scope| {
            scope.spawn(|| {
                tells_its_sleep(sleeps);
                drop(queue.freeze().unwrap());
            });
            is_asleep.recv().unwrap();
            notified();
            let leaves = |request| (drop(request), notified()).1;
            requests.into_iter().map(leaves).collect()
        });
        // A request whose bias is over tells the freezer too, which may have seen its lane busy. So the freezer may see the drain before
        // the last request tells it.
        assert!(if is_watched { told == [0, 0, 0, 1] } else { told.contains(&1) }, "round {round}: {told:?}");
        let request = queue.enter(&mut tags[0]).unwrap();
        notified();
        drop(request);
        assert_eq!(notified(), 0, "nobody sleeps");
    }
}
