//! Futures and threads that wait for the drain, beside requests that leave.
use super::race;
use crate::{Limits, OwnedRequest, Queue};
use orders::turns::{block_on, waker};
use std::pin::pin;
use std::sync::Mutex;
use std::task::Context;

/// A queue with two requests in flight.
struct Parts {
    queue: Queue,
    requests: [Mutex<Option<OwnedRequest>>; 2],
}

fn parts() -> Parts {
    let queue = Queue::builder(Limits::of_hardware(64)).slots(1).tags(2).build().unwrap();
    let requests = [(); 2].map(|()| Mutex::new(Some(queue.try_enter_any().unwrap())));
    Parts { queue, requests }
}

fn leaves(parts: &Parts, request: usize) {
    let request = parts.requests[request].lock().unwrap().take();
    drop(request);
}

fn leave_both(parts: &Parts) {
    leaves(parts, 0);
    leaves(parts, 1);
}

fn freezes(parts: &Parts) {
    let frozen = parts.queue.freeze().unwrap();
    assert!(parts.requests.iter().all(|it| it.lock().unwrap().is_none()), "it isn't drained");
    drop(frozen);
}

fn freezes_async(parts: &Parts) {
    let frozen = block_on(parts.queue.freeze_async()).unwrap();
    assert!(parts.requests.iter().all(|it| it.lock().unwrap().is_none()), "it isn't drained");
    drop(frozen);
}

fn gives_up(parts: &Parts) {
    let mut freezing = pin!(parts.queue.freeze_async());
    drop(freezing.as_mut().poll(&mut Context::from_waker(&waker())));
}

/// The queue is live and whole.
fn is_live(parts: Parts) {
    assert_eq!(parts.queue.depth(), 0);
    drop(parts.queue.try_freeze().unwrap());
    drop(parts.queue.try_enter_any().unwrap());
    drop(parts.requests);
    parts.queue.remove().unwrap();
}

#[test]
fn a_future_waits_for_the_drain() {
    let acts: [fn(&Parts); 3] = [|it| leaves(it, 0), |it| leaves(it, 1), freezes_async];
    race("a future that waits for the drain", 3, parts, &acts, is_live);
}

#[test]
fn a_future_and_a_thread_wait_for_the_drain() {
    race("a future and a thread that wait for the drain", 2, parts, &[leave_both, freezes, freezes_async], is_live);
}

#[test]
fn two_futures_wait_for_the_drain() {
    race("two futures that wait for the drain", 2, parts, &[leave_both, freezes_async, freezes_async], is_live);
}

/// A freeze that is given up is thawed, and wakes nobody less.
#[test]
fn a_future_gives_up_the_drain() {
    race("a future that gives up the drain", 2, parts, &[leave_both, freezes_async, gives_up], is_live);
}

/// A request that waits to enter beside a freeze that is given up enters.
#[test]
fn a_request_enters_though_a_freeze_is_given_up() {
    fn enters(parts: &Parts) {
        leaves(parts, 0);
        drop(parts.queue.enter_any().unwrap());
    }
    race("a request beside a freeze that is given up", 3, parts, &[enters, gives_up, |it| leaves(it, 1)], is_live);
}
