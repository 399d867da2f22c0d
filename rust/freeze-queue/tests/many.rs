//! Thousands of futures wait at a queue: each is woken once, by a thaw, by the end of the device, by the update before it, and within
//! another's wake.
use freeze_queue::{Limits, Queue};
use std::cell::Cell;
use std::future::Future;
use std::pin::Pin;
use std::sync::Arc;
use std::sync::atomic::{AtomicU64, Ordering};
use std::task::{Context, Wake, Waker};

mod shared;
use shared::Woken;

fn with_tags(tags: u32) -> Queue {
    Queue::builder(Limits::of_hardware(8)).slots(2).tags(tags).build().unwrap()
}

/// Polls each future with a waker of its own. All are pending.
fn all_wait<F: Future>(futures: &mut [Pin<Box<F>>]) -> Vec<Arc<Woken>> {
    let wait = |future: &mut Pin<Box<F>>| {
        let woken = Arc::new(Woken::default());
        assert!(future.as_mut().poll(&mut Context::from_waker(&Waker::from(Arc::clone(&woken)))).is_pending());
        woken
    };
    futures.iter_mut().map(wait).collect()
}

fn each_was_woken(all: &[Arc<Woken>], times: u64) -> bool {
    all.iter().all(|woken| woken.times() == times)
}

#[test]
fn a_thaw_wakes_each_future() {
    let queue = with_tags(1_023);
    let mut tags: Vec<_> = (0..1_023).map(|_| queue.tag().unwrap()).collect();
    for _ in 0..3 {
        let frozen = queue.freeze().unwrap();
        let mut futures: Vec<_> = tags.iter_mut().map(|tag| Box::pin(queue.enter_async(tag))).collect();
        let woken = all_wait(&mut futures);
        assert!(each_was_woken(&woken, 0));
        drop(frozen);
        assert!(each_was_woken(&woken, 1));
    }
}

#[test]
fn the_end_of_a_device_wakes_each_in_line() {
    for waiters in [1, 2, 3, 1_000, 3_000] {
        let queue = with_tags(1);
        let _request = queue.enter_any().unwrap();
        let mut futures: Vec<_> = (0..waiters).map(|_| Box::pin(queue.enter_any_async())).collect();
        let woken = all_wait(&mut futures);
        queue.mark_dying();
        assert!(each_was_woken(&woken, 1), "of {waiters}");
    }
}

/// Each update in line has its turn as soon as the one before it is done.
#[test]
fn each_update_passes_its_turn_on() {
    const UPDATES: u64 = 3_000;
    let queue = with_tags(1);
    let request = queue.enter_any().unwrap();
    let mut futures: Vec<_> = (0..UPDATES).map(|_| Box::pin(queue.update_async(|limits| limits))).collect();
    let woken = all_wait(&mut futures);
    drop(request);
    for (at, future) in futures.iter_mut().enumerate() {
        let (before, after) = woken.split_at(at + 1);
        assert!(each_was_woken(before, 1) && each_was_woken(&after[..after.len().min(1)], 0), "{at}");
        assert!(future.as_mut().poll(&mut Context::from_waker(Waker::noop())).is_ready(), "{at}");
    }
    assert_eq!(queue.stats().updates, UPDATES);
}

thread_local! {
    /// Whether a waker of this thread is ending a device.
    static IS_ENDING: Cell<bool> = const { Cell::new(false) };
}

/// Ends a device when it is woken.
struct Ends(Arc<Queue>);

impl Wake for Ends {
    fn wake(self: Arc<Self>) {
        IS_ENDING.set(true);
        self.0.mark_dying();
        IS_ENDING.set(false);
    }
}

/// Counts its wakes, and those within another's.
#[derive(Default)]
struct Within(Woken, AtomicU64);

impl Wake for Within {
    fn wake(self: Arc<Self>) {
        self.1.fetch_add(u64::from(IS_ENDING.get()), Ordering::SeqCst);
        self.0.count();
    }
}

/// A waker ends another device, at which thousands wait in line: each is woken, once that waker has returned.
#[test]
fn each_wake_within_a_wake_comes() {
    let (first, second) = (with_tags(1), Arc::new(with_tags(1)));
    let _request = second.enter_any().unwrap();
    let mut futures: Vec<_> = (0..2_000).map(|_| Box::pin(second.enter_any_async())).collect();
    let woken: Arc<Within> = Arc::default();
    for future in &mut futures {
        assert!(future.as_mut().poll(&mut Context::from_waker(&Waker::from(Arc::clone(&woken)))).is_pending());
    }
    let request = first.enter_any().unwrap();
    let mut waits = Box::pin(first.enter_any_async());
    let ends = Waker::from(Arc::new(Ends(Arc::clone(&second))));
    assert!(waits.as_mut().poll(&mut Context::from_waker(&ends)).is_pending());
    drop(request);
    assert!(second.is_dying());
    assert_eq!((woken.0.times(), woken.1.load(Ordering::SeqCst)), (2_000, 0));
}
