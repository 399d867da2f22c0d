//! Wakers by hand, each of whose functions comes back to the queue. No call of the crate has its lock while it clones, calls or drops one.
//! (A waker by hand is made by `unsafe`.)
#![allow(unsafe_code)]

use freeze_queue::{OwnedRequest, Queue};
use std::cell::{Cell, RefCell};
use std::panic::{AssertUnwindSafe, catch_unwind};
use std::pin::Pin;
use std::ptr;
use std::sync::Arc;
use std::task::{Context, Poll, RawWaker, RawWakerVTable, Waker};

mod shared;
use shared::{LIMITS, ends};

thread_local! {
    /// The queue that the wakers of this thread come back to.
    static QUEUE: RefCell<Option<Arc<Queue>>> = const { RefCell::new(None) };
    /// Leaves as the next waker is cloned.
    static LEAVES: Cell<Option<OwnedRequest>> = const { Cell::new(None) };
    /// The next waker that is dropped panics.
    static PANICS: Cell<bool> = const { Cell::new(false) };
    /// How often a function of a waker was called.
    static CALLS: Cell<u32> = const { Cell::new(0) };
}

/// Takes the lock of the queue.
fn comes_back() {
    CALLS.set(CALLS.get() + 1);
    QUEUE.with_borrow(|queue| assert!(queue.as_ref().unwrap().depth() < 3));
}

fn cloned(_: *const ()) -> RawWaker {
    comes_back();
    drop(LEAVES.take());
    RawWaker::new(ptr::null(), &TABLE)
}

fn dropped(_: *const ()) {
    comes_back();
    assert!(!PANICS.take(), "as the test wants");
}

static TABLE: RawWakerVTable = RawWakerVTable::new(cloned, |_| comes_back(), |_| comes_back(), dropped);

fn waker() -> Waker {
    // SAFETY: the table does nothing with the pointer, and each call of it may come from any thread.
    unsafe { Waker::new(ptr::null(), &TABLE) }
}

fn polled<F: Future + Unpin>(future: &mut F) -> Poll<F::Output> {
    Pin::new(future).poll(&mut Context::from_waker(&waker()))
}

/// Runs a test with a queue of one tag, to which the wakers come back.
fn with_queue(test: impl FnOnce(&Queue) + Send + 'static) {
    ends(move || {
        let queue = Arc::new(Queue::builder(LIMITS).slots(1).tags(1).build().unwrap());
        QUEUE.set(Some(Arc::clone(&queue)));
        test(&queue);
        assert!(CALLS.get() > 2, "a waker comes back");
        QUEUE.set(None);
        Arc::into_inner(queue).unwrap().remove().unwrap();
    });
}

#[test]
fn a_task_waits_for_the_thaw() {
    with_queue(|queue| {
        let frozen = queue.freeze().unwrap();
        let mut tag = queue.tag().unwrap();
        let mut entering = Box::pin(queue.enter_async(&mut tag));
        assert!(polled(&mut entering).is_pending());
        assert!(polled(&mut entering).is_pending(), "another waker in place of the first");
        drop(entering);
        let mut entering = Box::pin(queue.enter_owned_async(tag));
        assert!(polled(&mut entering).is_pending());
        drop(frozen);
        assert!(polled(&mut entering).is_ready());
    });
}

#[test]
fn a_task_waits_in_line() {
    with_queue(|queue| {
        let request = queue.enter_any().unwrap();
        let mut line: Vec<_> = (0..3).map(|_| Box::pin(queue.enter_any_async())).collect();
        for future in &mut line {
            assert!(polled(future).is_pending());
        }
        assert!(polled(&mut line[2]).is_pending(), "another waker in place of the first");
        drop(line.pop());
        drop(request);
        assert!(polled(&mut line[0]).is_ready());
        queue.freeze().unwrap().mark_dying();
        assert!(matches!(polled(&mut line[1]), Poll::Ready(Err(_))));
    });
}

/// A tag comes home while the future clones the waker for its place in line, which it doesn't need then.
#[test]
fn a_tag_comes_home_just_before_the_line() {
    with_queue(|queue| {
        LEAVES.set(Some(queue.enter_any().unwrap()));
        assert!(matches!(polled(&mut Box::pin(queue.enter_any_async())), Poll::Ready(Ok(_))));
    });
}

/// The waker that a future doesn't need panics as it is dropped: the tag that it got goes home, before the line and in it.
#[test]
fn a_waker_panics_as_a_tag_is_there() {
    with_queue(|queue| {
        fn panics(future: &mut (impl Future + Unpin)) -> bool {
            PANICS.set(true);
            catch_unwind(AssertUnwindSafe(|| polled(future).is_ready())).is_err()
        }
        LEAVES.set(Some(queue.enter_any().unwrap()));
        let mut before = Box::pin(queue.enter_any_async());
        assert!(panics(&mut before));
        let request = queue.try_enter_any().unwrap();
        let mut in_line = Box::pin(queue.enter_any_async());
        assert!(polled(&mut in_line).is_pending());
        drop(request);
        assert!(panics(&mut in_line));
        assert!(queue.try_enter_any().is_ok());
    });
}

#[test]
fn a_task_waits_for_the_drain() {
    with_queue(|queue| {
        let request = queue.enter_any().unwrap();
        let (mut freezing, mut another) = (Box::pin(queue.freeze_async()), Box::pin(queue.freeze_async()));
        assert!(polled(&mut freezing).is_pending() && polled(&mut another).is_pending());
        assert!(polled(&mut freezing).is_pending(), "another waker in place of the first");
        drop(another);
        drop(request);
        assert!(polled(&mut freezing).is_ready());
    });
}
