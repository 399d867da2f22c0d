//! Each allocation is refused in turn: the call returns an ordinary error, nothing is lost and nothing leaks.
//! (This program's allocator is its own, which refuses and counts on one thread, so it has `unsafe`.)
#![allow(unsafe_code)]

use freeze_queue::{EnterError, FreezeError, NewError, Queue, Tag};
use std::alloc::{GlobalAlloc, Layout, System};
use std::cell::Cell;
use std::future::Future;
use std::mem;
use std::pin::pin;
use std::ptr;
use std::sync::Arc;
use std::task::{Context, Poll, Waker};
use std::time::Duration;

mod shared;
use shared::{LIMITS, Woken};

thread_local! {
    /// How many allocations succeed before one is refused. `None`: none is refused.
    static ALLOWED: Cell<Option<u64>> = const { Cell::new(None) };
    /// Allocations that were asked for.
    static ASKED: Cell<u64> = const { Cell::new(0) };
    /// Blocks that were allocated, less those that were freed.
    static BLOCKS: Cell<i64> = const { Cell::new(0) };
    /// The bytes of those blocks.
    static BYTES: Cell<i64> = const { Cell::new(0) };
}

/// The system's allocator, which refuses and counts.
struct Refusing;

// SAFETY: each block is the system's, of the same layout; a refusal is null, as the trait has it.
unsafe impl GlobalAlloc for Refusing {
    unsafe fn alloc(&self, layout: Layout) -> *mut u8 {
        ASKED.set(ASKED.get() + 1);
        match ALLOWED.get() {
            Some(0) => return ptr::null_mut(),
            Some(left) => ALLOWED.set(Some(left - 1)),
            None => {}
        }
        // SAFETY: the caller meets the precondition, which is the same.
        let at = unsafe { System.alloc(layout) };
        BLOCKS.set(BLOCKS.get() + i64::from(!at.is_null()));
        BYTES.set(BYTES.get() + if at.is_null() { 0 } else { i64::try_from(layout.size()).unwrap_or(0) });
        at
    }

    unsafe fn dealloc(&self, at: *mut u8, layout: Layout) {
        BLOCKS.set(BLOCKS.get() - 1);
        BYTES.set(BYTES.get() - i64::try_from(layout.size()).unwrap_or(0));
        // SAFETY: the block is the system's, of this layout.
        unsafe { System.dealloc(at, layout) }
    }
}

#[global_allocator]
static ALLOCATOR: Refusing = Refusing;

/// The result of a call if so many allocations succeed and the next one fails.
fn after<T>(allowed: u64, call: impl FnOnce() -> T) -> T {
    ALLOWED.set(Some(allowed));
    let answer = call();
    ALLOWED.set(None);
    answer
}

fn end(queue: Queue, tag: Tag) {
    drop(tag);
    assert_eq!(queue.remove().unwrap().limits, LIMITS);
}

/// The bytes of a queue are those of rust/README.md.
#[test]
fn a_queue_has_the_bytes_of_the_page() {
    for (slots, tags) in [(1, 1), (512, 1), (1, 1_023), (512, 1_023)] {
        let before = BYTES.get();
        let queue = Queue::builder(LIMITS).slots(slots).tags(tags).build().unwrap();
        let rest = BYTES.get() - before - 128 * i64::from(slots) - 904 * i64::from(tags);
        assert!((2_400..2_600).contains(&rest), "{rest} bytes beside {slots} slots and {tags} tags");
        queue.remove().unwrap();
    }
}

/// Each allocation but the last, the `Arc` that the queue and its tags share: stable Rust can't refuse it.
#[test]
fn each_allocation_refused() {
    let new = || Queue::builder(LIMITS).slots(512).tags(2).build();
    let (asked, blocks) = (ASKED.get(), BLOCKS.get());
    let queue = new().unwrap();
    let asked = ASKED.get() - asked;
    assert!(asked > 6, "a queue takes more than six allocations");
    for allowed in 0..asked - 1 {
        let blocks = BLOCKS.get();
        assert_eq!(after(allowed, new).unwrap_err().reason, NewError::NoMemory);
        assert_eq!(BLOCKS.get(), blocks);
    }
    assert!(after(asked, new).is_ok());
    let mut tag = after(0, || queue.tag().unwrap());
    assert_eq!(queue.try_enter(&mut tag).unwrap().limits(), &LIMITS);
    end(queue, tag);
    assert_eq!(BLOCKS.get(), blocks, "nothing leaks");
}

/// No call but `Queue::new` asks for memory: neither those that wait, nor a future that does, nor the end.
#[test]
fn the_rest_needs_no_memory() {
    let blocks = BLOCKS.get();
    let queue = Queue::builder(LIMITS).slots(4).tags(3).build().unwrap();
    let (mut tag, mut other) = (queue.tag().unwrap(), queue.tag().unwrap());
    after(0, || {
        let request = queue.enter(&mut tag).unwrap();
        assert_eq!(request.pieces(0, 64).unwrap().count(), 2);
        assert_eq!(queue.try_freeze().unwrap_err(), FreezeError::NotDrained);
        assert_eq!(queue.freeze_timeout(Duration::from_millis(1)).unwrap_err(), FreezeError::TimedOut);
        drop(request);
        let frozen = queue.freeze().unwrap();
        frozen.set(LIMITS).unwrap();
        assert_eq!(queue.try_enter(&mut other).unwrap_err(), EnterError::Frozen);
        let late = queue.enter_timeout(&mut other, Duration::from_millis(1));
        assert_eq!(late.unwrap_err(), EnterError::TimedOut);
        let mut context = Context::from_waker(Waker::noop());
        let mut entering = pin!(queue.enter_async(&mut tag));
        assert!(entering.as_mut().poll(&mut context).is_pending());
        drop(frozen);
        assert!(matches!(entering.poll(&mut context), Poll::Ready(Ok(_))));
    });
    after(0, || {
        queue.switch_to_atomic();
        drop(other);
        queue.freeze().unwrap().mark_dying();
        end(queue, tag);
    });
    assert_eq!(BLOCKS.get(), blocks, "nothing leaks");
}

/// A queue takes 128 bytes for each slot, and the same for each tag as for any other, whatever the greatest queue takes: counts lie in lines of their
/// own.
#[test]
fn memory_grows_by_what_is_asked_for() {
    let taken = |slots, tags| {
        let before = BYTES.get();
        let queue = Queue::builder(LIMITS).slots(slots).tags(tags).build().unwrap();
        let taken = BYTES.get() - before;
        queue.remove().unwrap();
        assert_eq!(BYTES.get(), before);
        taken
    };
    let least = taken(1, 1);
    let of_a_tag = taken(1, 2) - least;
    assert!(least < 4_096 && of_a_tag < 1_024, "{least} and {of_a_tag} bytes");
    for (slots, tags) in [(2, 1), (64, 1), (512, 1), (1, 63), (1, 1_023), (8, 100), (512, 1_023)] {
        assert_eq!(taken(slots, tags), least + 128 * i64::from(slots - 1) + of_a_tag * i64::from(tags - 1));
    }
}

/// Queues that ended leave nothing behind, however many there were at once.
#[test]
fn ended_queues_leave_nothing() {
    let (bytes, blocks) = (BYTES.get(), BLOCKS.get());
    let all: Vec<Queue> = (0..100).map(|_| Queue::builder(LIMITS).slots(4).tags(64).build().unwrap()).collect();
    for (number, queue) in all.into_iter().enumerate() {
        if number % 2 == 0 {
            drop(queue);
        } else {
            queue.remove().unwrap();
        }
    }
    assert_eq!((BYTES.get(), BLOCKS.get()), (bytes, blocks));
}

/// The forms with a tag of their own and freezes need no memory either; the line does, and says so, and a future that waits for
/// the drain does without.
#[test]
fn memory_of_what_waits() {
    let blocks = BLOCKS.get();
    let queue = Queue::builder(LIMITS).slots(4).tags(2).build().unwrap();
    let mut context = Context::from_waker(Waker::noop());
    after(0, || {
        let request = queue.enter_owned(queue.tag().unwrap()).unwrap();
        let other = queue.enter_any().unwrap();
        assert_eq!(queue.enter_any().unwrap_err(), EnterError::NoMemory);
        let late = queue.enter_any_timeout(Duration::ZERO);
        assert_eq!(late.unwrap_err(), EnterError::NoMemory);
        assert!(matches!(pin!(queue.enter_any_async()).poll(&mut context), Poll::Ready(Err(EnterError::NoMemory))));
        drop(other);
        let mut drained = pin!(queue.begin_freeze().unwrap().into_owned().drained());
        assert!(drained.as_mut().poll(&mut context).is_pending());
        let mut entering = pin!(queue.enter_any_async());
        assert!(entering.as_mut().poll(&mut context).is_pending(), "it has a tag, and waits for the thaw");
        drop(request);
        let Poll::Ready(frozen) = drained.poll(&mut context) else { panic!("it is drained") };
        frozen.set(LIMITS).unwrap();
        drop(frozen);
        assert!(matches!(entering.poll(&mut context), Poll::Ready(Ok(_))));
    });
    queue.remove().unwrap();
    assert_eq!(BLOCKS.get(), blocks, "nothing leaks");
}

/// A future of the drain whose waker can't be noted wakes itself, and so looks again.
#[test]
fn a_drain_is_waited_for_without_memory() {
    let queue = Queue::builder(LIMITS).slots(1).tags(1).build().unwrap();
    let request = queue.enter_any().unwrap();
    let woken = Arc::new(Woken::default());
    let waker = Waker::from(Arc::clone(&woken));
    let mut context = Context::from_waker(&waker);
    let mut drained = pin!(queue.begin_freeze().unwrap().drained());
    for times in 1..4 {
        assert!(after(0, || drained.as_mut().poll(&mut context).is_pending()));
        assert_eq!(woken.times(), times);
    }
    assert!(drained.as_mut().poll(&mut context).is_pending());
    drop(request);
    assert_eq!(woken.times(), 4, "by the drain");
    assert!(drained.poll(&mut context).is_ready());
}

/// Dropping in place of ending leaks nothing: a tag that a request takes along, one whose request was forgotten, and
/// a share of the queue that a request has.
#[test]
fn what_is_dropped_is_freed() {
    let blocks = BLOCKS.get();
    let queue = Queue::builder(LIMITS).slots(4).tags(4).build().unwrap();
    let (mut tag, other) = (queue.tag().unwrap(), queue.tag().unwrap());
    let taken = queue.tag().unwrap();
    mem::forget(queue.enter(&mut tag).unwrap());
    drop(queue.enter_owned(other).unwrap());
    let request = queue.enter_owned(taken).unwrap();
    let freezing = queue.begin_freeze().unwrap().into_owned();
    drop(queue);
    drop(tag);
    drop(request.leave());
    assert_ne!(BLOCKS.get(), blocks, "a freeze has a share");
    drop(freezing);
    assert_eq!(BLOCKS.get(), blocks + 1, "the places, of which a forgotten request has one");
}

/// A tag that is out when its queue is dropped frees it as it is dropped itself.
#[test]
fn the_last_tag_frees_its_queue() {
    let blocks = BLOCKS.get();
    let queue = Queue::builder(LIMITS).slots(1).tags(1023).build().unwrap();
    let tag = queue.tag().unwrap();
    drop(queue);
    assert_ne!(BLOCKS.get(), blocks);
    drop(tag);
    assert_eq!(BLOCKS.get(), blocks);
}
