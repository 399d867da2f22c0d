//! A queue that guards a value: `&T` under a request, `&mut T` under a freeze, and T back. Run under the thread sanitizer, and by Miri, too.
use freeze_queue::{EnterError, FreezeError, Limits, NewError, OwnedRequest, Queue, RemoveError, UpdateError};
use std::env;
use std::future::Future;
use std::mem;
use std::panic::{AssertUnwindSafe, catch_unwind};
use std::sync::atomic::{AtomicU64, Ordering::Relaxed};
use std::sync::{Arc, Barrier, mpsc};
use std::task::{Context, Poll, Waker};
use std::thread;
use std::time::Duration;

fn queue<T>(value: T) -> Queue<T> {
    Queue::builder(Limits::of_hardware(64)).slots(2).tags(4).value(value).build().unwrap()
}

fn rounds(usual: u64) -> u64 {
    if cfg!(miri) {
        20
    } else {
        env::var("FREEZE_QUEUE_ROUNDS").map_or(usual, |it| it.parse::<u64>().unwrap().min(usual))
    }
}

/// Counts how often it is dropped.
#[derive(Debug)]
struct Dropped(Arc<AtomicU64>);

impl Drop for Dropped {
    fn drop(&mut self) {
        self.0.fetch_add(1, Relaxed);
    }
}

/// Settings that belong together, and a place for each tag that its request alone writes.
struct Device {
    first: u64,
    settings: Vec<u64>,
    served: AtomicU64,
}

impl Device {
    fn change(&mut self, to: u64) {
        self.first = to;
        self.settings = vec![to; 1 + usize::try_from(to % 7).unwrap()];
    }

    fn serve(&self) {
        assert!(!self.settings.is_empty() && self.settings.iter().all(|it| *it == self.first));
        self.served.fetch_add(1, Relaxed);
    }
}

/// Waits for each thread by a join, which the sanitizer sees.
fn join(threads: Vec<thread::JoinHandle<()>>) {
    for thread in threads {
        thread.join().unwrap();
    }
}

/// Requests see each change whole, though a change frees what they read before.
#[test]
fn requests_beside_changes() {
    let queue = Arc::new(queue(Device { first: 0, settings: vec![0], served: AtomicU64::new(0) }));
    let (rounds, changes) = (rounds(20_000), rounds(2_000));
    let mut threads = Vec::new();
    for _ in 0..3 {
        let (queue, mut tag) = (Arc::clone(&queue), queue.tag().unwrap());
        threads.push(thread::spawn(move || {
            (0..rounds).for_each(|_| queue.enter(&mut tag).unwrap().serve());
            drop(tag);
        }));
    }
    for freezer in 0..2 {
        let queue = Arc::clone(&queue);
        threads.push(thread::spawn(move || {
            for change in 0..changes {
                queue.freeze().unwrap().lock().change(2 * change + freezer);
            }
        }));
    }
    join(threads);
    let last = Arc::into_inner(queue).unwrap().remove().unwrap();
    assert_eq!(last.value.served.into_inner(), 3 * rounds);
    assert!(last.kills <= 2 * changes + 1);
}

/// Freezes nest: each of them adds to a plain number, and no sum is lost.
#[test]
fn nested_freezes_have_the_value_in_turn() {
    let (queue, rounds) = (Arc::new(queue(0_u64)), rounds(2_000));
    let outer = queue.freeze().unwrap();
    let adds =
        |queue: Arc<Queue<u64>>| thread::spawn(move || (0..rounds).for_each(|_| *queue.freeze().unwrap().lock() += 1));
    let threads = (0..3).map(|_| adds(Arc::clone(&queue))).collect();
    (0..rounds).for_each(|_| *outer.lock() += 1);
    join(threads);
    drop(outer);
    assert_eq!(Arc::into_inner(queue).unwrap().remove().unwrap().value, 4 * rounds);
}

#[test]
fn each_call_lends_the_value() {
    let queue = queue(String::from("disk"));
    let mut tag = queue.tag().unwrap();
    assert_eq!(*queue.enter(&mut tag).unwrap(), "disk");
    assert_eq!(*queue.try_enter(&mut tag).unwrap(), "disk");
    assert_eq!(*queue.try_enter_frozen(&mut tag).unwrap(), "disk");
    let request = queue.enter_timeout(&mut tag, Duration::ZERO).unwrap();
    assert_eq!((request.len(), request.limits().max), (4, 64));
    assert_eq!(queue.try_freeze().unwrap_err(), FreezeError::NotDrained);
    assert_eq!(queue.freeze_timeout(Duration::ZERO).unwrap_err(), FreezeError::TimedOut);
    drop(request);
    let frozen = queue.try_freeze().unwrap();
    assert_eq!(queue.try_enter(&mut tag).unwrap_err(), EnterError::Frozen);
    frozen.lock().push('s');
    frozen.set(Limits::of_hardware(64).with_max(8)).unwrap();
    assert_eq!(format!("{:?}", frozen.lock()), "Alone(\"disks\")");
    drop(frozen);
    assert_eq!(*queue.enter(&mut tag).unwrap(), "disks");
    queue.freeze_timeout(Duration::ZERO).unwrap().mark_dying();
    assert_eq!(queue.enter(&mut tag).unwrap_err(), EnterError::Dying);
    let refused = queue.remove().unwrap_err();
    assert_eq!(refused.reason, RemoveError::TagsOut);
    drop(tag);
    assert_eq!(refused.value.remove().unwrap().value, "disks");
}

/// A thread that panics under a freeze leaves the value as it is, and thaws; one that panics under a request leaves.
#[test]
fn panics_in_the_middle() {
    let queue = queue(vec![1]);
    let mut tag = queue.tag().unwrap();
    let changes = catch_unwind(AssertUnwindSafe(|| {
        let frozen = queue.freeze().unwrap();
        let mut value = frozen.lock();
        value.push(2);
        panic!("halfway");
    }));
    assert!(changes.is_err());
    let reads = catch_unwind(AssertUnwindSafe(|| {
        let request = queue.enter(&mut tag).unwrap();
        assert_eq!(*request, [1, 2]);
        panic!("in flight");
    }));
    assert!(reads.is_err());
    queue.try_freeze().unwrap().lock().push(3);
    assert_eq!(*queue.enter(&mut tag).unwrap(), [1, 2, 3]);
}

/// Each change of the value by a turn is kept, one at a time, and none runs beside a request. What a closure returns is returned.
#[test]
fn the_value_is_updated() {
    let queue = queue(0_u64);
    thread::scope(|threads| {
        for _ in 0..4 {
            threads.spawn(|| (0..rounds(500)).for_each(|_| queue.update_value(|value| *value += 1).unwrap()));
        }
        threads.spawn(|| {
            for _ in 0..rounds(500) {
                let request = queue.enter_any().unwrap();
                let was = *request;
                assert_eq!(*request, was);
            }
        });
    });
    assert_eq!(queue.update_value(|value| (*value, "told")).unwrap(), (4 * rounds(500), "told"));
    assert_eq!((queue.depth(), queue.stats().updates), (0, 0));
}

/// The closure may not update its queue, and isn't called late. A future that is dropped changes nothing.
#[test]
fn an_update_of_the_value_ends() {
    let queue = queue(vec![1]);
    let nested =
        queue.update_value(|_| (queue.update(|limits| limits), queue.update_value(|_| ()), queue.freeze().map(drop)));
    assert_eq!(nested.unwrap(), (Err(UpdateError::Nested), Err(UpdateError::Nested), Ok(())));
    let request = queue.enter_any().unwrap();
    assert_eq!(
        queue.update_value_timeout(Duration::from_millis(1), |_| panic!("too late")),
        Err::<(), _>(UpdateError::TimedOut)
    );
    let mut waits = Box::pin(queue.update_value_async(|value| value.push(2)));
    let mut context = Context::from_waker(Waker::noop());
    assert_eq!(waits.as_mut().poll(&mut context), Poll::Pending);
    assert_eq!((queue.depth(), queue.update_value_timeout(Duration::ZERO, |_| ())), (1, Err(UpdateError::TimedOut)));
    drop(request);
    assert_eq!(waits.as_mut().poll(&mut context), Poll::Ready(Ok(())));
    let request = queue.enter_any().unwrap();
    let mut dropped = Box::pin(queue.update_value_async(|value| value.push(3)));
    assert_eq!(dropped.as_mut().poll(&mut context), Poll::Pending);
    drop(dropped);
    assert_eq!((queue.depth(), request.len()), (0, 2));
    drop(request);
    assert_eq!(queue.update_value_timeout(Duration::from_secs(60), |value| value.len()), Ok(2));
}

/// A closure that panics gives up its turn and its freeze, and leaves the value as it is.
#[test]
fn an_update_of_the_value_panics() {
    let queue = queue(vec![1]);
    let halfway = catch_unwind(AssertUnwindSafe(|| {
        queue.update_value(|value| {
            value.push(2);
            panic!("halfway");
        })
    }));
    assert!(halfway.is_err());
    assert_eq!((queue.depth(), queue.freeze().unwrap().try_lock().map(|value| value.len())), (0, Some(2)));
    assert_eq!(queue.update_value(|value| value.len()).unwrap(), 2);
}

/// While a freeze has the value, a try for another freeze finds that, and a lock on another thread waits.
#[test]
fn one_freeze_has_the_value() {
    let queue = queue(1);
    let (frozen, nested) = (queue.freeze().unwrap(), queue.freeze().unwrap().into_owned());
    let value = frozen.lock();
    assert!(nested.try_lock().is_none() && frozen.try_lock().is_none());
    let tried = Barrier::new(2);
    thread::scope(|threads| {
        let other = threads.spawn(|| {
            assert!(nested.try_lock().is_none());
            tried.wait();
            *nested.lock() += 1;
        });
        tried.wait();
        thread::sleep(Duration::from_millis(5));
        drop(value);
        other.join().unwrap();
    });
    assert_eq!(frozen.try_lock().as_deref(), Some(&2));
    assert_eq!(*nested.lock(), 2);
}

/// A second lock on one thread panics, and leaves the first as it is.
#[test]
fn a_second_lock_panics() {
    let queue = queue(1);
    let (frozen, nested) = (queue.freeze().unwrap(), queue.freeze().unwrap());
    let mut value = frozen.lock();
    assert!(catch_unwind(AssertUnwindSafe(|| drop(nested.lock()))).is_err());
    *value += 1;
    drop(value);
    assert_eq!(*nested.lock(), 2);
}

/// A request that was forgotten holds each change off, for ever, and a freeze that was forgotten each request.
#[test]
fn what_is_forgotten_stays() {
    let dropped = Arc::new(AtomicU64::new(0));
    let kept = queue(Dropped(Arc::clone(&dropped)));
    let mut tag = kept.tag().unwrap();
    mem::forget(kept.enter(&mut tag).unwrap());
    assert_eq!(kept.try_freeze().unwrap_err(), FreezeError::NotDrained);
    drop((tag, kept));
    assert_eq!(dropped.load(Relaxed), 1, "a request that was forgotten borrows its tag, and the queue");
    let kept = queue(Dropped(Arc::clone(&dropped)));
    let mut tag = kept.tag().unwrap();
    mem::forget(kept.freeze().unwrap());
    assert_eq!(kept.try_enter(&mut tag).unwrap_err(), EnterError::Frozen);
    drop(kept.freeze().unwrap().lock());
    let leaked: &Queue<Dropped> = Box::leak(Box::new(kept));
    mem::forget(leaked.freeze().unwrap().lock());
    assert_eq!(dropped.load(Relaxed), 1);
}

/// A value whose drop panics, by the last share of its queue: the panic goes on in the call that dropped that.
#[test]
fn the_drop_of_the_value_panics() {
    struct Panics;
    impl Drop for Panics {
        fn drop(&mut self) {
            panic!("the device fails");
        }
    }
    let (one, other) = (queue(Panics), queue(Panics));
    let request = one.enter_any().unwrap();
    drop(one);
    assert!(catch_unwind(AssertUnwindSafe(|| drop(request))).is_err());
    assert!(catch_unwind(AssertUnwindSafe(|| drop(other))).is_err());
}

/// Each end of a queue drops its value once.
#[test]
fn the_value_is_dropped_once() {
    let dropped = Arc::new(AtomicU64::new(0));
    let value = || Dropped(Arc::clone(&dropped));
    drop(queue(value()));
    assert_eq!(dropped.load(Relaxed), 1);
    let refused = Queue::builder(Limits::of_hardware(64)).slots(513).tags(1).value(value()).build().unwrap_err();
    assert_eq!(refused.reason, NewError::Size);
    drop(refused);
    assert_eq!(dropped.load(Relaxed), 2);
    drop(queue(value()).remove().unwrap().value);
    assert_eq!(dropped.load(Relaxed), 3);
    let refused = {
        let queue = queue(value());
        let _out = queue.tag().unwrap();
        queue.remove().unwrap_err()
    };
    assert_eq!(dropped.load(Relaxed), 3);
    drop(refused);
    assert_eq!(dropped.load(Relaxed), 4);
    drop(queue(value()).remove().unwrap());
    *queue(value()).freeze().unwrap().lock() = value();
    assert_eq!(dropped.load(Relaxed), 7);
}

/// A request with its value crosses threads, and leaves on the other.
#[test]
fn a_request_ends_on_another_thread() {
    let queue: &'static Queue<AtomicU64> = Box::leak(Box::new(queue(AtomicU64::new(7))));
    let tag = Box::leak(Box::new(queue.tag().unwrap()));
    let request = queue.enter(tag).unwrap();
    join(vec![thread::spawn(move || assert_eq!(request.fetch_add(1, Relaxed), 7))]);
    assert_eq!(*queue.try_freeze().unwrap().lock().get_mut(), 8);
}

/// Any tag, and a tag that goes along: each lends the value, and the tag is free again.
#[test]
fn requests_with_tags_of_their_own() {
    let queue = Arc::new(Queue::builder(Limits::of_hardware(64)).slots(1).tags(1).value(vec![7, 8]).build().unwrap());
    let request = queue.enter_any().unwrap();
    assert_eq!((request[0], request.limits().max), (7, 64));
    assert_eq!(queue.try_enter_any().unwrap_err(), EnterError::NoTag);
    assert_eq!(queue.try_freeze().unwrap_err(), FreezeError::NotDrained);
    drop(request);
    let request = queue.enter_owned(queue.tag().unwrap()).unwrap();
    assert_eq!((request.len(), request.limits().max), (2, 64));
    let ends = thread::spawn(move || (request[1], request.leave()));
    let (read, tag) = ends.join().unwrap();
    assert_eq!((read, Arc::strong_count(&queue)), (8, 1));
    let frozen = queue.freeze().unwrap();
    frozen.lock().push(9);
    drop((frozen, tag));
    assert_eq!(*queue.try_enter_any().unwrap(), [7, 8, 9]);
}

/// A device is served by one tag between two changes of it.
#[test]
fn a_device_is_served() {
    let queue = queue(1);
    let mut tag = queue.tag().unwrap();
    for value in 1..4 {
        for _ in 0..3 {
            assert_eq!(*queue.enter(&mut tag).unwrap(), value);
        }
        *queue.freeze().unwrap().lock() += 1;
    }
    assert_eq!(*queue.enter(&mut tag).unwrap(), 4);
    drop(tag);
    assert_eq!(queue.remove().unwrap().value, 4);
}

/// An owned request keeps the queue and its value; the value is dropped with the last share, after the request has left.
#[test]
fn an_owned_request_keeps_the_value() {
    let dropped = Arc::new(AtomicU64::new(0));
    let queue = queue(Dropped(Arc::clone(&dropped)));
    let request = queue.enter_owned(queue.tag().unwrap()).unwrap();
    drop(queue);
    assert_eq!((dropped.load(Relaxed), Arc::strong_count(&request.0)), (0, 2));
    drop(request);
    assert_eq!(dropped.load(Relaxed), 1);
}

/// A request that waits by a future, and a freeze that does, lend the value as others do.
#[test]
fn futures_lend_the_value() {
    fn now<F: Future>(future: F) -> F::Output {
        let mut context = std::task::Context::from_waker(std::task::Waker::noop());
        match std::pin::pin!(future).poll(&mut context) {
            std::task::Poll::Ready(done) => done,
            std::task::Poll::Pending => panic!("nobody is waited for"),
        }
    }
    let queue = queue(String::from("disk"));
    let mut tag = queue.tag().unwrap();
    assert_eq!(*now(queue.enter_async(&mut tag)).unwrap(), "disk");
    now(queue.freeze_async()).unwrap().lock().push('s');
    assert_eq!(*now(queue.enter_any_async()).unwrap(), "disks");
}

/// Requests of a service with a share of the queue, with any tag: other threads end them, and each tag is home at the end.
#[test]
fn requests_with_any_tag_that_other_threads_end() {
    let (queue, rounds) = (Arc::new(queue(AtomicU64::new(0))), rounds(2_000));
    let (mut threads, mut completers) = (Vec::new(), Vec::new());
    for _ in 0..2 {
        let (sent, requests) = mpsc::channel::<OwnedRequest<AtomicU64>>();
        let entered = Arc::clone(&queue);
        threads.push(thread::spawn(move || {
            (0..rounds).for_each(|_| sent.send(entered.enter_any().unwrap()).unwrap());
        }));
        completers.push(thread::spawn(move || {
            for served in requests {
                served.fetch_add(1, Relaxed);
            }
        }));
    }
    for _ in 0..rounds / 100 {
        drop(queue.freeze().unwrap());
    }
    join(threads);
    join(completers);
    let all: Vec<_> = (0..4).map(|_| queue.try_enter_any().unwrap()).collect();
    assert_eq!(queue.try_enter_any().unwrap_err(), EnterError::NoTag);
    let late = queue.enter_any_timeout(Duration::ZERO);
    assert_eq!(late.unwrap_err(), EnterError::TimedOut);
    let mut waits = Box::pin(queue.enter_any_owned_async());
    let mut context = Context::from_waker(Waker::noop());
    assert!(waits.as_mut().poll(&mut context).is_pending());
    drop(all);
    let Poll::Ready(Ok(request)) = waits.as_mut().poll(&mut context) else { panic!("it was handed a tag") };
    drop((request, waits));
    let last = Arc::into_inner(queue).unwrap().remove().unwrap();
    assert_eq!(last.value.into_inner(), 2 * rounds);
}

/// The calls that forward: limits, a freeze in two steps, a freeze with a share, and requests with a tag of their own.
#[test]
fn freezes_with_a_share_and_in_steps() {
    let queue = Arc::new(queue(7));
    assert_eq!(queue.update(|limits| limits.with_max(8)).unwrap(), queue.limits());
    let request = queue.try_enter_owned(queue.tag().unwrap()).unwrap();
    let freezing = queue.begin_freeze().unwrap().wait_timeout(Duration::ZERO).unwrap_err();
    assert!(!freezing.is_drained());
    let late = queue.enter_any_timeout(Duration::ZERO);
    assert_eq!(late.unwrap_err(), EnterError::TimedOut);
    let refused = queue.try_enter_owned(request.leave()).unwrap_err();
    assert_eq!(refused.reason, EnterError::Frozen);
    *freezing.wait().lock() += 1;
    let owned = queue.freeze().unwrap().into_owned();
    *owned.lock() += 1;
    let mut waits = Box::pin(queue.enter_owned_async(refused.value));
    let mut context = Context::from_waker(Waker::noop());
    assert!(waits.as_mut().poll(&mut context).is_pending());
    owned.set(queue.limits().with_chunk(8)).unwrap();
    drop(owned);
    let Poll::Ready(Ok(request)) = waits.as_mut().poll(&mut context) else { panic!("it is live") };
    assert_eq!((*request, request.limits().chunk), (9, 8));
    drop((request, waits));
    queue.freeze().unwrap().into_owned().mark_dying();
    assert_eq!(queue.enter_any().unwrap_err(), EnterError::Dying);
    assert_eq!(Arc::into_inner(queue).unwrap().remove().unwrap().value, 9);
}
