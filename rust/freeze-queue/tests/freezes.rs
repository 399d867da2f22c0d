//! Freezes that are begun first and waited for later, by threads and by futures, and freezes with a share of the queue.
use freeze_queue::{EnterError, FreezeError, OwnedFrozen, Queue, RemoveError, Tag};
use std::future::Future;
use std::mem;
use std::pin::{Pin, pin};
use std::sync::atomic::{AtomicBool, Ordering};
use std::sync::{Arc, mpsc};
use std::task::{Context, Poll, Waker};
use std::thread;
use std::time::Duration;

mod shared;
use shared::{LIMITS, Woken, block_on, ends, number_of};

fn with_tags() -> (Queue, Tag, Tag) {
    let queue = Queue::builder(LIMITS).slots(1).tags(2).build().unwrap();
    let (tag, other) = (queue.tag().unwrap(), queue.tag().unwrap());
    (queue, tag, other)
}

fn polled<F: Future>(future: &mut Pin<Box<F>>, woken: &Arc<Woken>) -> Poll<F::Output> {
    Pin::new(future).poll(&mut Context::from_waker(&Waker::from(Arc::clone(woken))))
}

/// Begun, not drained, drained: in each of the ways to wait.
#[test]
fn a_freeze_that_was_begun() {
    let (queue, mut tag, mut other) = with_tags();
    for way in 0..4 {
        let request = queue.enter(&mut tag).unwrap();
        let freezing = queue.begin_freeze().unwrap();
        assert_eq!((queue.depth(), freezing.is_drained()), (1, false));
        assert_eq!(queue.try_enter(&mut other).unwrap_err(), EnterError::Frozen);
        let freezing = freezing.wait_timeout(Duration::from_millis(1)).unwrap_err();
        drop(request);
        assert!(freezing.is_drained());
        match way {
            0 => freezing.wait().set(LIMITS.with_max(8)).unwrap(),
            1 => freezing.wait_timeout(Duration::ZERO).unwrap().set(LIMITS).unwrap(),
            2 => block_on(freezing.drained()).set(LIMITS.with_max(4)).unwrap(),
            _ => drop(freezing),
        }
        assert_eq!(queue.depth(), 0);
    }
    assert_eq!(queue.enter(&mut tag).unwrap().limits().max, 4);
}

/// The call that leaves last wakes each future that waits for the drain, once; the last waker of each.
#[test]
fn the_drain_wakes_each_future() {
    let (queue, mut tag, mut other) = with_tags();
    let (request, last) = (queue.enter(&mut tag).unwrap(), queue.enter(&mut other).unwrap());
    let mut all: Vec<_> = (0..4)
        .map(|_| (Box::pin(queue.begin_freeze().unwrap().drained()), Arc::<Woken>::default(), Arc::<Woken>::default()))
        .collect();
    for (future, first, woken) in &mut all {
        assert!(polled(future, first).is_pending() && polled(future, woken).is_pending());
        assert_eq!((Arc::strong_count(first), Arc::strong_count(woken)), (1, 2));
    }
    let (cancelled, _, woken) = all.remove(2);
    drop(cancelled);
    assert_eq!((Arc::strong_count(&woken), queue.depth()), (1, 3));
    drop(request);
    assert!(all.iter().all(|(_, _, woken)| woken.times() == 0));
    drop(last);
    assert!(all.iter().all(|(_, first, woken)| (first.times(), woken.times()) == (0, 1)));
    assert_eq!(woken.times(), 0);
    let frozen: Vec<_> = all
        .iter_mut()
        .map(|(future, _, woken)| match polled(future, woken) {
            Poll::Ready(frozen) => frozen,
            Poll::Pending => panic!("it is drained"),
        })
        .collect();
    drop(all);
    assert_eq!(queue.depth(), 3);
    drop(frozen);
    assert_eq!(queue.depth(), 0);
}

/// Nothing is done before a poll; a future that is dropped thaws, and wakes those that wait to enter.
#[test]
fn a_freeze_by_a_future() {
    let (queue, mut tag, mut other) = with_tags();
    let request = queue.enter(&mut tag).unwrap();
    let woken = Arc::<Woken>::default();
    let waker = Waker::from(Arc::clone(&woken));
    {
        let mut freezes = pin!(queue.freeze_async());
        assert_eq!(queue.depth(), 0);
        assert!(freezes.as_mut().poll(&mut Context::from_waker(&waker)).is_pending());
        assert_eq!(queue.depth(), 1);
        let mut entering = Box::pin(queue.enter_async(&mut other));
        assert!(Pin::new(&mut entering).poll(&mut Context::from_waker(&waker)).is_pending());
    }
    assert_eq!((queue.depth(), woken.times()), (0, 0));
    assert!(queue.enter(&mut other).is_ok());
    drop(request);
    let frozen = block_on(queue.freeze_async()).unwrap();
    frozen.set(LIMITS.with_max(1)).unwrap();
    let all: Vec<_> = (1..Queue::MAX_DEPTH).map(|_| queue.begin_freeze().unwrap().into_owned()).collect();
    assert_eq!(queue.begin_freeze().unwrap_err(), FreezeError::DepthFull);
    assert_eq!(queue.freeze().unwrap_err(), FreezeError::DepthFull);
    assert_eq!(block_on(queue.freeze_async()).unwrap_err(), FreezeError::DepthFull);
    drop((all, frozen));
    assert_eq!((queue.depth(), queue.limits().max), (0, 1));
}

/// A freeze is kept from one message to another, and thawed on another thread.
#[test]
fn a_freeze_is_kept_between_messages() {
    let (queue, mut tag, _other) = with_tags();
    let (sent, messages) = mpsc::channel::<bool>();
    let (asks, answers) = mpsc::channel();
    let queue = Arc::new(queue);
    let its = Arc::clone(&queue);
    let service = thread::spawn(move || {
        let mut kept: Option<OwnedFrozen> = None;
        for freezes in messages {
            kept = freezes.then(|| its.freeze().unwrap().into_owned());
            asks.send(()).unwrap();
        }
        kept
    });
    for freezes in [true, false, true] {
        sent.send(freezes).unwrap();
        answers.recv().unwrap();
        assert_eq!((queue.depth(), queue.try_enter(&mut tag).is_err()), (u32::from(freezes), freezes));
    }
    drop(sent);
    let kept = service.join().unwrap().unwrap();
    assert_eq!(queue.depth(), 1);
    kept.set(LIMITS.with_max(2)).unwrap();
    thread::spawn(move || drop(kept)).join().unwrap();
    assert_eq!(queue.enter(&mut tag).unwrap().limits().max, 2);
}

/// A queue isn't removed while a freeze has a share of it; a device that is gone keeps no share.
#[test]
fn shares_of_freezes() {
    let queue = Queue::builder(LIMITS).slots(1).tags(1).build().unwrap();
    let frozen = queue.freeze().unwrap().into_owned();
    let refused = queue.remove().unwrap_err();
    assert_eq!(refused.reason, RemoveError::Shared);
    drop(frozen);
    let drained = refused.value.begin_freeze().unwrap().into_owned().drained();
    let refused = refused.value.remove().unwrap_err();
    assert_eq!(refused.reason, RemoveError::Shared);
    drop(drained);
    refused.value.freeze().unwrap().into_owned().mark_dying();
    assert_eq!(refused.value.remove().unwrap().kills, 3);
    let queue = Queue::builder(LIMITS).slots(1).tags(1).build().unwrap();
    mem::forget(queue.freeze().unwrap().into_owned());
    assert_eq!(queue.remove().unwrap_err().reason, RemoveError::Shared);
}

/// Tasks freeze while requests come and go on other threads: each freeze drains.
#[test]
fn tasks_freeze_under_load() {
    ends(|| {
        let (queue, over) = (Queue::builder(LIMITS).slots(2).tags(4).build().unwrap(), AtomicBool::new(false));
        let rounds = number_of("FREEZE_QUEUE_ROUNDS", 100_000) / 50;
        thread::scope(|threads| {
            for _ in 0..3 {
                threads.spawn(|| {
                    while !over.load(Ordering::Relaxed) {
                        drop(queue.enter_any().unwrap());
                    }
                });
            }
            let freezers = [0, 1].map(|way| {
                let queue = &queue;
                threads.spawn(move || {
                    for _ in 0..rounds {
                        let frozen = match way {
                            0 => block_on(queue.freeze_async()).unwrap().into_owned(),
                            _ => block_on(queue.begin_freeze().unwrap().into_owned().drained()),
                        };
                        assert!(queue.is_drained());
                        drop(frozen);
                    }
                })
            });
            let done = freezers.map(|freezer| freezer.join().is_ok());
            over.store(true, Ordering::Relaxed);
            assert_eq!(done, [true, true]);
        });
        queue.remove().unwrap();
    });
}
