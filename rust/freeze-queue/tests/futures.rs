//! Entering by futures: which is woken, when, and that a future which is cancelled takes nothing along.
use freeze_queue::{EnterError, OwnedFreezing, OwnedFrozen, Queue, Tag};
use std::cmp::Reverse;
use std::panic::{AssertUnwindSafe, catch_unwind};
use std::pin::Pin;
use std::sync::atomic::{AtomicU64, Ordering};
use std::sync::{Arc, Mutex};
use std::task::{Context, Poll, Wake, Waker};
use std::thread;

mod shared;
use shared::{Chance, LIMITS, Woken, block_on, number_of};

fn queue(tags: u32) -> (Queue, Vec<Tag>) {
    let queue = Queue::builder(LIMITS).slots(1).tags(tags).build().unwrap();
    let all = (0..tags).map(|_| queue.tag().unwrap()).collect();
    (queue, all)
}

fn polled<F: Future>(future: &mut Pin<Box<F>>, woken: &Arc<Woken>) -> Poll<F::Output> {
    Pin::new(future).poll(&mut Context::from_waker(&Waker::from(Arc::clone(woken))))
}

fn never_woken() -> Arc<Woken> {
    Arc::default()
}

/// Wakes by the thaw of another queue.
struct Thaws(Mutex<Option<OwnedFrozen>>);

impl Wake for Thaws {
    fn wake(self: Arc<Self>) {
        drop(self.0.lock().unwrap().take());
    }
}

#[test]
fn a_live_queue_is_entered_at_once() {
    let (queue, mut tags) = queue(1);
    let woken = never_woken();
    let mut entering = Box::pin(queue.enter_async(&mut tags[0]));
    let Poll::Ready(Ok(request)) = polled(&mut entering, &woken) else { panic!("it is live") };
    assert_eq!(request.limits(), &LIMITS);
    assert!(queue.try_freeze().is_err());
    drop(request);
    assert!(queue.try_freeze().is_ok());
    assert_eq!((woken.times(), Arc::strong_count(&woken)), (0, 1));
}

/// A waker whose call wakes another task: that one is woken once the waker has returned, before the first thaw returns.
#[test]
fn a_waker_wakes_by_a_call() {
    let ((one, mut its_tags), (other, mut other_tags)) = (queue(1), queue(1));
    let frozen = one.freeze().unwrap();
    let thaws = Waker::from(Arc::new(Thaws(Mutex::new(Some(other.freeze().unwrap().into_owned())))));
    let (mut first, mut second) =
        (Box::pin(one.enter_async(&mut its_tags[0])), Box::pin(other.enter_async(&mut other_tags[0])));
    let woken = never_woken();
    assert!(Pin::new(&mut first).poll(&mut Context::from_waker(&thaws)).is_pending());
    assert!(polled(&mut second, &woken).is_pending());
    drop(frozen);
    assert_eq!(woken.times(), 1);
    assert!(polled(&mut second, &woken).is_ready());
}

/// Nothing is done before a poll, and a thaw wakes once, whichever waker was there last.
#[test]
fn the_last_waker_is_woken_once() {
    let (queue, mut tags) = queue(1);
    let (first, last) = (never_woken(), never_woken());
    let mut entering = Box::pin(queue.enter_async(&mut tags[0]));
    let frozen = queue.freeze().unwrap();
    let nested = queue.freeze().unwrap();
    assert!(polled(&mut entering, &first).is_pending());
    assert_eq!(Arc::strong_count(&first), 2);
    assert!(polled(&mut entering, &last).is_pending());
    assert_eq!((Arc::strong_count(&first), Arc::strong_count(&last)), (1, 2));
    drop(nested);
    assert_eq!((first.times(), last.times()), (0, 0));
    drop(frozen);
    assert_eq!((first.times(), last.times(), Arc::strong_count(&last)), (0, 1, 1));
    assert!(polled(&mut entering, &last).is_ready());
    drop(queue.freeze().unwrap());
    assert_eq!(last.times(), 1);
}

/// It is woken, and comes too late: the queue is frozen again, so it waits on and is woken again.
#[test]
fn a_future_that_comes_too_late_waits_on() {
    let (queue, mut tags) = queue(1);
    let woken = never_woken();
    let mut entering = Box::pin(queue.enter_async(&mut tags[0]));
    for times in 1..=3 {
        let frozen = queue.freeze().unwrap();
        assert!(polled(&mut entering, &woken).is_pending());
        drop(frozen);
        assert_eq!(woken.times(), times);
    }
    assert!(matches!(polled(&mut entering, &woken), Poll::Ready(Ok(_))));
}

#[test]
fn a_cancelled_future_is_not_woken() {
    let (queue, mut tags) = queue(3);
    let [one, two, three] = &mut tags[..] else { unreachable!() };
    let (cancelled, stays) = (never_woken(), never_woken());
    let frozen = queue.freeze().unwrap();
    let mut first = Box::pin(queue.enter_async(one));
    let (mut second, mut third) = (Box::pin(queue.enter_async(two)), Box::pin(queue.enter_async(three)));
    assert!(polled(&mut first, &stays).is_pending());
    assert!(polled(&mut second, &cancelled).is_pending());
    assert!(polled(&mut third, &stays).is_pending());
    drop(second);
    assert_eq!(Arc::strong_count(&cancelled), 1);
    drop(frozen);
    assert_eq!((cancelled.times(), stays.times()), (0, 2));
    drop(third); // woken, and cancelled before it came
    assert!(matches!(polled(&mut first, &stays), Poll::Ready(Ok(_))));
    drop(first);
    assert!(queue.try_freeze().is_ok());
    assert!(tags.iter_mut().all(|tag| queue.try_enter(tag).is_ok()));
}

/// A future that is forgotten is woken once more, by the thaw, and its tag is free.
#[test]
fn a_future_is_forgotten() {
    let (queue, mut tags) = queue(1);
    let (forgotten, next) = (never_woken(), never_woken());
    let frozen = queue.freeze().unwrap();
    let mut entering = Box::pin(queue.enter_async(&mut tags[0]));
    assert!(polled(&mut entering, &forgotten).is_pending());
    std::mem::forget(entering);
    let mut entering = Box::pin(queue.enter_async(&mut tags[0]));
    assert!(polled(&mut entering, &next).is_pending());
    drop(frozen);
    assert_eq!((forgotten.times(), next.times()), (0, 1));
    assert!(polled(&mut entering, &next).is_ready());
}

#[test]
fn the_end_of_a_device_wakes_a_future() {
    let (queue, mut tags) = queue(1);
    let woken = never_woken();
    let mut entering = Box::pin(queue.enter_async(&mut tags[0]));
    let frozen = queue.freeze().unwrap();
    assert!(polled(&mut entering, &woken).is_pending());
    frozen.mark_dying();
    assert_eq!((woken.times(), Arc::strong_count(&woken)), (1, 1));
    assert!(matches!(polled(&mut entering, &woken), Poll::Ready(Err(EnterError::Dying))));
}

/// Each seat of 1,023 is its own tag's, also where tags come and go.
#[test]
fn as_many_futures_as_there_are_tags() {
    let (queue, mut tags) = queue(1_023);
    let mut chance = Chance(7);
    for _ in 0..50 {
        for _ in 0..20 {
            let which = chance.below(u32::try_from(tags.len()).unwrap()) as usize;
            drop(tags.swap_remove(which));
        }
        (0..20).for_each(|_| tags.push(queue.tag().unwrap()));
        let frozen = queue.freeze().unwrap();
        let all: Vec<Arc<Woken>> = (0..1_023).map(|_| never_woken()).collect();
        let mut entering: Vec<_> = tags.iter_mut().map(|tag| Box::pin(queue.enter_async(tag))).collect();
        for (future, woken) in entering.iter_mut().zip(&all) {
            assert!(polled(future, woken).is_pending());
        }
        drop(frozen);
        assert!(all.iter().all(|woken| woken.times() == 1));
        for (future, woken) in entering.iter_mut().zip(&all) {
            assert!(polled(future, woken).is_ready());
        }
    }
}

/// Enters so often, and cancels a future now and then: what it entered.
fn enter_and_cancel(queue: &Queue, tag: &mut Tag, seed: u64, rounds: u64) -> u64 {
    let (mut chance, woken, mut entered) = (Chance(seed), never_woken(), 0);
    while entered < rounds {
        if chance.one_in(3) {
            let mut cancelled = Box::pin(queue.enter_async(tag));
            let _ = polled(&mut cancelled, &woken).map(|done| drop(done.unwrap()));
            if chance.one_in(4) {
                thread::yield_now();
            }
        } else {
            drop(block_on(queue.enter_async(tag)).unwrap());
            entered += 1;
        }
    }
    entered
}

/// Four threads enter by futures and cancel some, while another freezes: each comes in at last.
#[test]
fn futures_under_freezes() {
    let (queue, mut tags) = queue(4);
    let rounds = number_of("FREEZE_QUEUE_ROUNDS", 100_000) / 10;
    thread::scope(|threads| {
        let all: Vec<_> = (1..)
            .zip(&mut tags)
            .map(|(seed, tag)| {
                let queue = &queue;
                threads.spawn(move || enter_and_cancel(queue, tag, seed, rounds))
            })
            .collect();
        while !all.iter().all(thread::ScopedJoinHandle::is_finished) {
            drop(queue.freeze().unwrap());
            thread::yield_now();
        }
        assert!(all.into_iter().all(|thread| thread.join().unwrap() == rounds));
    });
}

/// A task unwinds while it waits: its future leaves no waker, as one that is dropped.
#[test]
fn a_future_that_unwinds_is_not_woken() {
    let (queue, mut tags) = queue(1);
    let (woken, frozen) = (never_woken(), queue.freeze().unwrap());
    let unwinds = catch_unwind(AssertUnwindSafe(|| {
        let mut entering = Box::pin(queue.enter_async(&mut tags[0]));
        assert!(polled(&mut entering, &woken).is_pending());
        panic!("as the test wants");
    }));
    assert!(unwinds.is_err());
    assert_eq!(Arc::strong_count(&woken), 1);
    drop(frozen);
    assert_eq!(woken.times(), 0);
}

/// Begins a freeze as it is woken first, and polls its future again.
struct Freezes {
    queue: Arc<Queue>,
    entering: Mutex<Option<Pin<Box<dyn Future<Output = bool> + Send>>>>,
    frozen: Mutex<Option<OwnedFreezing>>,
    times: AtomicU64,
}

impl Wake for Freezes {
    fn wake(self: Arc<Self>) {
        if self.times.fetch_add(1, Ordering::SeqCst) == 0 {
            *self.frozen.lock().unwrap() = Some(self.queue.begin_freeze().unwrap().into_owned());
            let mut entering = self.entering.lock().unwrap().take().unwrap();
            assert!(entering.as_mut().poll(&mut Context::from_waker(&Waker::from(Arc::clone(&self)))).is_pending());
            *self.entering.lock().unwrap() = Some(entering);
        }
    }
}

/// A task freezes the queue again as a thaw wakes it, and waits again: that thaw wakes it no second time.
#[test]
fn a_thaw_wakes_each_future_once() {
    let (queue, mut tags) = queue(2);
    let queue = Arc::new(queue);
    tags.sort_by_key(|tag| Reverse(tag.number()));
    let (first, other) = (tags.pop().unwrap(), tags.pop().unwrap());
    let frozen = queue.freeze().unwrap();
    let (entering, woken) = (queue.enter_owned_async(first), never_woken());
    let mut entering: Pin<Box<dyn Future<Output = bool> + Send>> = Box::pin(async { entering.await.is_ok() });
    let (none, times) = (Mutex::new(None), AtomicU64::new(0));
    let freezes = Arc::new(Freezes { queue: Arc::clone(&queue), entering: none, frozen: Mutex::new(None), times });
    assert!(entering.as_mut().poll(&mut Context::from_waker(&Waker::from(Arc::clone(&freezes)))).is_pending());
    *freezes.entering.lock().unwrap() = Some(entering);
    let mut waits = Box::pin(queue.enter_owned_async(other));
    assert!(polled(&mut waits, &woken).is_pending());
    drop(frozen);
    assert_eq!((freezes.times.load(Ordering::SeqCst), woken.times()), (1, 1));
    drop(freezes.frozen.lock().unwrap().take());
    drop(freezes.entering.lock().unwrap().take());
}
