//! Wakers that panic, as after their executor was shut down: each call that wakes or drops one leaves its queue as it
//! should be. (A waker that panics as it is cloned is one by hand, so this test has `unsafe`.)
#![allow(unsafe_code)]

use freeze_queue::{EnterError, Queue, Tag};
use std::any::Any;
use std::cell::Cell;
use std::mem;
use std::panic::{AssertUnwindSafe, catch_unwind, panic_any};
use std::pin::Pin;
use std::ptr;
use std::sync::{Arc, Mutex};
use std::task::{Context, Poll, RawWaker, RawWakerVTable, Wake, Waker};
use std::thread;
use std::time::Duration;

mod shared;
use shared::{LIMITS, Woken, until};

/// Wakes by a panic.
struct Panics;

impl Wake for Panics {
    fn wake(self: Arc<Self>) {
        panic!("as the test wants");
    }
}

/// The payload of a panic, which panics again where it is dropped.
struct PanicsAgain;

impl Drop for PanicsAgain {
    fn drop(&mut self) {
        panic!("as the test wants, again");
    }
}

struct PanicsTwice;

impl Wake for PanicsTwice {
    fn wake(self: Arc<Self>) {
        panic_any(PanicsAgain);
    }
}

/// Its last share panics as it is dropped.
struct PanicsAtItsEnd;

impl Wake for PanicsAtItsEnd {
    fn wake(self: Arc<Self>) {
        mem::forget(self);
    }
}

impl Drop for PanicsAtItsEnd {
    fn drop(&mut self) {
        panic!("as the test wants");
    }
}

thread_local! {
    static CLONE_PANICS: Cell<bool> = const { Cell::new(false) };
}

/// A waker of nobody, whose clone panics while `CLONE_PANICS` is set.
fn clone_panics() -> Waker {
    const TABLE: RawWakerVTable = RawWakerVTable::new(cloned, |_| {}, |_| {}, |_| {});

    fn cloned(_: *const ()) -> RawWaker {
        assert!(!CLONE_PANICS.get(), "as the test wants");
        RawWaker::new(ptr::null(), &TABLE)
    }

    // SAFETY: the table does nothing with the pointer, and each call of it may come from any thread.
    unsafe { Waker::new(ptr::null(), &TABLE) }
}

fn panics<T>(call: impl FnOnce() -> T) -> bool {
    catch_unwind(AssertUnwindSafe(call)).is_err()
}

fn polled<F: Future + Unpin>(future: &mut F, waker: &Waker) -> Poll<F::Output> {
    Pin::new(future).poll(&mut Context::from_waker(waker))
}

/// Each future waits, by its waker.
fn all_wait<F: Future + Unpin>(futures: &mut [F], wakers: &[Waker]) {
    for (future, waker) in futures.iter_mut().zip(wakers) {
        assert!(polled(future, waker).is_pending());
    }
}

/// A waker that panics and one that counts.
fn one_panics() -> (Arc<Woken>, [Waker; 2]) {
    let woken = Arc::<Woken>::default();
    let wakers = [Waker::from(Arc::new(Panics)), Waker::from(Arc::clone(&woken))];
    (woken, wakers)
}

fn with_tags(tags: u32) -> (Queue, Vec<Tag>) {
    let queue = Queue::builder(LIMITS).slots(1).tags(tags).build().unwrap();
    let all = (0..tags).map(|_| queue.tag().unwrap()).collect();
    (queue, all)
}

/// A freeze whose deadline passes thaws, and wakes the futures that came meanwhile: the panic goes on, with all woken.
#[test]
fn a_waker_panics_as_a_late_freeze_thaws() {
    for _ in 0..100 {
        let (queue, mut tags) = with_tags(3);
        let (mut last, woken) = (tags.pop().unwrap(), Arc::<Woken>::default());
        let request = queue.enter(&mut last).unwrap();
        let mut entering: Vec<_> = tags.iter_mut().map(|tag| Box::pin(queue.enter_async(tag))).collect();
        let wakers = [Waker::from(Arc::new(Panics)), Waker::from(Arc::clone(&woken))];
        let (are_noted, late) = thread::scope(|threads| {
            let freezes = threads.spawn(|| queue.freeze_timeout(Duration::from_millis(50)).map(drop));
            until("it is frozen, or was", || queue.depth() == 1 || freezes.is_finished());
            let polls: Vec<_> = entering.iter_mut().zip(&wakers).map(|(one, waker)| polled(one, waker)).collect();
            (polls.iter().all(Poll::is_pending), freezes.join())
        });
        drop((request, entering));
        assert!(queue.depth() == 0 && queue.enter(&mut last).is_ok());
        if are_noted {
            assert!(late.is_err() && woken.times() == 1);
            return;
        }
    }
    panic!("no future came while it was frozen");
}

/// Two wakers panic, and what the panics carry panics again where it is dropped: one goes on, and the third is woken.
#[test]
fn panics_that_carry_panics() {
    let (queue, mut tags) = with_tags(3);
    let woken = Arc::<Woken>::default();
    let wakers = [Arc::new(PanicsTwice).into(), Arc::new(PanicsTwice).into(), Waker::from(Arc::clone(&woken))];
    let frozen = queue.freeze().unwrap();
    let mut entering: Vec<_> = tags.iter_mut().map(|tag| Box::pin(queue.enter_async(tag))).collect();
    all_wait(&mut entering, &wakers);
    let carried = catch_unwind(AssertUnwindSafe(|| drop(frozen))).unwrap_err();
    assert!(carried.is::<PanicsAgain>() && woken.times() == 1 && queue.depth() == 0);
    mem::forget(carried);
}

/// Notes its number in a list and panics with it.
struct PanicsBy(usize, Arc<Mutex<Vec<usize>>>);

impl Wake for PanicsBy {
    fn wake(self: Arc<Self>) {
        self.1.lock().unwrap().push(self.0);
        panic_any(self.0);
    }
}

/// What goes on where a call wakes futures with these wakers: a thaw, the last request that leaves, or the end of a device.
fn wakes(way: u32, wakers: &[Waker]) -> Result<(), Box<dyn Any + Send>> {
    let (queue, mut tags) = with_tags(u32::try_from(wakers.len()).unwrap() + 1);
    let mut last = tags.pop().unwrap();
    if way == 0 {
        let frozen = queue.freeze().unwrap();
        let mut all: Vec<_> = tags.iter_mut().map(|tag| Box::pin(queue.enter_async(tag))).collect();
        all_wait(&mut all, wakers);
        return catch_unwind(AssertUnwindSafe(|| drop(frozen)));
    }
    if way == 1 {
        let request = queue.enter(&mut last).unwrap();
        let mut all: Vec<_> = wakers.iter().map(|_| Box::pin(queue.begin_freeze().unwrap().drained())).collect();
        all_wait(&mut all, wakers);
        return catch_unwind(AssertUnwindSafe(|| drop(request)));
    }
    let mut line: Vec<_> = wakers.iter().map(|_| Box::pin(queue.enter_any_async())).collect();
    all_wait(&mut line, wakers);
    let frozen = queue.freeze().unwrap().into_owned();
    catch_unwind(AssertUnwindSafe(|| frozen.mark_dying()))
}

/// Whichever of up to five wakers panic, each is called once, and the first panic goes on.
#[test]
fn the_first_of_several_panics_goes_on() {
    for (way, count) in (0..3).flat_map(|way| (1..=5).map(move |count| (way, count))) {
        for panicking in 0..1_u32 << count {
            let (called, woken) = (Arc::<Mutex<Vec<usize>>>::default(), Arc::<Woken>::default());
            let waker = |at: usize| match panicking >> at & 1 {
                0 => Waker::from(Arc::clone(&woken)),
                _ => Waker::from(Arc::new(PanicsBy(at, Arc::clone(&called)))),
            };
            let gone_on = wakes(way, &(0..count).map(waker).collect::<Vec<_>>()).err();
            let called = called.lock().unwrap();
            let case = format!("way {way}: {panicking:b} of {count} panic");
            assert_eq!(gone_on.map(|panic| *panic.downcast::<usize>().unwrap()), called.first().copied(), "{case}");
            let times = (called.len(), usize::try_from(woken.times()).unwrap());
            let panics = panicking.count_ones() as usize;
            assert_eq!(times, (panics, count - panics), "{case}");
        }
    }
}

/// The clone of a waker panics: nothing of the future stays at the queue.
#[test]
fn the_clone_of_a_waker_panics() {
    let (queue, mut tags) = with_tags(1);
    let frozen = queue.freeze().unwrap();
    let mut entering = Box::pin(queue.enter_async(&mut tags[0]));
    CLONE_PANICS.set(true);
    assert!(panics(|| polled(&mut entering, &clone_panics())));
    CLONE_PANICS.set(false);
    drop(entering);
    drop(frozen);
    drop(queue.enter(&mut tags[0]).unwrap());
    assert!(queue.try_freeze().is_ok());
}

/// As above, but another waker was noted before: it doesn't stay.
#[test]
fn a_future_is_dropped_after_the_clone_of_a_waker_panicked() {
    let (queue, mut tags) = with_tags(1);
    let woken = Arc::<Woken>::default();
    let frozen = queue.freeze().unwrap();
    let mut entering = Box::pin(queue.enter_async(&mut tags[0]));
    assert!(polled(&mut entering, &Waker::from(Arc::clone(&woken))).is_pending());
    CLONE_PANICS.set(true);
    assert!(panics(|| polled(&mut entering, &clone_panics())));
    CLONE_PANICS.set(false);
    drop(entering);
    assert_eq!(Arc::strong_count(&woken), 1, "it isn't noted any more");
    drop(frozen);
    assert_eq!(woken.times(), 0);
}

/// The drop of a waker panics: as another is noted, as its future is dropped, and as its tag is given back.
#[test]
fn the_drop_of_a_waker_panics() {
    let (queue, mut tags) = with_tags(2);
    let (woken, last_share) = (Arc::<Woken>::default(), || Waker::from(Arc::new(PanicsAtItsEnd)));
    let frozen = queue.freeze().unwrap();
    let (mut tag, mut other) = (tags.pop().unwrap(), tags.pop().unwrap());
    let mut entering = Box::pin(queue.enter_async(&mut other));
    let last = last_share();
    assert!(polled(&mut entering, &last).is_pending());
    drop(last);
    assert!(panics(|| polled(&mut entering, &Waker::from(Arc::clone(&woken)))), "the earlier one is dropped");
    assert_eq!(Arc::strong_count(&woken), 1, "and the later one isn't noted any more");
    drop(entering);
    let mut entering = Box::pin(queue.enter_async(&mut other));
    let last = last_share();
    assert!(polled(&mut entering, &last).is_pending());
    drop(last);
    assert!(panics(move || drop(entering)));
    let mut entering = Box::pin(queue.enter_async(&mut other));
    let last = last_share();
    assert!(polled(&mut entering, &last).is_pending());
    drop(last);
    mem::forget(entering);
    let mut entering = Box::pin(queue.enter_async(&mut other));
    assert!(panics(|| polled(&mut entering, &Waker::from(Arc::clone(&woken)))), "the forgotten one's is dropped");
    assert_eq!(Arc::strong_count(&woken), 1);
    drop(entering);
    let mut entering = Box::pin(queue.enter_async(&mut other));
    let last = last_share();
    assert!(polled(&mut entering, &last).is_pending());
    drop(last);
    mem::forget(entering);
    assert!(panics(|| drop(other)));
    assert!(queue.tag().is_ok(), "it was given back");
    drop(frozen);
    assert!(queue.enter(&mut tag).is_ok());
}

/// Runs a closure as it is woken.
struct Runs(Mutex<Option<Box<dyn FnOnce() + Send>>>);

impl Wake for Runs {
    fn wake(self: Arc<Self>) {
        let run = self.0.lock().unwrap().take();
        run.expect("it is woken once")();
    }
}

/// A future is polled between the thaw and its own wake, and the drop of its waker panics as it enters: its request leaves.
#[test]
fn the_drop_of_a_waker_panics_as_its_future_enters() {
    let (queue, mut tags) = with_tags(2);
    let mut first = tags.remove(0);
    let frozen = queue.freeze().unwrap();
    let mut second = Box::pin(queue.enter_owned_async(tags.remove(0)));
    let last = Waker::from(Arc::new(PanicsAtItsEnd));
    assert!(polled(&mut second, &last).is_pending());
    drop(last);
    let is_panicked = Arc::new(Mutex::new(None));
    let told = Arc::clone(&is_panicked);
    let polls = move || *told.lock().unwrap() = Some(panics(|| polled(&mut second, Waker::noop())));
    let mut entering = Box::pin(queue.enter_async(&mut first));
    let runs = Waker::from(Arc::new(Runs(Mutex::new(Some(Box::new(polls))))));
    assert!(polled(&mut entering, &runs).is_pending());
    drop(frozen);
    assert_eq!(*is_panicked.lock().unwrap(), Some(true));
    assert!(queue.try_freeze().is_ok(), "the request left");
    assert!(queue.tag().is_ok(), "and its tag was given back");
}

/// A waker panics that the drain wakes: the request has left, its tag is home, the others are woken, and the panic goes on.
#[test]
fn a_waker_of_the_drain_panics() {
    for way in 0..3 {
        let queue = Queue::builder(LIMITS).slots(1).tags(1).build().unwrap();
        let request = queue.enter_any().unwrap();
        let (woken, wakers) = one_panics();
        let mut all: Vec<_> = (0..2).map(|_| Box::pin(queue.begin_freeze().unwrap().drained())).collect();
        all_wait(&mut all, &wakers);
        match way {
            0 => assert!(panics(|| drop(request))),
            1 => assert!(panics(|| request.leave().number())),
            _ => assert!(panics(move || {
                let _request = request;
                panic!("as the test wants");
            })),
        }
        assert_eq!((woken.times(), queue.is_drained()), (1, true));
        for future in &mut all {
            assert!(polled(future, Waker::noop()).is_ready());
        }
        drop(all);
        queue.remove().unwrap();
    }
}

/// A waker panics of a future in line: the tag was handed over, and the next is served after it.
#[test]
fn a_waker_in_line_panics() {
    let queue = Queue::builder(LIMITS).slots(1).tags(1).build().unwrap();
    let request = queue.enter_any().unwrap();
    let (woken, wakers) = one_panics();
    let mut line = [Box::pin(queue.enter_any_async()), Box::pin(queue.enter_any_async())];
    all_wait(&mut line, &wakers);
    assert!(panics(|| drop(request)));
    assert_eq!(woken.times(), 0);
    let [first, second] = &mut line;
    let handed = polled(first, Waker::noop());
    assert!(matches!(handed, Poll::Ready(Ok(_))));
    drop(handed);
    assert_eq!(woken.times(), 1);
    assert!(polled(second, Waker::noop()).is_ready());
    drop(line);
    queue.remove().unwrap();
}

/// Wakers in line panic as the device goes: each other is woken, and the queue stays frozen.
#[test]
fn a_waker_in_line_panics_as_the_device_goes() {
    let queue = Queue::builder(LIMITS).slots(1).tags(1).build().unwrap();
    let _held = queue.tag().unwrap();
    let woken = Arc::<Woken>::default();
    let wakers = [Waker::from(Arc::new(Panics)), Waker::from(Arc::clone(&woken)), Waker::from(Arc::new(Panics))];
    let mut line =
        [Box::pin(queue.enter_any_async()), Box::pin(queue.enter_any_async()), Box::pin(queue.enter_any_async())];
    all_wait(&mut line, &wakers);
    let frozen = queue.freeze().unwrap().into_owned();
    assert!(panics(|| frozen.mark_dying()));
    assert_eq!((woken.times(), queue.depth(), queue.is_dying()), (1, 0, true));
    for mut future in line {
        assert!(matches!(polled(&mut future, Waker::noop()), Poll::Ready(Err(EnterError::Dying))));
    }
}

/// The clone of a waker panics in line and at the drain: the future has left the line, and the freeze is thawed.
#[test]
fn the_clone_of_a_waker_panics_in_line() {
    let queue = Queue::builder(LIMITS).slots(1).tags(1).build().unwrap();
    let request = queue.enter_any().unwrap();
    let (bad, woken) = (clone_panics(), Arc::<Woken>::default());
    let good = Waker::from(Arc::clone(&woken));
    let (mut entering, mut drained) =
        (Box::pin(queue.enter_any_async()), Box::pin(queue.begin_freeze().unwrap().drained()));
    assert!(polled(&mut entering, &good).is_pending() && polled(&mut drained, &good).is_pending());
    CLONE_PANICS.set(true);
    assert!(panics(|| polled(&mut entering, &bad)) && panics(|| polled(&mut drained, &bad)));
    CLONE_PANICS.set(false);
    drop(good);
    assert_eq!((Arc::strong_count(&woken), queue.depth()), (1, 0));
    drop(request);
    assert_eq!(woken.times(), 0);
    drop(queue.try_enter_any().unwrap());
}

/// A request that a panic drops hands its tag to a waker that panics too: the first panic goes on, and the tag is handed over.
#[test]
fn a_waker_panics_while_its_thread_unwinds() {
    let queue = Queue::builder(LIMITS).slots(1).tags(1).build().unwrap();
    let (mut waits, panics) = (Box::pin(queue.enter_any_async()), Waker::from(Arc::new(Panics)));
    let first = catch_unwind(AssertUnwindSafe(|| {
        let _request = queue.enter_any().unwrap();
        assert!(polled(&mut waits, &panics).is_pending());
        panic_any(7);
    }));
    assert_eq!(first.unwrap_err().downcast_ref(), Some(&7));
    assert!(polled(&mut waits, Waker::noop()).is_ready());
    drop(waits);
    queue.remove().unwrap();
}
