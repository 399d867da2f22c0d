//! Misuses that compile: each is refused by an error, or does what its documentation says. (misuse.md
//! has those that don't compile.) An answer that the types exclude would panic as a bug of the crate, and fail the test.
use freeze_queue::{EnterError, FreezeError, Limits, OwnedRequest, Queue, RemoveError, Tag};
use std::cell::RefCell;
use std::mem::{self, ManuallyDrop};
use std::panic::{AssertUnwindSafe, catch_unwind};
use std::pin::Pin;
use std::rc::Rc;
use std::sync::atomic::{AtomicU64, Ordering};
use std::sync::{Arc, Mutex, mpsc};
use std::task::{Context, Poll, Wake, Waker};
use std::thread;
use std::time::Duration;

const LIMITS: Limits = Limits::of_hardware(64).with_max(32).with_chunk(128).with_physical(8);

fn with_tags() -> (Queue, Tag, Tag) {
    let queue = Queue::builder(LIMITS).slots(2).tags(2).build().unwrap();
    let (tag, other) = (queue.tag().unwrap(), queue.tag().unwrap());
    (queue, tag, other)
}

fn panics<T>(call: impl FnOnce() -> T) -> bool {
    catch_unwind(AssertUnwindSafe(call)).is_err()
}

/// A request that is forgotten has entered for ever: its tag is refused, and the queue never drains.
#[test]
fn a_request_is_forgotten() {
    let (queue, mut tag, mut other) = with_tags();
    mem::forget(queue.enter(&mut tag).unwrap());
    assert_eq!(queue.enter(&mut tag).unwrap_err(), EnterError::StillEntered);
    assert_eq!(queue.try_enter(&mut tag).unwrap_err(), EnterError::StillEntered);
    assert_eq!(queue.try_enter_frozen(&mut tag).unwrap_err(), EnterError::StillEntered);
    assert!(queue.enter(&mut other).is_ok());
    assert_eq!(queue.try_freeze().unwrap_err(), FreezeError::NotDrained);
    assert_eq!(queue.freeze_timeout(Duration::from_millis(5)).unwrap_err(), FreezeError::TimedOut);
    drop(tag);
    drop(other);
    assert_eq!(queue.remove().unwrap_err().reason, RemoveError::TagsOut);
}

/// A forgotten owned request takes its tag along, and a share of its queue, into nowhere.
#[test]
fn an_owned_request_is_forgotten() {
    let (queue, tag, _other) = with_tags();
    mem::forget(queue.enter_owned(tag).unwrap());
    assert_eq!(queue.try_freeze().unwrap_err(), FreezeError::NotDrained);
    assert_eq!(queue.remove().unwrap_err().reason, RemoveError::TagsOut);
}

/// A freeze that is forgotten is never thawed: nested ones come and go, and it keeps its share of the queue.
#[test]
fn a_freeze_is_forgotten() {
    let (queue, mut tag, other) = with_tags();
    mem::forget(queue.freeze().unwrap());
    drop(queue.freeze().unwrap());
    assert_eq!((queue.depth(), queue.is_drained(), queue.is_dying()), (1, true, false));
    assert_eq!(queue.try_enter(&mut tag).unwrap_err(), EnterError::Frozen);
    drop(tag);
    drop(other);
    assert_eq!(queue.remove().unwrap_err().reason, RemoveError::Shared);
}

/// Tags of two queues are swapped: each is of its own queue still.
#[test]
fn tags_of_two_queues_are_swapped() {
    let ((here, mut one, _one), (there, mut other, _other)) = (with_tags(), with_tags());
    mem::swap(&mut one, &mut other);
    assert_eq!((one.queue_id(), other.queue_id()), (there.id(), here.id()));
    assert_eq!(here.enter(&mut one).unwrap_err(), EnterError::OtherQueue);
    let request = there.enter(&mut one).unwrap();
    assert!(here.try_freeze().is_ok());
    assert_eq!(there.try_freeze().unwrap_err(), FreezeError::NotDrained);
    drop(request);
}

/// Queues are swapped while none is borrowed: a tag goes with the one that it is of.
#[test]
fn queues_are_swapped() {
    let ((mut here, mut tag, _one), (mut there, _other, _more)) = (with_tags(), with_tags());
    mem::swap(&mut here, &mut there);
    assert_eq!(here.enter(&mut tag).unwrap_err(), EnterError::OtherQueue);
    assert!(there.enter(&mut tag).is_ok());
}

/// Requests and freezes of two queues are swapped: each ends what it began.
#[test]
fn guards_are_swapped() {
    let ((here, mut one, _one), (there, mut other, _other)) = (with_tags(), with_tags());
    let (mut first, mut second) = (here.enter(&mut one).unwrap(), there.enter(&mut other).unwrap());
    mem::swap(&mut first, &mut second);
    drop(first);
    assert!(there.try_freeze().is_ok());
    assert_eq!(here.try_freeze().unwrap_err(), FreezeError::NotDrained);
    drop(second);
    let (mut first, mut second) = (here.freeze().unwrap(), there.freeze().unwrap());
    mem::swap(&mut first, &mut second);
    first.set(LIMITS.with_max(1)).unwrap();
    drop(first);
    assert_eq!((here.depth(), there.depth(), here.limits().max, there.limits().max), (1, 0, 32, 1));
    drop(second);
    assert!(here.try_enter(&mut one).is_ok());
}

/// The queue goes first: a tag of it can only be dropped.
#[test]
fn the_queue_is_dropped_first() {
    let (queue, mut tag, other) = with_tags();
    drop(queue);
    let stranger = Queue::builder(LIMITS).slots(2).tags(2).build().unwrap();
    assert_eq!(stranger.enter(&mut tag).unwrap_err(), EnterError::OtherQueue);
    assert_eq!(stranger.enter_owned(other).unwrap_err().reason, EnterError::OtherQueue);
}

/// A tag that is dropped goes home, on whichever thread; one under a forgotten request is out for ever.
#[test]
fn a_tag_is_dropped() {
    let (queue, tag, mut other) = with_tags();
    thread::spawn(move || drop(tag)).join().unwrap();
    let again = queue.tag().unwrap();
    assert!(queue.tag().is_err());
    mem::forget(queue.enter(&mut other).unwrap());
    drop((again, other));
    let last = queue.tag().unwrap();
    assert!(queue.tag().is_err());
    drop(last);
    assert_eq!(queue.remove().unwrap_err().reason, RemoveError::TagsOut);
}

/// Completers panic with their requests, as often as there are tags, and more: each tag goes home.
#[test]
fn completers_panic() {
    let (queue, tag, other) = with_tags();
    drop((tag, other));
    for _ in 0..6 {
        let request = queue.enter_any().unwrap();
        let completes = thread::spawn(move || {
            let _request = request;
            panic!("as the test wants");
        });
        assert!(completes.join().is_err());
    }
    queue.remove().unwrap();
}

/// A thread that panics while its request is under way leaves as it unwinds, and one that has frozen thaws.
#[test]
fn threads_panic() {
    let (queue, mut tag, mut other) = with_tags();
    let queue = Arc::new(queue);
    let (its, also) = (Arc::clone(&queue), Arc::clone(&queue));
    let entered = thread::spawn(move || {
        let _request = its.enter(&mut tag).unwrap();
        panic!("as the test wants");
    });
    assert!(entered.join().is_err());
    let froze = thread::spawn(move || {
        let _frozen = also.freeze().unwrap();
        panic!("as the test wants");
    });
    assert!(froze.join().is_err());
    assert!(queue.enter(&mut other).is_ok());
    assert!(queue.try_freeze().is_ok());
}

/// Requests travel through channels, and leave on threads that never saw their queue, after all else let it go.
#[test]
fn requests_travel() {
    let (queue, tag, other) = with_tags();
    let queue = Arc::new(queue);
    let (send, receive) = mpsc::channel();
    for tag in [tag, other] {
        send.send(queue.enter_owned(tag).unwrap()).unwrap();
    }
    drop((queue, send));
    let ends = |request: OwnedRequest| thread::spawn(move || request.leave().number()).join().unwrap();
    assert_eq!(receive.into_iter().map(ends).collect::<Vec<_>>(), [0, 1]);
}

/// Requests leave and freezes thaw in any order.
#[test]
fn guards_are_dropped_in_any_order() {
    let (queue, mut tag, mut other) = with_tags();
    let (one, kept) = (queue.enter(&mut tag).unwrap(), ManuallyDrop::new(queue.enter(&mut other).unwrap()));
    drop(one);
    assert_eq!(kept.limits().max, 32);
    drop(ManuallyDrop::into_inner(kept));
    let mut freezes: Vec<_> = (0..5).map(|_| queue.freeze().unwrap()).collect();
    for at in [2, 0, 2, 1] {
        drop(freezes.remove(at));
        assert!(queue.is_drained());
    }
    freezes.swap_remove(0).set(LIMITS.with_max(1)).unwrap();
    assert_eq!((queue.depth(), queue.limits().max), (0, 1));
}

/// A request leaks through a cycle: entered for ever, as one that is forgotten.
#[test]
fn a_request_leaks_in_a_cycle() {
    struct Node(RefCell<Option<Rc<Node>>>, #[expect(dead_code, reason = "it is held")] OwnedRequest);
    let (queue, tag, _other) = with_tags();
    let queue = Arc::new(queue);
    let node = Rc::new(Node(RefCell::new(None), queue.enter_owned(tag).unwrap()));
    *node.0.borrow_mut() = Some(Rc::clone(&node));
    drop(node);
    assert_eq!(queue.try_freeze().unwrap_err(), FreezeError::NotDrained);
}

/// Two that look into a frozen queue in turns, each before the other leaves, hold the freeze off until they stop.
#[test]
fn relays_hold_a_freeze_off() {
    let (queue, mut tag, other) = with_tags();
    let mut request = queue.enter_owned(other).unwrap();
    let freezing = queue.begin_freeze().unwrap();
    for _ in 0..1_000 {
        let next = queue.try_enter_frozen_owned(tag).unwrap();
        tag = request.leave();
        request = next;
        assert!(!freezing.is_drained());
    }
    drop(request);
    assert!(freezing.is_drained());
}

/// A request whose limits are matched is held to the end of the match.
#[test]
fn a_match_holds_its_request() {
    let (queue, mut tag, _other) = with_tags();
    match queue.enter(&mut tag).unwrap().limits().max {
        32 => assert_eq!(queue.try_freeze().unwrap_err(), FreezeError::NotDrained),
        other => panic!("at most {other} sectors"),
    }
    assert!(queue.try_freeze().is_ok());
}

/// A waker that comes back to the queue, on the thread that thaws it: no lock is held then.
struct ComesBack {
    queue: Arc<Queue>,
    tags: Mutex<Vec<Tag>>,
    woken: AtomicU64,
}

impl Wake for ComesBack {
    fn wake(self: Arc<Self>) {
        self.woken.fetch_add(1, Ordering::SeqCst);
        assert!(self.queue.depth() == 0);
        let mut tag = self.tags.lock().unwrap().pop().unwrap();
        drop(self.queue.enter(&mut tag).unwrap());
        drop(tag);
        drop(self.queue.freeze().unwrap());
    }
}

#[test]
fn a_waker_comes_back_to_the_queue() {
    let (queue, mut tag, other) = with_tags();
    let queue = Arc::new(queue);
    let comes_back =
        Arc::new(ComesBack { queue: Arc::clone(&queue), tags: Mutex::new(vec![other]), woken: AtomicU64::new(0) });
    let waker = Waker::from(Arc::clone(&comes_back));
    let frozen = queue.freeze().unwrap();
    let mut entering = Box::pin(queue.enter_async(&mut tag));
    assert!(Pin::new(&mut entering).poll(&mut Context::from_waker(&waker)).is_pending());
    drop(frozen);
    assert_eq!(comes_back.woken.load(Ordering::SeqCst), 1);
    assert!(matches!(Pin::new(&mut entering).poll(&mut Context::from_waker(&waker)), Poll::Ready(Ok(_))));
}

/// A waker whose last share has a tag, which comes back to the queue where it is dropped: as a future is cancelled, noted
/// anew, or its tag is given back.
struct GivesBack(Arc<Queue>, Mutex<Option<Tag>>, Arc<AtomicU64>);

impl Wake for GivesBack {
    fn wake(self: Arc<Self>) {}
}

impl Drop for GivesBack {
    fn drop(&mut self) {
        assert!(self.0.depth() <= 1, "a call that takes the lock");
        drop(self.1.lock().unwrap().take().unwrap());
        self.2.fetch_add(1, Ordering::SeqCst);
    }
}

#[test]
fn a_waker_gives_a_tag_back_where_it_is_dropped() {
    let queue = Arc::new(Queue::builder(LIMITS).slots(1).tags(8).build().unwrap());
    let dropped = Arc::new(AtomicU64::new(0));
    let waker = || {
        let tag = queue.tag().unwrap();
        Waker::from(Arc::new(GivesBack(Arc::clone(&queue), Mutex::new(Some(tag)), Arc::clone(&dropped))))
    };
    let mut tag = queue.tag().unwrap();
    let frozen = queue.freeze().unwrap();
    let mut entering = Box::pin(queue.enter_async(&mut tag));
    assert!(Pin::new(&mut entering).poll(&mut Context::from_waker(&waker())).is_pending());
    assert!(Pin::new(&mut entering).poll(&mut Context::from_waker(&waker())).is_pending());
    assert_eq!(dropped.load(Ordering::SeqCst), 1);
    drop(entering);
    assert_eq!(dropped.load(Ordering::SeqCst), 2);
    let mut entering = Box::pin(queue.enter_async(&mut tag));
    assert!(Pin::new(&mut entering).poll(&mut Context::from_waker(&waker())).is_pending());
    mem::forget(entering);
    drop(tag);
    assert_eq!(dropped.load(Ordering::SeqCst), 3);
    drop(frozen);
    let queue = Arc::into_inner(queue).unwrap();
    assert_eq!(queue.remove().unwrap().kills, 1 + 1);
}

/// A waker that panics: the others are woken, the queue is thawed, and the panic goes on.
struct Panics;

impl Wake for Panics {
    fn wake(self: Arc<Self>) {
        panic!("as the test wants");
    }
}

struct Counts(AtomicU64);

impl Wake for Counts {
    fn wake(self: Arc<Self>) {
        self.0.fetch_add(1, Ordering::SeqCst);
    }
}

#[test]
fn a_waker_panics() {
    let queue = Queue::builder(LIMITS).slots(1).tags(3).build().unwrap();
    let mut tags: Vec<Tag> = (0..3).map(|_| queue.tag().unwrap()).collect();
    let counts = Arc::new(Counts(AtomicU64::new(0)));
    let wakers = [Arc::clone(&counts).into(), Arc::new(Panics).into(), Arc::clone(&counts).into()];
    let frozen = queue.freeze().unwrap();
    let mut entering: Vec<_> = tags.iter_mut().map(|tag| Box::pin(queue.enter_async(tag))).collect();
    for (future, waker) in entering.iter_mut().zip(&wakers) {
        assert!(Pin::new(future).poll(&mut Context::from_waker(waker)).is_pending());
    }
    assert!(panics(|| drop(frozen)));
    assert_eq!((counts.0.load(Ordering::SeqCst), queue.depth()), (2, 0));
    let future = entering.first_mut().unwrap();
    assert!(Pin::new(future).poll(&mut Context::from_waker(Waker::noop())).is_ready());
    assert!(queue.try_freeze().is_ok());
}

/// A waker that panics as the device goes: the others are woken, and the queue stays frozen for ever.
#[test]
fn a_waker_panics_as_the_device_goes() {
    let queue = Queue::builder(LIMITS).slots(1).tags(3).build().unwrap();
    let mut tags: Vec<Tag> = (0..3).map(|_| queue.tag().unwrap()).collect();
    let mut other = tags.pop().unwrap();
    let counts = Arc::new(Counts(AtomicU64::new(0)));
    let wakers = [Arc::new(Panics).into(), Arc::clone(&counts).into()];
    let frozen = queue.freeze().unwrap();
    let mut entering: Vec<_> = tags.iter_mut().map(|tag| Box::pin(queue.enter_async(tag))).collect();
    for (future, waker) in entering.iter_mut().zip(&wakers) {
        assert!(Pin::new(future).poll(&mut Context::from_waker(waker)).is_pending());
    }
    assert!(panics(|| frozen.mark_dying()));
    assert_eq!((counts.0.load(Ordering::SeqCst), queue.depth(), queue.is_dying()), (1, 0, true));
    assert_eq!(queue.try_enter(&mut other).unwrap_err(), EnterError::Dying);
    for mut future in entering {
        let polled = Pin::new(&mut future).poll(&mut Context::from_waker(Waker::noop()));
        assert!(matches!(polled, Poll::Ready(Err(EnterError::Dying))));
    }
    drop(queue.freeze().unwrap());
    assert_eq!((queue.depth(), queue.is_drained()), (0, true));
}

/// A waker that panics where the thaw is part of a panic already: it isn't a second one, which would abort.
#[test]
fn a_waker_panics_while_a_thread_does() {
    let (queue, mut tag, _other) = with_tags();
    let mut entering = Box::pin(queue.enter_async(&mut tag));
    let frozen = queue.freeze().unwrap();
    let waker = Waker::from(Arc::new(Panics));
    assert!(Pin::new(&mut entering).poll(&mut Context::from_waker(&waker)).is_pending());
    let unwound = panics(move || {
        let _frozen = frozen;
        panic!("as the test wants");
    });
    assert!(unwound && queue.depth() == 0);
}

/// A future that is polled once it is done says so, and has entered nothing more.
#[test]
fn a_future_is_polled_once_it_is_done() {
    let (queue, mut tag, _other) = with_tags();
    let mut entering = Box::pin(queue.enter_async(&mut tag));
    let mut context = Context::from_waker(Waker::noop());
    let Poll::Ready(Ok(request)) = Pin::new(&mut entering).poll(&mut context) else { panic!("it is live") };
    assert!(panics(|| Pin::new(&mut entering).poll(&mut context).is_ready()));
    drop(entering);
    drop(request);
    assert!(queue.try_freeze().is_ok());
    assert!(queue.enter(&mut tag).is_ok());
}
