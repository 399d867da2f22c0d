//! Requests with any tag: the line, its order, its ends, and that no tag is lost.
use freeze_queue::{EnterError, OwnedRequest, Queue};
use std::future::Future;
use std::pin::Pin;
use std::sync::atomic::{AtomicBool, AtomicU32, AtomicU64, Ordering};
use std::sync::{Arc, Mutex, mpsc};
use std::task::{Context, Poll, Wake, Waker};
use std::thread;
use std::time::Duration;

mod shared;
use shared::{Chance, LIMITS, Woken, block_on, ends, number_of, until};

fn queue(tags: u32) -> Arc<Queue> {
    Arc::new(Queue::builder(LIMITS).slots(2).tags(tags).build().unwrap())
}

/// A queue whose one tag is out, with the request that has it.
fn whose_tag_is_out() -> (Arc<Queue>, OwnedRequest) {
    let queue = queue(1);
    let request = queue.enter_any().unwrap();
    (queue, request)
}

/// A future that enters with any tag.
type Entering<'q> = Pin<Box<dyn Future<Output = Result<OwnedRequest, EnterError>> + Send + 'q>>;

fn polled<F: Future + ?Sized>(future: &mut Pin<Box<F>>, woken: &Arc<Woken>) -> Poll<F::Output> {
    Pin::new(future).poll(&mut Context::from_waker(&Waker::from(Arc::clone(woken))))
}

/// Futures that wait in line, each with a waker of its own.
fn in_line(queue: &Queue, count: usize) -> Vec<(Entering<'_>, Arc<Woken>)> {
    let entering = |_| (Box::pin(queue.enter_any_async()) as Entering<'_>, Arc::<Woken>::default());
    let mut all: Vec<_> = (0..count).map(entering).collect();
    for (future, woken) in &mut all {
        assert!(polled(future, woken).is_pending());
    }
    all
}

fn remove(queue: Arc<Queue>) {
    Arc::into_inner(queue).unwrap().remove().unwrap();
}

/// A tag that comes home is handed to the first, and to nobody else: neither a try nor a tag asked for overtakes.
#[test]
fn in_order_of_arrival() {
    let (queue, mut request) = whose_tag_is_out();
    let mut line = in_line(&queue, 20);
    while !line.is_empty() {
        drop(request);
        let times: Vec<u64> = line.iter().map(|(_, woken)| woken.times()).collect();
        assert!(times[0] == 1 && times[1..].iter().all(|woken| *woken == 0), "{times:?}");
        assert_eq!(queue.try_enter_any().unwrap_err(), EnterError::NoTag);
        assert!(queue.tag().is_err());
        assert_eq!(queue.enter_any_timeout(Duration::ZERO).unwrap_err(), EnterError::TimedOut);
        let (mut first, woken) = line.remove(0);
        let Poll::Ready(Ok(next)) = polled(&mut first, &woken) else { panic!("it is its turn") };
        request = next;
    }
    drop((line, request));
    remove(queue);
}

/// With a tag at home at every moment, no try finds none, though the tags move.
#[test]
fn a_tag_that_is_home_is_found() {
    let queue = queue(3);
    let (tries, over) = (10 * number_of("FREEZE_QUEUE_ROUNDS", 20_000), AtomicBool::new(false));
    thread::scope(|threads| {
        for _ in 0..2 {
            threads.spawn(|| {
                while !over.load(Ordering::Relaxed) {
                    drop(queue.tag());
                    drop(queue.enter_any().unwrap());
                }
            });
        }
        let all = (0..tries).all(|_| queue.try_enter_any().is_ok() && queue.tag().is_ok());
        over.store(true, Ordering::Relaxed);
        assert!(all, "each other thread has one of three tags at most");
    });
    remove(queue);
}

/// A thread that parks for somebody else, as an executor does, finds its token after a wait for a tag.
#[test]
fn a_wait_leaves_the_threads_token() {
    let (queue, request) = whose_tag_is_out();
    ends(move || {
        thread::current().unpark();
        assert_eq!(queue.enter_any_timeout(Duration::from_millis(1)).unwrap_err(), EnterError::TimedOut);
        thread::park(); // returns at once
        thread::current().unpark();
        thread::scope(|threads| {
            let leaves = threads.spawn(move || drop(request));
            let other = queue.enter_any().unwrap();
            leaves.join().unwrap();
            drop(other);
        });
        thread::park();
    });
}

/// One that leaves the line takes nobody's turn, and passes a tag on that it was handed.
#[test]
fn one_is_cancelled_in_line() {
    let (queue, request) = whose_tag_is_out();
    let mut line = in_line(&queue, 5);
    drop(line.remove(1));
    drop(line.remove(3));
    drop(request);
    drop(line.remove(0)); // handed the tag, and cancelled before it came
    assert_eq!(line[0].1.times(), 1);
    let (future, woken) = &mut line[0];
    assert!(polled(future, woken).is_ready()); // and leaves at once
    assert_eq!(line[1].1.times(), 1);
    drop(line);
    assert!(queue.try_enter_any().is_ok());
    remove(queue);
}

/// The waker that was there last is woken.
#[test]
fn a_future_in_line_changes_its_waker() {
    let (queue, request) = whose_tag_is_out();
    let mut line = in_line(&queue, 1);
    let (mut future, first) = line.pop().unwrap();
    let last = Arc::<Woken>::default();
    assert!(polled(&mut future, &last).is_pending());
    assert_eq!((Arc::strong_count(&first), Arc::strong_count(&last)), (1, 2));
    drop(request);
    assert_eq!((first.times(), last.times()), (0, 1));
    assert!(polled(&mut future, &last).is_ready());
}

/// A tag in any form that is dropped goes to the line: also one that was kept, borrowed or given back.
#[test]
fn each_tag_goes_to_the_line() {
    let queue = queue(1);
    for way in 0..3 {
        let mut tag = queue.tag().unwrap();
        let mut line = in_line(&queue, 1);
        let (mut future, woken) = line.pop().unwrap();
        match way {
            0 => drop(tag),
            1 => {
                drop(queue.enter(&mut tag).unwrap());
                assert_eq!(woken.times(), 0);
                drop(queue.enter_owned(tag).unwrap());
            }
            _ => drop(Box::pin(queue.enter_owned_async(tag))),
        }
        assert_eq!(woken.times(), 1);
        assert!(matches!(polled(&mut future, &woken), Poll::Ready(Ok(_))));
    }
    remove(queue);
}

/// A waker that comes back to the queue, on the thread that wakes it: no lock is held then.
struct ComesBack(Arc<Queue>, AtomicU64);

impl Wake for ComesBack {
    fn wake(self: Arc<Self>) {
        assert!(self.0.depth() <= 1 && self.0.tag().is_err());
        self.1.fetch_add(1, Ordering::SeqCst);
    }
}

#[test]
fn wakers_come_back_to_the_queue() {
    ends(|| {
        let queue = queue(1);
        let comes_back = Arc::new(ComesBack(Arc::clone(&queue), AtomicU64::new(0)));
        let waker = Waker::from(Arc::clone(&comes_back));
        let request = queue.enter_any().unwrap();
        let mut line = [Box::pin(queue.enter_any_async()), Box::pin(queue.enter_any_async())];
        for future in &mut line {
            assert!(Pin::new(future).poll(&mut Context::from_waker(&waker)).is_pending());
        }
        let mut drained = Box::pin(queue.begin_freeze().unwrap().drained());
        assert!(Pin::new(&mut drained).poll(&mut Context::from_waker(&waker)).is_pending());
        drop(request); // wakes at the drain, and the first in line
        assert_eq!(comes_back.1.load(Ordering::SeqCst), 2);
        let Poll::Ready(frozen) = Pin::new(&mut drained).poll(&mut Context::from_waker(&waker)) else {
            panic!("it is drained")
        };
        frozen.mark_dying(); // wakes the second in line
        assert_eq!(comes_back.1.load(Ordering::SeqCst), 3);
        drop((line, waker));
    });
}

/// The device goes: those in line are sent away, and those that come later, and with a tag.
#[test]
fn the_device_goes() {
    let (queue, request) = whose_tag_is_out();
    let mut line = in_line(&queue, 3);
    let freezing = queue.begin_freeze().unwrap();
    drop(request);
    assert_eq!(line[0].1.times(), 1);
    let (future, woken) = &mut line[0];
    assert!(polled(future, woken).is_pending(), "it has a tag, and waits for the thaw");
    freezing.wait().mark_dying();
    for (future, woken) in &mut line {
        assert!(woken.times() >= 1 && Arc::strong_count(woken) == 1);
        assert!(matches!(polled(future, woken), Poll::Ready(Err(EnterError::Dying))));
    }
    assert_eq!(queue.enter_any().unwrap_err(), EnterError::Dying);
    assert_eq!(queue.try_enter_any().unwrap_err(), EnterError::Dying);
    let late = queue.enter_any_timeout(Duration::from_secs(3600));
    assert_eq!(late.unwrap_err(), EnterError::Dying);
    let held = queue.tag().unwrap();
    assert_eq!(queue.enter_any().unwrap_err(), EnterError::Dying, "nobody waits in line any more");
    assert_eq!(queue.try_enter_any().unwrap_err(), EnterError::Dying, "it doesn't ask for another try");
    drop((line, held));
    remove(queue);
}

/// The handle goes while requests, tags and freezes are there: each goes on, and all ends with the last.
#[test]
fn the_handle_is_dropped() {
    let queue = Queue::builder(LIMITS).slots(2).tags(3).build().unwrap();
    let (request, tag) = (queue.enter_any().unwrap(), queue.tag().unwrap());
    let freezing = queue.begin_freeze().unwrap().into_owned();
    drop(queue);
    assert!(!freezing.is_drained());
    let gone = thread::spawn(move || drop(request));
    let frozen = freezing.wait();
    gone.join().unwrap();
    frozen.set(LIMITS.with_max(8)).unwrap();
    assert_eq!(frozen.limits().max, 8);
    drop((tag, frozen));
}

/// Places go from one queue to the next, in any order, on several threads: no tag is in a place of another queue.
#[test]
fn queues_come_and_go() {
    let lives = number_of("FREEZE_QUEUE_LIVES", 300) / 3;
    thread::scope(|threads| {
        for seed in 0..4 {
            threads.spawn(move || {
                let mut chance = Chance(seed);
                for _ in 0..lives {
                    let tags = 1 + chance.below(20);
                    let queue = Queue::builder(LIMITS).slots(2).tags(tags).build().unwrap();
                    let mut all: Vec<_> = (0..tags).map(|_| queue.enter_any().unwrap()).collect();
                    assert_eq!(queue.try_enter_any().unwrap_err(), EnterError::NoTag);
                    all.truncate(chance.below(tags) as usize);
                    if chance.one_in(2) {
                        drop(queue);
                    } else {
                        all.clear();
                        queue.remove().unwrap();
                    }
                }
            });
        }
    });
}

/// Threads and tasks, more than tags, beside freezes: each comes in as often as it wants, some give up, and no tag is lost.
#[test]
fn more_that_enter_than_tags() {
    ends(|| {
        let (queue, over) = (queue(3), AtomicBool::new(false));
        let rounds = number_of("FREEZE_QUEUE_ROUNDS", 100_000) / 200;
        let (most, now) = (AtomicU32::new(0), AtomicU32::new(0));
        let serve = |request: OwnedRequest| {
            most.fetch_max(now.fetch_add(1, Ordering::SeqCst) + 1, Ordering::SeqCst);
            assert!(queue.try_freeze().is_err(), "a request is in flight");
            now.fetch_sub(1, Ordering::SeqCst);
            drop(request);
        };
        thread::scope(|threads| {
            let workers: Vec<_> = (0..8_u64)
                .map(|number| {
                    let (queue, serve) = (&queue, &serve);
                    threads.spawn(move || {
                        let mut chance = Chance(number);
                        for _ in 0..rounds {
                            match chance.below(4) {
                                0 => serve(block_on(queue.enter_any_async()).unwrap()),
                                1 => drop(queue.enter_any_timeout(Duration::from_micros(30)).map(serve)),
                                2 => {
                                    let mut cancelled = Box::pin(queue.enter_any_async());
                                    let _ = polled(&mut cancelled, &Arc::default()).map(|done| drop(done.unwrap()));
                                }
                                _ => serve(queue.enter_any().unwrap()),
                            }
                        }
                    })
                })
                .collect();
            threads.spawn(|| {
                while !over.load(Ordering::Relaxed) {
                    drop(queue.freeze().unwrap());
                    thread::yield_now();
                }
            });
            let done: Vec<_> = workers.into_iter().map(|worker| worker.join().is_ok()).collect();
            over.store(true, Ordering::Relaxed);
            assert!(done.into_iter().all(|is_done| is_done));
        });
        assert!(most.into_inner() <= 3);
        remove(queue);
    });
}

/// Requests are dropped by completers, of which some panic; the submitters wait for tags meanwhile.
#[test]
fn completers_panic_under_load() {
    ends(|| {
        let (queue, served, alive) = (queue(4), Arc::new(AtomicU64::new(0)), Arc::new(AtomicU64::new(0)));
        let (sent, requests) = mpsc::channel::<OwnedRequest>();
        let requests = Arc::new(Mutex::new(requests));
        let completers = || {
            let (requests, served, alive) = (Arc::clone(&requests), Arc::clone(&served), Arc::clone(&alive));
            alive.fetch_add(1, Ordering::SeqCst);
            thread::spawn(move || {
                loop {
                    let next = requests.lock().unwrap_or_else(std::sync::PoisonError::into_inner).recv();
                    let Ok(_request) = next else { return };
                    if served.fetch_add(1, Ordering::SeqCst) % 50 == 7 {
                        alive.fetch_sub(1, Ordering::SeqCst); // before its tag is home
                        panic!("as the test wants");
                    }
                }
            })
        };
        let mut all: Vec<_> = (0..3).map(|_| completers()).collect();
        for _ in 0..500 {
            sent.send(queue.enter_any().unwrap()).unwrap();
            while alive.load(Ordering::SeqCst) < 3 {
                all.push(completers());
            }
        }
        until("each is served", || served.load(Ordering::SeqCst) == 500);
        drop(sent);
        assert_eq!(all.into_iter().filter_map(|completer| completer.join().err()).count(), 10);
        remove(queue); // no tag is lost
    });
}

#[derive(Default)]
struct Depth {
    now: AtomicU32,
    most: AtomicU32,
}

/// A task whose last share is its waker: the wake drops its future, which hands its tag on from within that wake.
struct Orphan {
    future: Mutex<Option<Pin<Box<dyn Future<Output = ()> + Send>>>>,
    depth: Arc<Depth>,
}

impl Wake for Orphan {
    fn wake(self: Arc<Self>) {
        let depth = Arc::clone(&self.depth);
        depth.most.fetch_max(1 + depth.now.fetch_add(1, Ordering::SeqCst), Ordering::SeqCst);
        drop(self);
        depth.now.fetch_sub(1, Ordering::SeqCst);
    }
}

/// A row of such tasks hands a tag on one after another, and not one within another.
#[test]
fn a_row_of_hand_overs_takes_no_stack() {
    let (queue, depth) = (queue(1), Arc::<Depth>::default());
    let request = queue.enter_any().unwrap();
    for _ in 0..100 {
        let of_task = Arc::clone(&queue);
        let future = async move { drop(of_task.enter_any_async().await) };
        let task = Arc::new(Orphan { future: Mutex::new(Some(Box::pin(future))), depth: Arc::clone(&depth) });
        let waker = Waker::from(Arc::clone(&task));
        let mut future = task.future.lock().unwrap();
        assert!(future.as_mut().unwrap().as_mut().poll(&mut Context::from_waker(&waker)).is_pending());
    }
    drop(request);
    assert_eq!((depth.now.load(Ordering::SeqCst), depth.most.load(Ordering::SeqCst)), (0, 1));
    assert_eq!(Arc::strong_count(&depth), 1);
    remove(queue);
}
