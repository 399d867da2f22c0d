//! Tests that waiting threads sleep and go on waiting after needless wakes, and that a shared wait changes nothing.

use blkq::erased::blk_workers::{Point, Stall};
use blkq::erased::freeze_queue::{BlockQueue, Enter, Freezer, Limits, Put, SharedFreezer, Tag};
use blkq::erased::wait_queue::WaitQueue;
use std::sync::atomic::{AtomicBool, AtomicU64, Ordering::SeqCst};
use std::time::Duration;
use std::{fs, thread};
use trials::erased::uses::commands;

#[path = "shared/both_texts.rs"]
mod both_texts;
use both_texts::both_texts;

/// The number of turns before a thread sleeps: seven before it announces its wait, between which it pauses and never yields, and one after.
const MOST_TURNS: u64 = 8;

/// The turns that a thread takes while nobody wakes it. In 50 milliseconds one that spins takes thousands.
fn turns_taken(announced: bool) -> u64 {
    let (queue, taken, over) = (WaitQueue::new(), AtomicU64::new(0), AtomicBool::new(false));
    thread::scope(|scope| {
        scope.spawn(|| {
            let mut tries = if announced { queue.announced_tries() } else { queue.tries() };
            while tries.next().is_some() {
                taken.fetch_add(1, SeqCst);
                if over.load(SeqCst) {
                    break;
                }
            }
        });
        while taken.load(SeqCst) == 0 {
            thread::yield_now();
        }
        thread::sleep(Duration::from_millis(50));
        let before = taken.load(SeqCst);
        over.store(true, SeqCst);
        queue.wake_all();
        before
    })
}

#[test]
fn a_thread_that_waits_sleeps() {
    let taken = turns_taken(false);
    assert!(taken <= MOST_TURNS, "{taken} turns");
}

#[test]
fn a_thread_that_announces_its_wait_sleeps_at_once() {
    assert_eq!(turns_taken(true), 1);
}

/// A wait goes on after millions of needless wakes.
#[test]
fn tries_have_no_end() {
    const TURNS: usize = 3_000_000;
    let queue = WaitQueue::new();
    assert_eq!(queue.tries().inspect(|()| queue.wake_one()).take(TURNS).count(), TURNS);
    assert_eq!(queue.announced_tries().inspect(|()| queue.wake_all()).take(TURNS).count(), TURNS);
}

/// The widest limits of 8 sectors, and narrower ones.
fn limits(max: u32) -> Limits {
    Limits::new(8, max, 0).expect("limits")
}

fn with_one_tag(slots: u32) -> (BlockQueue, Freezer, Tag) {
    let (queue, freezer, mut tags) = BlockQueue::new(limits(8), slots, 1).expect("memory");
    (queue, freezer, tags.swap_remove(0))
}

/// Returns the processor time of this thread, as Linux counts it.
fn processor_time() -> Option<Duration> {
    let told = fs::read_to_string("/proc/thread-self/schedstat").ok()?;
    told.split_whitespace().next()?.parse().ok().map(Duration::from_nanos)
}

/// Returns the processor time of a thread while it waits, until this closure ends its wait.
fn taken_by(wait: impl FnOnce() + Send, end: impl FnOnce()) -> Option<Duration> {
    thread::scope(|scope| {
        let waits = scope.spawn(|| {
            let before = processor_time()?;
            wait();
            processor_time()?.checked_sub(before)
        });
        thread::sleep(Duration::from_millis(200));
        end();
        waits.join().expect("a wait that ends")
    })
}

/// Each of these waits uses a processor only for a moment, and then sleeps. The minimum of several tries is taken, since Linux also counts
/// the time for which a virtual machine was stopped.
fn sleep<const WAITS: usize>(names: [&str; WAITS], tries: impl Fn() -> [Option<Duration>; WAITS]) {
    let mut least = [Duration::MAX; WAITS];
    for _ in 0..10 {
        for (least, taken) in least.iter_mut().zip(tries()) {
            *least = taken.unwrap_or(Duration::ZERO).min(*least);
        }
        if least.iter().all(|it| *it < Duration::from_millis(5)) {
            return;
        }
    }
    panic!("{names:?} took {least:?}");
}

#[test]
fn a_tag_that_waits_to_enter_sleeps() {
    sleep(["enter", "enter_by_lane"], || {
        let (queue, mut freezer, mut tag) = with_one_tag(1);
        assert_eq!(freezer.freeze(&queue), Ok(1));
        let enters = taken_by(|| queue.enter(&mut tag, 0), || assert_eq!(freezer.thaw(&queue), Ok(0)));
        queue.leave(&mut tag, 0);
        let mut tag = tag.into_biased(freezer.limits());
        assert_eq!(freezer.start_freeze(&queue), Ok(1));
        [enters, taken_by(|| queue.enter_by_lane(&mut tag, 0), || assert_eq!(freezer.thaw(&queue), Ok(0)))]
    });
}

#[test]
fn a_freezer_that_waits_for_the_drain_sleeps() {
    sleep(["freeze", "wait_drained", "a shared freeze", "a shared wait"], waits_for_drains);
}

/// Returns the processor time of a freezer's thread for each way to wait for the drain.
fn waits_for_drains() -> [Option<Duration>; 4] {
    let (queue, mut freezer, mut tag) = with_one_tag(1);
    let leave = |tag: &mut Tag| assert_eq!(queue.leave(tag, 0), Put::Last);
    let enter_again = |freezer: &mut Freezer, tag: &mut Tag| {
        assert_eq!(freezer.thaw(&queue), Ok(0));
        assert_eq!(queue.try_enter(tag, 0), Enter::Entered);
    };
    assert_eq!(queue.try_enter(&mut tag, 0), Enter::Entered);
    let freezes = taken_by(|| assert_eq!(freezer.freeze(&queue), Ok(1)), || leave(&mut tag));
    enter_again(&mut freezer, &mut tag);
    assert_eq!(freezer.start_freeze(&queue), Ok(1));
    let waits = taken_by(|| assert_eq!(freezer.wait_drained(&queue), Ok(())), || leave(&mut tag));
    enter_again(&mut freezer, &mut tag);
    let shared = SharedFreezer::new(freezer, &queue);
    let freezes_shared = taken_by(|| assert!(shared.freeze().is_ok()), || leave(&mut tag));
    enter_again(&mut shared.lock().freezer, &mut tag);
    assert_eq!(shared.lock().freezer.start_freeze(&queue), Ok(1));
    [freezes, waits, freezes_shared, taken_by(|| assert!(shared.wait_drained().is_ok()), || leave(&mut tag))]
}

/// Holds each request that is drawn for a while.
struct Holds;

impl Stall for Holds {
    fn at(&self, _number: u32, point: Point) {
        if point == Point::Drawn {
            thread::sleep(Duration::from_millis(100));
        }
    }
}

/// Returns the processor time of the thread that submits these lines with one tag, while each request is held.
fn submits(lines: &str) -> Option<Duration> {
    let run = || {
        let [out, wanted] = both_texts(format!("blkq 2\ndisk 1 hw 1\n{lines}").as_bytes(), [2, 2, 1], &Holds);
        assert_eq!(out, wanted);
    };
    taken_by(run, || {})
}

#[test]
fn a_submitter_that_waits_sleeps() {
    sleep(["a free tag", "a drain", "an ordered request"], || {
        ["read 0 1\nread 0 1\n", "read 0 1\nstat\n", "read 0 1\nwrite 0 1 61\n"].map(submits)
    });
}

/// A shared freeze nests in another: the depth grows by one and the limits stay. A wait changes neither.
#[test]
fn a_shared_freeze_nests() {
    let (queue, mut freezer, _tag) = with_one_tag(1);
    let mut set = Limits::new(8, 4, 2).expect("limits");
    set.set_physical(4).expect("a power of two");
    assert_eq!(freezer.start_freeze(&queue), Ok(1));
    assert_eq!(freezer.set(&queue, set), Ok(()));
    let shared = SharedFreezer::new(freezer, &queue);
    let shown = |freezer: &Freezer| (freezer.depth(), freezer.limits());
    assert_eq!(shared.freeze().map(|guard| shown(&guard.freezer)), Ok((2, set)));
    assert_eq!(shared.wait_drained().map(|guard| shown(&guard.freezer)), Ok((2, set)));
    assert_eq!(shown(&shared.lock().freezer), (2, set));
}

/// Wakes the threads that wait for the drain, by a thaw; they find the queue frozen again.
fn wake(shared: &SharedFreezer<'_>, queue: &BlockQueue) {
    let mut guard = shared.lock();
    assert_eq!(guard.freezer.thaw(queue), Ok(0));
    assert_eq!(guard.freezer.start_freeze(queue), Ok(1));
}

/// Waits for the drain of a queue with this many slots, is woken this often meanwhile, and sees the drain.
fn outlast_wakes(slots: u32, wakes: u32) {
    let (queue, mut freezer, mut tag) = with_one_tag(slots);
    assert_eq!(queue.try_enter(&mut tag, slots - 1), Enter::Entered);
    assert_eq!(freezer.start_freeze(&queue), Ok(1));
    let shared = SharedFreezer::new(freezer, &queue);
    thread::scope(|scope| {
        let waits = scope.spawn(|| shared.wait_drained().map(|guard| guard.freezer.depth()));
        for _ in 0..wakes {
            wake(&shared, &queue);
            thread::sleep(Duration::from_micros(200));
        }
        thread::sleep(Duration::from_millis(20)); // so that it sleeps again
        assert_eq!(queue.leave(&mut tag, 0), Put::Last);
        assert_eq!(waits.join().expect("a wait that ends"), Ok(1));
    });
}

/// A wait ends with the drain, and not after some number of looks, however many slots the queue has.
#[test]
fn a_wait_outlasts_many_wakes() {
    for slots in (1..=64).chain([512]) {
        outlast_wakes(slots, 5);
    }
    outlast_wakes(1, 1_000);
}

/// There is memory for many commands of one request.
#[test]
fn a_very_long_range_is_cut() {
    let made = commands(&limits(1), 1, 2_000_000).expect("memory");
    assert_eq!(made.len(), 2_000_000);
}
