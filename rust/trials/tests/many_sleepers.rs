//! As many threads as never wait in a run wait for requests: each push reaches one of them, and leaves the others asleep. Whoever waits
//! sleeps, a thaw wakes all that wait to enter, and what is spare comes in order.

use blkq::erased::freeze_queue::{BlockQueue, Limits, MOST_TAGS, Tag};
use blkq::erased::run_queues::{CompletionQueue, Consumer, Numbered, RequestQueue, SpareQueue};
use std::sync::Mutex;
use std::sync::atomic::{AtomicU64, Ordering::SeqCst};
use std::time::Duration;
use std::{fs, thread};

#[allow(dead_code)]
#[path = "shared/turns.rs"]
mod turns;
use turns::{insist, until, wait_for};

const THREADS: u64 = 64;

struct Request(u32);

impl Numbered for Request {
    fn number(&self) -> u32 {
        self.0
    }
}

/// Sixty-four threads wait. Each request is drawn before the next is pushed, so each push has to reach one, which sleeps or looks.
#[test]
fn each_push_reaches_one_of_sixty_four() {
    let (queue, mut source) = RequestQueue::new(1, THREADS as usize).expect("memory");
    let consumers: Vec<_> = (0..THREADS).map(|_| queue.consumer(&mut source, 1).expect("memory")).collect();
    let (waiting, drawn) = (AtomicU64::new(0), AtomicU64::new(0));
    let draws_one = |mut consumer: Consumer<Request>| {
        waiting.fetch_add(1, SeqCst);
        assert!(queue.draw(&mut consumer).expect("room in the list").is_some());
        drawn.fetch_add(1, SeqCst);
        consumer
    };
    let back: Vec<_> = thread::scope(|scope| {
        let all: Vec<_> = consumers.into_iter().map(|consumer| scope.spawn(|| draws_one(consumer))).collect();
        wait_for(&waiting, THREADS);
        for number in 0..THREADS {
            queue.push(&mut source, Request(number as u32));
            wait_for(&drawn, number + 1);
        }
        all.into_iter().map(|it| it.join().expect("a thread that ends")).collect()
    });
    for consumer in back {
        queue.gather(&mut source, consumer).expect("memory");
    }
    let mut all = queue.finish(source).concat();
    all.sort_unstable();
    assert!(all.into_iter().eq(0..THREADS as u32));
}

/// Returns how often this thread of the process has slept, if Linux says that it sleeps now.
fn sleeps(thread: &str) -> Option<u64> {
    let told = fs::read_to_string(format!("/proc/{thread}/status")).ok()?;
    let said = |name: &str| told.lines().find_map(|line| line.strip_prefix(name)).map(str::trim);
    said("State:")?.starts_with('S').then(|| said("voluntary_ctxt_switches:")?.parse().ok())?
}

/// Returns how often each of these threads has slept, once all of them sleep; of one, that looks again and again, it isn't known.
fn slept(threads: &[String]) -> Vec<Option<u64>> {
    let all = || threads.iter().map(|thread| sleeps(thread)).collect::<Vec<_>>();
    let mut found = Vec::new();
    until(|| {
        let before = all();
        thread::sleep(Duration::from_millis(5));
        found = all().into_iter().zip(before).map(|(now, before)| now.filter(|_| now == before)).collect();
        found.iter().filter(|it| it.is_none()).count() <= 1
    });
    found
}

/// Sixteen threads sleep. A push wakes one of them, mostly: if it woke all, the others would have slept once more each.
#[test]
fn a_push_leaves_the_others_asleep() {
    const SLEEPING: usize = 16;
    let Ok(_) = fs::read_link("/proc/thread-self") else { return };
    let (queue, mut source) = RequestQueue::new(1, SLEEPING).expect("memory");
    let consumers: Vec<_> = (0..SLEEPING).map(|_| queue.consumer(&mut source, 1).expect("memory")).collect();
    let (waiting, drawn) = (Mutex::new(Vec::new()), AtomicU64::new(0));
    let draws_one = |mut consumer: Consumer<Request>| {
        let name = fs::read_link("/proc/thread-self").expect("a thread").display().to_string();
        waiting.lock().expect("names").push(name.clone());
        assert!(queue.draw(&mut consumer).expect("room in the list").is_some());
        waiting.lock().expect("names").retain(|it| *it != name);
        drawn.fetch_add(1, SeqCst);
    };
    let mut woken = 0;
    thread::scope(|scope| {
        consumers.into_iter().for_each(|consumer| drop(scope.spawn(|| draws_one(consumer))));
        until(|| waiting.lock().expect("names").len() == SLEEPING);
        for number in 0..SLEEPING {
            let all = waiting.lock().expect("names").clone();
            let before = slept(&all);
            queue.push(&mut source, Request(number as u32));
            queue.wake_one_more(&mut source);
            wait_for(&drawn, number as u64 + 1);
            let left = waiting.lock().expect("names").clone();
            let slept_before = all.iter().zip(before).filter(|(it, _)| left.contains(it)).map(|(_, slept)| slept);
            let more = slept(&left).into_iter().zip(slept_before).filter_map(|(now, before)| Some(now? - before?));
            woken += more.sum::<u64>();
        }
    });
    assert!(woken <= SLEEPING as u64, "{woken} needless wakes by {SLEEPING} pushes");
}

/// A thaw wakes each of many threads that wait to enter, of a queue with few tags and with the most.
#[test]
fn a_thaw_wakes_each_of_sixty_four() {
    for tags in [THREADS as u32, MOST_TAGS] {
        let (queue, mut freezer, mut tags) =
            BlockQueue::new(Limits::start(8).expect("limits"), 2, tags).expect("memory");
        assert_eq!(freezer.freeze(&queue), Ok(1));
        let (waiting, entered) = (AtomicU64::new(0), AtomicU64::new(0));
        let enters = |tag: &mut Tag| {
            waiting.fetch_add(1, SeqCst);
            queue.enter(tag, 1);
            entered.fetch_add(1, SeqCst);
        };
        thread::scope(|scope| {
            tags.iter_mut().take(THREADS as usize).for_each(|tag| drop(scope.spawn(|| enters(tag))));
            wait_for(&waiting, THREADS);
            thread::sleep(Duration::from_millis(100)); // so that they sleep
            insist(freezer.thaw(&queue) == Ok(0), "a thaw is refused");
            wait_for(&entered, THREADS);
        });
    }
}

/// Returns the name of this thread in /proc, if there is one.
fn own_name() -> Option<String> {
    Some(fs::read_link("/proc/thread-self").ok()?.display().to_string())
}

/// A thread sleeps while it waits for a completion, for a spare, or for room for a request.
#[test]
fn who_waits_sleeps() {
    let Some(_) = own_name() else { return };
    let (requests, mut source) = RequestQueue::new(1, 1).expect("memory");
    let (completions, mut collector) = CompletionQueue::<Request>::new(1).expect("memory");
    let (spares, mut taker) = SpareQueue::new(1).expect("memory");
    let mut consumer = requests.consumer(&mut source, 2).expect("memory");
    let token = completions.token(&mut collector, 0);
    requests.push(&mut source, Request(0));
    let names = Mutex::new(Vec::new());
    let says_its_name = || names.lock().expect("names").push(own_name().expect("a thread"));
    thread::scope(|scope| {
        scope.spawn(|| {
            says_its_name();
            requests.push(&mut source, Request(1));
        });
        scope.spawn(|| {
            says_its_name();
            completions.collect(&mut collector).0
        });
        scope.spawn(|| {
            says_its_name();
            spares.take(&mut taker)
        });
        until(|| names.lock().expect("names").len() == 3);
        let names = names.lock().expect("names").clone();
        slept(&names);
        assert!(requests.draw(&mut consumer).expect("room in the list").is_some());
        completions.tell(token, Request(0));
        spares.put(&mut spares.put_count(), 7);
    });
}

/// Spares are taken in the order in which they were put, in queues of each size.
#[test]
fn spares_come_in_order() {
    for room in 1..=100_u32 {
        let (queue, mut taker) = SpareQueue::new(room as usize).expect("memory");
        let mut count = queue.put_count();
        for round in 0..3 {
            let spares = [1, room.div_ceil(2), room][round];
            (0..spares).for_each(|spare| queue.put(&mut count, spare));
            let found = (0..spares).map(|_| queue.take(&mut taker));
            assert!(found.eq(0..spares), "of {spares} in a queue with room for {room}");
        }
    }
}
