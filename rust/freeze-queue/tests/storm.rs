//! Calls of all kinds on four threads, in a random order, which are given up at any moment: at the end each tag is home, each freeze is thawed,
//! no update is lost, and the value was never seen halfway.
use freeze_queue::{Limits, Queue, UpdateError};
use std::future::Future;
use std::pin::pin;
use std::sync::atomic::{AtomicU32, Ordering};
use std::sync::{Arc, mpsc};
use std::task::{Context, Poll, Waker};
use std::thread;
use std::time::Duration;

mod shared;
use shared::{Chance, ends, number_of};

const THREADS: u64 = 4;
const TAGS: u32 = 6;

/// Two numbers, which a change makes equal.
type Value = (u64, Box<u64>);

fn is_whole(value: &Value) -> bool {
    value.0 == *value.1
}

/// What a future returns within so many polls; then it is given up.
fn polled<T>(future: impl Future<Output = T>, polls: u32) -> Option<T> {
    let (mut future, mut context) = (pin!(future), Context::from_waker(Waker::noop()));
    for _ in 0..polls {
        if let Poll::Ready(done) = future.as_mut().poll(&mut context) {
            return Some(done);
        }
        thread::yield_now();
    }
    None
}

struct Storm {
    queue: Arc<Queue<Value>>,
    /// Requests and freezes that another thread drops.
    passed: mpsc::Sender<Box<dyn Send>>,
    updates: Arc<AtomicU32>,
}

impl Storm {
    fn enters(&self, chance: &mut Chance) {
        let (queue, polls) = (&self.queue, chance.below(4));
        let patience = Duration::from_micros(u64::from(chance.below(50)));
        let request = match chance.below(6) {
            0 => queue.try_enter_any().ok(),
            1 => queue.enter_any_timeout(patience).ok(),
            2 => polled(queue.enter_any_async(), polls).map(Result::unwrap),
            3 => polled(queue.enter_any_owned_async(), polls).map(Result::unwrap),
            4 => queue.tag().ok().and_then(|tag| polled(queue.enter_owned_async(tag), polls)).map(Result::unwrap),
            _ => queue.tag().ok().and_then(|tag| queue.enter_owned_timeout(tag, patience).ok()),
        };
        let Some(request) = request else { return };
        assert!(is_whole(&request), "a request beside a change");
        if chance.one_in(3) {
            self.passed.send(Box::new(request)).unwrap();
        }
    }

    /// With a tag that is kept for some requests.
    fn keeps(&self, chance: &mut Chance) {
        let Ok(mut tag) = self.queue.tag() else { return };
        for _ in 0..chance.below(4) {
            let entered = match chance.below(3) {
                0 => self.queue.try_enter(&mut tag).ok(),
                1 => self.queue.try_enter_frozen(&mut tag).ok(),
                _ => polled(self.queue.enter_async(&mut tag), chance.below(3)).map(Result::unwrap),
            };
            assert!(entered.is_none_or(|request| is_whole(&request)), "a request beside a change");
        }
    }

    fn freezes(&self, chance: &mut Chance) {
        let (queue, patience) = (&self.queue, Duration::from_micros(u64::from(chance.below(50))));
        let frozen = match chance.below(4) {
            0 => queue.try_freeze().ok(),
            1 => queue.freeze_timeout(patience).ok(),
            2 => polled(queue.freeze_async(), chance.below(3)).map(Result::unwrap),
            _ => return self.passed.send(Box::new(queue.begin_freeze().unwrap().into_owned())).unwrap(),
        };
        let Some(frozen) = frozen else { return };
        let mut value = frozen.lock();
        value.0 += 1;
        thread::yield_now();
        *value.1 = value.0;
    }

    fn updates(&self, chance: &mut Chance) {
        let one_more = |limits: Limits| limits.with_chunk(limits.chunk + 1);
        let patience = Duration::from_micros(u64::from(chance.below(50)));
        let set = match chance.below(2) {
            0 => polled(self.queue.update_async(one_more), chance.below(4)).map(Result::unwrap),
            _ => match self.queue.update_timeout(patience, one_more) {
                Err(UpdateError::TimedOut) => None,
                set => Some(set.unwrap()),
            },
        };
        self.updates.fetch_add(u32::from(set.is_some()), Ordering::Relaxed);
    }

    fn calls(&self, seed: u64, calls: u64) {
        let mut chance = Chance(seed);
        for _ in 0..calls {
            match chance.below(8) {
                0..=2 => self.enters(&mut chance),
                3 | 4 => self.keeps(&mut chance),
                5 => self.freezes(&mut chance),
                6 => self.updates(&mut chance),
                _ => self.queue.watch(chance.one_in(2)),
            }
        }
    }
}

#[test]
fn calls_that_are_given_up() {
    ends(|| {
        let calls = number_of("FREEZE_QUEUE_CALLS", 20_000) / THREADS;
        let builder = Queue::builder(Limits::of_hardware(64)).slots(3).tags(TAGS).reserved(1);
        let queue = Arc::new(builder.value((0, Box::new(0))).build().unwrap());
        let (updates, (passed, taken)) = (Arc::new(AtomicU32::new(0)), mpsc::channel());
        let drops = thread::spawn(|| taken.into_iter().for_each(drop));
        let threads: Vec<_> = (0..THREADS)
            .map(|seed| {
                let storm = Storm { queue: Arc::clone(&queue), passed: passed.clone(), updates: Arc::clone(&updates) };
                thread::spawn(move || storm.calls(seed, calls))
            })
            .collect();
        drop(passed);
        for thread in threads.into_iter().chain([drops]) {
            thread.join().unwrap();
        }
        assert_eq!((queue.depth(), queue.in_flight().count()), (0, 0));
        let updates = updates.load(Ordering::Relaxed);
        assert_eq!(queue.limits().chunk, updates, "each update is kept");
        assert!(updates > 0 && queue.stats().waited > 0);
        let all: Vec<_> = std::iter::from_fn(|| queue.tag().ok()).collect();
        assert_eq!(all.len(), TAGS as usize, "each tag is home");
        drop(all);
        assert!(is_whole(&Arc::into_inner(queue).unwrap().remove().unwrap().value));
    });
}
