//! Parts that tests of several files have in common.
#![allow(dead_code, reason = "each file uses a part")]

use freeze_queue::{Limits, Queue, Tag};
use std::env;
use std::future::Future;
use std::pin::pin;
use std::sync::Arc;
use std::sync::atomic::{AtomicU64, Ordering};
use std::sync::mpsc::{self, RecvTimeoutError};
use std::task::{Context, Poll, Wake, Waker};
use std::thread::{self, Thread};
use std::time::{Duration, Instant};

pub const LIMITS: Limits = Limits::of_hardware(64).with_max(32).with_chunk(128).with_physical(8);

/// A queue with these limits.
pub fn queue(slots: u32, tags: u32) -> Queue {
    Queue::builder(LIMITS).slots(slots).tags(tags).build().unwrap()
}

/// A queue of two slots and two tags, with its first tag.
pub fn with_tag() -> (Queue, Tag) {
    let queue = queue(2, 2);
    let tag = queue.tag().unwrap();
    (queue, tag)
}

/// A number from the environment.
pub fn number_of(name: &str, otherwise: u64) -> u64 {
    env::var(name).ok().and_then(|text| text.parse().ok()).unwrap_or(otherwise)
}

/// Numbers that look random.
pub struct Chance(pub u64);

impl Chance {
    pub fn below(&mut self, n: u32) -> u32 {
        self.0 = self.0.wrapping_mul(6_364_136_223_846_793_005).wrapping_add(1_442_695_040_888_963_407);
        u32::try_from(self.0 >> 33).unwrap() % n
    }

    pub fn one_in(&mut self, of: u32) -> bool {
        self.below(of) == 0
    }
}

struct Unparks(Thread);

impl Wake for Unparks {
    fn wake(self: Arc<Self>) {
        self.0.unpark();
    }
}

/// Polls a future on this thread, which is parked meanwhile.
pub fn block_on<T>(future: impl Future<Output = T>) -> T {
    let waker = Waker::from(Arc::new(Unparks(thread::current())));
    let mut future = pin!(future);
    loop {
        match future.as_mut().poll(&mut Context::from_waker(&waker)) {
            Poll::Ready(done) => return done,
            Poll::Pending => thread::park(),
        }
    }
}

/// A waker that counts how often it is woken.
#[derive(Default)]
pub struct Woken(AtomicU64);

impl Woken {
    pub fn times(&self) -> u64 {
        self.0.load(Ordering::SeqCst)
    }

    pub fn count(&self) {
        self.0.fetch_add(1, Ordering::SeqCst);
    }
}

impl Wake for Woken {
    fn wake(self: Arc<Self>) {
        self.count();
    }
}

/// How long a test waits for what comes about in milliseconds, and in minutes on a machine that has much else to do.
pub const PATIENCE: Duration = Duration::from_secs(600);

/// Waits until something is so, which comes about soon.
pub fn until(what: &str, mut is_so: impl FnMut() -> bool) {
    let began = Instant::now();
    while !is_so() {
        assert!(began.elapsed() < PATIENCE, "{what}");
        thread::sleep(Duration::from_micros(100));
    }
}

/// Does this on another thread, and waits for its end.
pub fn on_another_thread(work: impl FnOnce() + Send) {
    thread::scope(|threads| threads.spawn(work).join().unwrap());
}

/// Runs a test on a thread of its own, and fails where it has no end in all that time: as of a wake that is lost.
pub fn ends(test: impl FnOnce() + Send + 'static) {
    let (done, is_done) = mpsc::channel();
    let runs = thread::spawn(move || {
        test();
        done.send(()).unwrap();
    });
    match is_done.recv_timeout(PATIENCE) {
        Err(RecvTimeoutError::Timeout) => panic!("it has no end: a wake is lost"),
        _ => runs.join().unwrap(),
    }
}
