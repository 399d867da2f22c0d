//! Workers draw the requests of a run, and the thread that submits draws none. Each request is drawn, whether the workers look for one,
//! are about to sleep, or sleep. No contract says this.

use blkq::erased::blk_workers::{NoStall, Point, Stall};
use blkq::erased::run_queues::{Consumer, Numbered, RequestQueue};
use std::cell::Cell;
use std::sync::atomic::{AtomicBool, AtomicU32, Ordering::SeqCst};
use std::thread::{self, ThreadId};
use std::time::Duration;

#[path = "shared/both_texts.rs"]
mod both_texts;
#[path = "shared/meeting.rs"]
mod meeting;

use both_texts::both_texts;
use meeting::{ended, is_met};

/// Runs a script: whether it writes the text that one thread does.
fn agrees(text: &str, sizes: [u32; 3], stall: &impl Stall) -> bool {
    let [out, wanted] = both_texts(text.as_bytes(), sizes, stall);
    out == wanted
}

thread_local! {
    /// Whether this thread drew before. A run starts its workers anew.
    static HAS_DRAWN: Cell<bool> = const { Cell::new(false) };
}

/// Counts the threads that draw, and the requests that the submitter draws. It holds no thread.
struct Threads {
    submitter: ThreadId,
    drawn_by_submitter: AtomicU32,
    workers: AtomicU32,
}

impl Threads {
    fn new() -> Threads {
        Threads { submitter: thread::current().id(), drawn_by_submitter: AtomicU32::new(0), workers: AtomicU32::new(0) }
    }
}

impl Stall for Threads {
    fn at(&self, _number: u32, point: Point) {
        if point != Point::Drawn {
            return;
        }
        if thread::current().id() == self.submitter {
            self.drawn_by_submitter.fetch_add(1, SeqCst);
        } else if !HAS_DRAWN.replace(true) {
            self.workers.fetch_add(1, SeqCst);
        }
    }
}

/// Small requests and large ones, and drains between them.
#[test]
fn the_submitter_draws_none() {
    let round = "read 0 1\nread 1 2\nread 0 8\nwrite 3 1 0a\n".repeat(20) + "stat\n";
    let text = format!("blkq 2\ndisk 8 hw 8\n{}", round.repeat(20));
    for sizes in [[1, 1, 1], [4, 8, 16], [32, 64, 63]] {
        let threads = Threads::new();
        assert!(agrees(&text, sizes, &threads));
        assert_eq!(threads.drawn_by_submitter.into_inner(), 0, "{sizes:?}");
    }
}

/// Small requests alone: in some of a hundred runs more than one of four workers draws.
#[test]
fn several_workers_draw_small_requests() {
    let text = format!("blkq 1\ndisk 8 hw 8\n{}", "read 0 1\n".repeat(2_000));
    let workers = (0..100).map(|_| {
        let threads = Threads::new();
        assert!(agrees(&text, [4, 8, 16], &threads));
        assert_eq!(threads.drawn_by_submitter.into_inner(), 0);
        threads.workers.into_inner()
    });
    assert!(workers.max() > Some(1));
}

/// Sleeps and wakes again and again until the test is over: it interrupts another thread each time.
fn disturb(over: &AtomicBool) {
    while !over.load(SeqCst) {
        thread::sleep(Duration::from_micros(20));
    }
}

/// A drain behind each request: workers and the submitter sleep and wake again and again. More runs than processors, and threads that
/// disturb them: so one is interrupted wherever it could miss a wake.
#[test]
fn a_drain_behind_each_request() {
    let over = AtomicBool::new(false);
    let text = format!("blkq 1\ndisk 8 hw 8\n{}", "read 0 8\nstat\nread 0 1\nstat\n".repeat(5_000));
    thread::scope(|scope| {
        for _ in 0..4 {
            scope.spawn(|| disturb(&over));
        }
        let run = || {
            let text = text.clone();
            ended(move || agrees(&text, [1, 2, 1], &NoStall)) == Some(true)
        };
        let runs: Vec<_> = (0..16).map(|_| scope.spawn(run)).collect();
        let agree = runs.into_iter().all(|run| run.join().expect("a run"));
        over.store(true, SeqCst);
        assert!(agree);
    });
}

/// Holds as many requests before each drain as there are workers at `Drawn`, until all of them are drawn, and notes one that was held
/// for minutes. Workers fall asleep behind some drains.
struct Crowds {
    size: u32,
    drawn: AtomicU32,
    alone: AtomicBool,
}

impl Stall for Crowds {
    fn at(&self, number: u32, point: Point) {
        if point == Point::Drained && number / self.size % 8 == 0 {
            thread::sleep(Duration::from_micros(200));
        }
        if point != Point::Drawn || self.alone.load(SeqCst) {
            return;
        }
        self.drawn.fetch_add(1, SeqCst);
        if !is_met(|| self.drawn.load(SeqCst) >= (number / self.size + 1) * self.size) {
            self.alone.store(true, SeqCst);
        }
    }
}

/// All workers draw a request each at once, round for round, whether they look for one, are about to sleep, or sleep.
#[test]
fn all_workers_at_once_again_and_again() {
    for (workers, rounds) in [(2, 5_000), (3, 2_000), (8, 1_000), (32, 300)] {
        let ended = ended(move || {
            let round = "read 0 1\n".repeat(workers as usize) + "stat\n";
            let crowds = Crowds { size: workers, drawn: AtomicU32::new(0), alone: AtomicBool::new(false) };
            let text = format!("blkq 1\ndisk 8 hw 8\n{}", round.repeat(rounds));
            agrees(&text, [workers, 2, workers], &crowds) && !crowds.alone.into_inner()
        });
        assert_eq!(ended, Some(true), "{workers} workers");
    }
}

/// A request that has its number.
struct Request(u32);

impl Numbered for Request {
    fn number(&self) -> u32 {
        self.0
    }
}

/// More threads wait for requests than may look at once. Each push wakes one of them, whether they still look or sleep by then.
#[test]
fn more_wait_than_may_look() {
    const WAITING: u32 = 16;
    const PAUSE: Duration = Duration::from_millis(5);
    let ended = ended(move || {
        let (queue, mut source) = RequestQueue::new(1, WAITING as usize).expect("memory");
        let consumers: Vec<_> = (0..WAITING).map(|_| queue.consumer(&mut source, 2).expect("memory")).collect();
        let drawn = AtomicU32::new(0);
        let draw_all = |mut consumer: Consumer<Request>| {
            while queue.draw(&mut consumer).expect("room").is_some() {
                drawn.fetch_add(1, SeqCst);
            }
        };
        thread::scope(|scope| {
            for consumer in consumers {
                scope.spawn(|| draw_all(consumer));
            }
            for number in 0..WAITING {
                queue.push(&mut source, Request(number));
                assert!(is_met(|| drawn.load(SeqCst) > number));
                if number % 4 == 0 {
                    thread::sleep(PAUSE);
                }
            }
            (0..WAITING).for_each(|_| queue.end(&mut source));
        });
    });
    assert_eq!(ended, Some(()));
}
