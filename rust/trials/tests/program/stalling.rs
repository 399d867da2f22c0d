//! A run that is held passes its points, once, and has as many workers and tags as its words say.

use crate::driver::{WILLING, call_held, words};
use crate::fakes::{Feed, Sink};
use crate::meeting::{hold_for, is_met};
use blkq::erased::blk_script::{Checked, parse};
use blkq::erased::blk_workers::{Config, Point, Stall, run, run_checked};
use blkq::erased::blkq_run::{Task, requested, run_bytes};
use blkq::erased::counted_io::Counted;
use std::sync::Mutex;
use std::sync::atomic::{AtomicBool, AtomicU8, AtomicU32, Ordering};

/// The row ordered_twice: four requests, of which the second and the fourth are ordered.
const SCRIPT: &[u8] = b"blkq 2\ndisk 4 hw 4\nwrite 0 2 01\nwrite 1 2 02\nwrite 0 1 03\nread 1 1\n";

/// How often each of the first four requests was at a point, a hexadecimal digit for each, the first in the last place;
/// and after how many requests each drain came, a decimal digit for each.
struct Counts {
    entered: AtomicU32,
    drawn: AtomicU32,
    answered: AtomicU32,
    drained: AtomicU32,
}

impl Stall for Counts {
    fn at(&self, number: u32, point: Point) {
        let place = 1u32.wrapping_shl(number.wrapping_mul(4));
        match point {
            Point::Entered => self.entered.fetch_add(place, Ordering::SeqCst),
            Point::Drawn => self.drawn.fetch_add(place, Ordering::SeqCst),
            Point::Answered => self.answered.fetch_add(place, Ordering::SeqCst),
            Point::Drained => {
                let before = self.drained.load(Ordering::SeqCst);
                let after = before.wrapping_mul(10).wrapping_add(number);
                self.drained.swap(after, Ordering::SeqCst)
            }
        };
    }
}

impl Counts {
    fn new() -> Self {
        Counts {
            entered: AtomicU32::new(0),
            drawn: AtomicU32::new(0),
            answered: AtomicU32::new(0),
            drained: AtomicU32::new(0),
        }
    }

    /// How often each request was entered, drawn and answered.
    fn of_requests(&self) -> [u32; 3] {
        [&self.entered, &self.drawn, &self.answered].map(|at| at.load(Ordering::SeqCst))
    }
}

// Each accepted request is entered, drawn and answered once. Drained comes before each ordered request, and at the end.
#[test]
fn each_point_is_passed() {
    for (workers, slots, tags) in [(2, 2, 2), (1, 1, 1), (1, 2, 1), (1, 1, 2), (2, 1, 1), (3, 8, 1), (32, 64, 63)] {
        let counts = Counts::new();
        let config = Config::new(workers, slots, tags).unwrap();
        let mut reader = Counted::new(Feed::new(SCRIPT));
        let mut writer = Counted::new(Sink::new());
        let found = run_bytes(&mut reader, &mut writer, config, &counts);
        assert!(found.is_ok(), "{found:?}");
        assert_eq!(counts.of_requests(), [0x1111; 3]);
        assert_eq!(counts.drained.load(Ordering::SeqCst), 134);
    }
}

/// Holds each request from this number on that is drawn until so many of these are entered and so many drawn, and then for a while
/// more, and from then on none.
struct Gathers {
    first: u32,
    workers: u32,
    tags: u32,
    entered: AtomicU32,
    drawn: AtomicU32,
    /// How many were entered, times 100, and drawn, while all of them were held; 0 as long as they are.
    found: AtomicU32,
}

impl Gathers {
    fn new(first: u32, workers: u32, tags: u32) -> Self {
        let [entered, drawn, found] = [0; 3].map(AtomicU32::new);
        Gathers { first, workers, tags, entered, drawn, found }
    }

    /// How many are entered and drawn.
    fn at_once(&self) -> (u32, u32) {
        (self.entered.load(Ordering::SeqCst), self.drawn.load(Ordering::SeqCst))
    }

    fn hold(&self) {
        is_met(|| {
            let (entered, drawn) = self.at_once();
            self.found.load(Ordering::SeqCst) > 0 || entered >= self.tags && drawn >= self.workers
        });
        if self.found.load(Ordering::SeqCst) == 0 {
            hold_for(10_000);
        }
        let (entered, drawn) = self.at_once();
        let found = entered.wrapping_mul(100).wrapping_add(drawn);
        let _ = self.found.compare_exchange(0, found, Ordering::SeqCst, Ordering::SeqCst);
    }
}

impl Stall for Gathers {
    fn at(&self, number: u32, point: Point) {
        match point {
            Point::Entered if number >= self.first => {
                self.entered.fetch_add(1, Ordering::SeqCst);
            }
            Point::Drawn if number >= self.first => {
                self.drawn.fetch_add(1, Ordering::SeqCst);
                self.hold();
            }
            _ => {}
        }
    }
}

/// A call that runs a script.
#[derive(Clone, Copy, Debug)]
enum Way {
    Command,
    RunBytes,
    RunChecked,
    Run,
}

const WAYS: [Way; 4] = [Way::Command, Way::RunBytes, Way::RunChecked, Way::Run];

/// Runs a script by this call, with the sizes that the words say. Returns whether it succeeds.
fn succeeds(way: Way, line: &str, script: &[u8], stall: &impl Stall) -> bool {
    let Task::Run(config) = requested(&words(line)) else { panic!("words that ask for a run") };
    let parsed = parse(script).expect("a script");
    match way {
        Way::Command => call_held(line, script, WILLING, stall).status == 0,
        Way::RunBytes => run_bytes(&mut Counted::new(script), &mut Counted::new(Sink::new()), config, stall).is_ok(),
        Way::RunChecked => run_checked(&Checked::of(&parsed).expect("no overlap"), config, stall).is_ok(),
        Way::Run => run(&parsed, config, stall).is_ok(),
    }
}

// Sees as many workers and tags as the words say, behind so many requests, a drain and 70 requests more.
fn gather(way: Way, words: &str, behind: u32, workers: u32, tags: u32) {
    let reads = |count: u32| "read 0 1\n".repeat(count as usize);
    let script = format!("blkq 1\ndisk 1 hw 1\n{}stat\n{}", reads(behind), reads(70));
    let gathers = Gathers::new(behind, workers, tags);
    assert!(succeeds(way, words, script.as_bytes(), &gathers));
    let found = gathers.found.load(Ordering::SeqCst);
    assert_eq!((found / 100, found % 100), (tags, workers), "{words} behind {behind} requests by {way:?}");
}

// While no request that is drawn goes on, each worker holds one, and each tag has entered.
#[test]
fn as_many_as_the_words_say() {
    for way in WAYS {
        for (words, workers, tags) in
            [("run", 4, 16), ("run 1 1 1", 1, 1), ("run 3 2 7", 3, 7), ("run 5 8 5", 5, 5), ("run 32 64 63", 32, 63)]
        {
            gather(way, words, 0, workers, tags);
        }
    }
}

// The same behind as many requests as a text has room for.
#[test]
fn as_many_behind_thousands_of_requests() {
    gather(Way::Command, "run 3 2 7", 116_000, 3, 7);
}

/// How many points each request has passed, whether one was passed out of order, and after how many requests each drain came.
struct InOrder {
    passed: Vec<AtomicU8>,
    out_of_order: AtomicBool,
    drains: Mutex<Vec<u32>>,
}

impl InOrder {
    fn new(requests: u32) -> InOrder {
        let passed = (0..requests).map(|_| AtomicU8::new(0)).collect();
        InOrder { passed, out_of_order: AtomicBool::new(false), drains: Mutex::default() }
    }

    /// Whether each request passed each of its points once, in order, and these drains came.
    fn have_all(self, drains: Vec<u32>) -> bool {
        let passed = self.passed.into_iter().all(|it| it.into_inner() == 3);
        passed && !self.out_of_order.into_inner() && self.drains.into_inner().unwrap() == drains
    }
}

impl Stall for InOrder {
    fn at(&self, number: u32, point: Point) {
        let before = match point {
            Point::Entered => 0,
            Point::Drawn => 1,
            Point::Answered => 2,
            Point::Drained => return self.drains.lock().unwrap().push(number),
        };
        let passed = &self.passed[number as usize];
        if passed.compare_exchange(before, before + 1, Ordering::SeqCst, Ordering::SeqCst).is_err() {
            self.out_of_order.store(true, Ordering::SeqCst);
        }
    }
}

// Each write waits for a drain: the first overlaps the reads, and each other the one before it.
#[test]
fn each_point_in_order_behind_thousands_of_requests() {
    const READS: u32 = 60_000;
    const WRITES: u32 = 3_000;
    let [reads, writes] =
        [("read 0 1\n", READS), ("write 0 1 01\n", WRITES)].map(|(line, count)| line.repeat(count as usize));
    let script = format!("blkq 2\ndisk 1 hw 1\n{reads}{writes}");
    for (workers, slots, tags) in [(1, 1, 1), (4, 8, 16), (32, 64, 63), (3, 2, 1), (1, 64, 63)] {
        let points = InOrder::new(READS + WRITES);
        let config = Config::new(workers, slots, tags).unwrap();
        let mut answer = Vec::new();
        let found = run_bytes(&mut Counted::new(script.as_bytes()), &mut Counted::new(&mut answer), config, &points);
        assert!(found.is_ok(), "{found:?}");
        assert!(points.have_all(Vec::from_iter(READS..=READS + WRITES)), "{workers} workers");
    }
}

// Whatever the number of requests, none too, each line that drains and the end pass Drained behind them, by each call and frozen or not.
#[test]
fn each_drain_is_passed_behind_few_requests() {
    for (way, requests) in WAYS.into_iter().flat_map(|way| (0..4).map(move |requests| (way, requests))) {
        for (lines, drains) in [("", 0), ("stat\n", 1), ("stat\nremove\nstat\n", 2), ("freeze\nstat\nthaw\n", 2)] {
            let reads = "read 0 1\n".repeat(requests as usize);
            for refused in ["", "read 1 1\n", "thaw\nset max_sectors 9\n"] {
                let script = format!("blkq 1\ndisk 1 hw 1\n{refused}{reads}{lines}");
                let points = InOrder::new(requests);
                assert!(succeeds(way, "run 2 2 2", script.as_bytes(), &points));
                assert!(points.have_all(vec![requests; drains + 1]), "{way:?} of {script}");
            }
        }
    }
}
