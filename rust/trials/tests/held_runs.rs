//! Tests, on runs that are held at their points, that the threads of a run work at the same time, and that it drains through the
//! queue. No clause says so.

use blkq::erased::blk_workers::{Point, Stall};
use std::sync::atomic::{AtomicBool, AtomicU32, Ordering::SeqCst};
use std::thread;
use std::time::Duration;

#[path = "shared/both_texts.rs"]
mod both_texts;
#[path = "shared/meeting.rs"]
mod meeting;

use both_texts::both_texts;
use meeting::{ended, hold_for, is_met, is_met_within};

/// Two writes, a drain, and a read of both.
const WRITTEN_THEN_READ: &str = "blkq 1\ndisk 4 hw 4\nwrite 0 1 01\nwrite 1 1 02\nfreeze\nthaw\nread 0 2\n";
const OF_WRITTEN_THEN_READ: &str =
    "3 ok 1\n4 ok 1\n5 depth 1\n6 depth 0\n7 ok 2 01*512,02*512\ndisk 01*512,02*512,00*1024\n";

/// Two requests that don't overlap.
const TWO: &str = "blkq 1\ndisk 2 hw 1\nwrite 0 1 61\nwrite 1 1 62\n";
const OF_TWO: &str = "3 ok 1\n4 ok 1\ndisk 61*512,62*512\n";

/// The turns for which a request waits for another.
const MEETING: u32 = 100_000_000;

/// The turns for which a request is held before a drain.
const HELD: u32 = 1_000_000;

/// The turns for which any one request is held at any one point.
const HELD_ANYWHERE: u32 = 10_000;

/// The last request overlaps the one before it, and waits for a drain.
const ORDERED: &[u8] = b"blkq 2\ndisk 8 hw 8\nread 0 4\nread 2 4\nwrite 6 1 ff\nread 6 2\n";

// Runs a script on two workers. Returns whether its text is that of a single thread.
fn agrees(text: &[u8], tags: u32, stall: &impl Stall) -> bool {
    let [out, wanted] = both_texts(text, [2, 2, tags], stall);
    out == wanted
}

/// Holds each drawn request until the other is drawn, and notes a request that met none in all its turns.
struct Meets {
    drawn: AtomicU32,
    alone: AtomicBool,
}

impl Stall for Meets {
    fn at(&self, number: u32, point: Point) {
        if point != Point::Drawn || number >= 2 {
            return;
        }
        self.drawn.fetch_add(1, SeqCst);
        if !is_met_within(MEETING, || self.drawn.load(SeqCst) == 2) {
            self.alone.store(true, SeqCst);
        }
    }
}

// If only one worker draws, it is held for all these turns.
#[test]
fn two_at_once() {
    let meets = Meets { drawn: AtomicU32::new(0), alone: AtomicBool::new(false) };
    let [out, wanted] = both_texts(TWO.as_bytes(), [2, 2, 2], &meets);
    assert_eq!(String::from_utf8_lossy(&out), OF_TWO);
    assert_eq!(out, wanted);
    assert!(!meets.alone.load(SeqCst));
}

// Requests of the greatest size meet too, whatever they do and in either mode.
#[test]
fn two_great_ones_at_once() {
    for mode in ["slots", "atomic"] {
        for [first, second] in [["read", "read"], ["read", "write"], ["write", "read"], ["write", "write"]] {
            let line = |word, start| format!("{word} {start} 2048{}\n", if word == "write" { " 61" } else { "" });
            let text = format!("blkq 1\ndisk 4096 hw 65535\nmode {mode}\n{}{}", line(first, 0), line(second, 2048));
            let meets = Meets { drawn: AtomicU32::new(0), alone: AtomicBool::new(false) };
            assert!(agrees(text.as_bytes(), 2, &meets));
            assert!(!meets.alone.load(SeqCst), "{text}");
        }
    }
}

/// Holds a request at a point for this many turns, and notes a drain that comes before.
struct Holds {
    number: u32,
    point: Point,
    passed: AtomicBool,
    early: AtomicBool,
}

impl Stall for Holds {
    fn at(&self, number: u32, point: Point) {
        if point == self.point && number == self.number {
            is_met_within(HELD, || false);
            self.passed.store(true, SeqCst);
        }
        if point == Point::Drained && !self.passed.load(SeqCst) {
            self.early.store(true, SeqCst);
        }
    }
}

// Whether a run drains only once this request has passed this point.
fn drains_after(text: &[u8], number: u32, point: Point) -> bool {
    let holds = Holds { number, point, passed: AtomicBool::new(false), early: AtomicBool::new(false) };
    agrees(text, 2, &holds) && !holds.early.load(SeqCst)
}

#[test]
fn freeze_waits() {
    let text = format!("{TWO}freeze\n");
    assert!(drains_after(text.as_bytes(), 0, Point::Drawn));
}

// Each drain, the last one too, goes through the queue: a queued completion isn't enough.
#[test]
fn every_drain_waits_for_the_tag() {
    for (version, last) in [
        (1, "freeze\n"),
        (1, "set max_sectors 1\n"),
        (1, "set chunk_sectors 2\n"),
        (2, "set physical_sectors 2\n"),
        (1, "stat\n"),
        (1, "remove\n"),
        (1, ""),
    ] {
        let text = format!("{}{last}", TWO.replace("blkq 1", &format!("blkq {version}")));
        assert!(drains_after(text.as_bytes(), 0, Point::Answered), "{last}");
    }
}

// An ordered request waits for the one that it overlaps.
#[test]
fn ordered_requests_wait() {
    for point in [Point::Entered, Point::Drawn, Point::Answered] {
        assert!(drains_after(ORDERED, 2, point));
    }
}

/// Holds each of as many requests as there are workers at `Answered` for a while, once all are drawn, and notes a drain that comes before.
struct HoldsAll {
    workers: u32,
    drawn: AtomicU32,
    answered: AtomicU32,
    early: AtomicBool,
}

impl Stall for HoldsAll {
    fn at(&self, _number: u32, point: Point) {
        match point {
            Point::Drawn => {
                self.drawn.fetch_add(1, SeqCst);
                is_met(|| self.drawn.load(SeqCst) >= self.workers);
            }
            Point::Answered => {
                hold_for(10_000);
                self.answered.fetch_add(1, SeqCst);
            }
            Point::Drained if self.answered.load(SeqCst) < self.workers => self.early.store(true, SeqCst),
            _ => {}
        }
    }
}

// Each worker passes `Answered` before its tag leaves, whatever its slot, and `Drained` comes behind all of them, however many tags there are.
#[test]
fn a_drain_waits_for_each_worker() {
    for sizes @ [workers, _, _] in [[3, 2, 3], [4, 8, 16], [9, 64, 9], [32, 64, 63]] {
        let [drawn, answered] = [0; 2].map(AtomicU32::new);
        let holds = HoldsAll { workers, drawn, answered, early: AtomicBool::new(false) };
        let text = format!("blkq 1\ndisk 8 hw 8\n{}", "read 0 8\n".repeat(workers as usize));
        let [out, wanted] = both_texts(text.as_bytes(), sizes, &holds);
        assert!(out == wanted && !holds.early.into_inner(), "{sizes:?}");
    }
}

/// The workers that are to work at once.
const CROWD: u32 = 3;

/// Holds each request from this one on at `Drawn` until all workers have one, and notes a request that was alone.
struct Crowd {
    first: u32,
    drawn: AtomicU32,
    alone: AtomicBool,
}

impl Stall for Crowd {
    fn at(&self, number: u32, point: Point) {
        if point == Point::Drawn && number >= self.first {
            self.drawn.fetch_add(1, SeqCst);
            if !is_met(|| self.drawn.load(SeqCst) >= CROWD || self.alone.load(SeqCst)) {
                self.alone.store(true, SeqCst);
            }
        }
    }
}

// All workers work at once, whatever the version and the lines before: and no line that doesn't drain waits for the requests before it.
#[test]
fn all_at_once_whatever_comes_before() {
    let thousand = "read 0 1\n".repeat(1_100);
    let rows = [
        ("", 0),
        ("mode atomic\n", 0),
        ("set max_sectors 1\nset chunk_sectors 1\n", 0),
        ("freeze\nset max_sectors 2\nfreeze\nthaw\nthaw\n", 0),
        ("write 0 1 01\nstat\nwrite 0 1 02\nstat\n", 2),
        (&thousand, 1_100),
    ];
    let refused = "thaw\nmode slots\nset max_sectors 9\nset chunk_sectors 65536\nread 8 1\nwrite 0 9 61\nmode atomic\n";
    for (before, first) in rows {
        for (version, between) in [(1, ""), (2, ""), (1, refused), (2, refused)] {
            for ends in ["", " 61"] {
                let line =
                    |sector| format!("{between}{} {sector} 1{ends}\n", if ends.is_empty() { "read" } else { "write" });
                let lines: String = (1..=CROWD).map(line).collect();
                let text = format!("blkq {version}\ndisk 8 hw 8\n{before}{lines}");
                let crowd = Crowd { first, drawn: AtomicU32::new(0), alone: AtomicBool::new(false) };
                let [out, wanted] = both_texts(text.as_bytes(), [CROWD, 2, 8], &crowd);
                assert!(out == wanted && !crowd.alone.into_inner(), "behind {first} requests: {before:.60}{lines}");
            }
        }
    }
}

/// Holds one request at one point for some turns.
struct HoldsOne {
    number: u32,
    point: Point,
}

impl Stall for HoldsOne {
    fn at(&self, number: u32, point: Point) {
        if (number, point) == (self.number, self.point) {
            is_met_within(HELD_ANYWHERE, || false);
        }
    }
}

#[test]
fn whoever_is_held() {
    for number in 0..3 {
        for point in [Point::Entered, Point::Drawn, Point::Answered] {
            let [out, wanted] = both_texts(WRITTEN_THEN_READ.as_bytes(), [2, 2, 3], &HoldsOne { number, point });
            assert_eq!(String::from_utf8_lossy(&out), OF_WRITTEN_THEN_READ, "request {number} at {point:?}");
            assert_eq!(out, wanted);
        }
    }
}

/// Holds each request for a while after it entered, and notes a request that is drawn before that is over.
struct EntersFirst {
    entered: AtomicU32,
    early: AtomicBool,
}

impl Stall for EntersFirst {
    fn at(&self, number: u32, point: Point) {
        match point {
            Point::Entered => {
                thread::sleep(Duration::from_micros(500));
                self.entered.store(number + 1, SeqCst);
            }
            Point::Drawn if self.entered.load(SeqCst) <= number => self.early.store(true, SeqCst),
            _ => {}
        }
    }
}

// The submitting thread is held before it pushes the request, so no worker has it meanwhile.
#[test]
fn each_request_is_held_before_it_is_pushed() {
    let first = EntersFirst { entered: AtomicU32::new(0), early: AtomicBool::new(false) };
    let text = format!("blkq 1\ndisk 8 hw 8\n{}", "read 0 8\n".repeat(100));
    assert!(agrees(text.as_bytes(), 3, &first));
    assert!(!first.early.into_inner());
}

/// Holds the request that enters after this many, until all before it are answered.
struct FillsUp {
    before: u32,
    answered: AtomicU32,
}

impl Stall for FillsUp {
    fn at(&self, number: u32, point: Point) {
        if point == Point::Answered {
            self.answered.fetch_add(1, SeqCst);
        }
        if (number, point) == (self.before, Point::Entered) {
            while self.answered.load(SeqCst) < self.before {
                thread::yield_now();
            }
        }
    }
}

// While the submitting thread waits for the drain, the queue of completions has one more than there are tags. Without room for it the
// worker would wait for room, and the drain for the worker.
#[test]
fn one_completion_more_than_tags() {
    for tags in [1, 2, 5, 16, 63] {
        let ended = ended(move || {
            let reads = "read 0 1\n".repeat(tags as usize + 1);
            let text = format!("blkq 1\ndisk 8 hw 8\n{reads}");
            agrees(text.as_bytes(), tags, &FillsUp { before: tags, answered: AtomicU32::new(0) })
        });
        assert_eq!(ended, Some(true), "{tags} tags");
    }
}
