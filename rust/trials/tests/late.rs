//! Tests a run after thousands of requests: how many are in flight, whether a held request delays others, and when the run passes `Drained`.
//! No contract says this.

use blkq::erased::blk_script::{Checked, Script, parse, push_disk, run_alone};
use blkq::erased::blk_workers::{Config, NoStall, Point, Stall, run, run_checked};
use std::sync::Mutex;
use std::sync::atomic::{AtomicBool, AtomicU32, Ordering::SeqCst};

#[path = "shared/meeting.rs"]
mod meeting;
use meeting::{hold_for, is_met};

/// The accepted requests before the `stat`, all of which are counted from 0: as many as a text has room for, with some behind it.
const FIRST: u32 = 116_000;
const TAGS: u32 = 8;

fn script(text: &str) -> Script {
    parse(text.as_bytes()).unwrap()
}

/// Holds each request behind the `stat` at `Drawn` until all tags have entered, and the last one before it for a while at `Answered`.
#[derive(Default)]
struct Late {
    entered: AtomicU32,
    drains: AtomicU32,
    is_short_of_tags: AtomicBool,
    is_drained_early: AtomicBool,
    has_answered_all: AtomicBool,
}

impl Late {
    fn wait_for_all_tags(&self) {
        let is_short = self.is_short_of_tags.load(SeqCst) || !is_met(|| self.entered.load(SeqCst) >= TAGS);
        self.is_short_of_tags.store(is_short, SeqCst);
    }
}

impl Stall for Late {
    fn at(&self, number: u32, point: Point) {
        match point {
            Point::Entered if number >= FIRST => {
                self.entered.fetch_add(1, SeqCst);
            }
            Point::Drawn if number >= FIRST => self.wait_for_all_tags(),
            Point::Answered if number == FIRST - 1 => {
                hold_for(10_000);
                self.has_answered_all.store(true, SeqCst);
            }
            Point::Drained => {
                self.drains.fetch_add(1, SeqCst);
                if !self.has_answered_all.load(SeqCst) {
                    self.is_drained_early.store(true, SeqCst);
                }
            }
            _ => {}
        }
    }
}

/// A run of 116,000 reads, a `stat` and 16 reads drains twice: for the `stat`, once its requests have left, and at the end. All
/// tags are in use behind it.
#[test]
fn all_tags_serve_behind_thousands_of_requests() {
    let reads = |count: u32| "read 0 1\n".repeat(count as usize);
    let script = script(&format!("blkq 1\ndisk 1 hw 1\n{}stat\n{}", reads(FIRST), reads(16)));
    let late = Late::default();
    run_checked(&Checked::of(&script).unwrap(), Config::new(4, 3, TAGS).unwrap(), &late).unwrap();
    assert!(!late.is_short_of_tags.into_inner(), "fewer tags than {TAGS} enter");
    assert_eq!(late.drains.into_inner(), 2);
    assert!(!late.is_drained_early.into_inner(), "Drained is told before a tag left");
}

/// Holds each request between the first and the last at `Drawn` until the last is drawn.
#[derive(Default)]
struct Beside {
    first: u32,
    last: u32,
    is_last_drawn: AtomicBool,
    is_alone: AtomicBool,
}

impl Stall for Beside {
    fn at(&self, number: u32, point: Point) {
        if point != Point::Drawn || number <= self.first {
            return;
        }
        if number == self.last {
            self.is_last_drawn.store(true, SeqCst);
        } else if !is_met(|| self.is_last_drawn.load(SeqCst) || self.is_alone.load(SeqCst)) {
            self.is_alone.store(true, SeqCst);
        }
    }
}

/// One request more than there are tags is submitted once the first completes, although all others are held: whatever the version, what the
/// requests ask and the lines before.
#[test]
fn a_held_request_holds_no_other_up() {
    let (few, many) = ("read 0 1\n".repeat(70), "read 0 1\n".repeat(1_100));
    let rows = [
        ("", 0),
        ("mode atomic\n", 0),
        ("set max_sectors 1\n", 0),
        ("freeze\nfreeze\nset chunk_sectors 2\nthaw\nthaw\n", 0),
        (&format!("{few}stat\nread 99 1\n"), 70),
        (&format!("{many}mode atomic\nstat\n"), 1_100),
    ];
    for ((before, first), tags) in rows.into_iter().flat_map(|row| [2, 3, 8, 32].map(move |tags| (row, tags))) {
        for (version, ends) in [(1, ""), (2, ""), (1, " 61"), (2, " 6162")] {
            let word = if ends.is_empty() { "read" } else { "write" };
            let lines: String = (0..=tags).map(|sector| format!("{word} {sector} 1{ends}\n")).collect();
            let script = script(&format!("blkq {version}\ndisk 33 hw 8\n{before}{lines}"));
            let beside = Beside { first, last: first + tags, ..Beside::default() };
            run_checked(&Checked::of(&script).unwrap(), Config::new(tags, 3, tags).unwrap(), &beside).unwrap();
            assert!(!beside.is_alone.into_inner(), "blkq {version}, {tags} tags behind {first}: {before:.60}{lines}");
        }
    }
}

/// Holds each request but the first at `Drawn` until one more has entered than there are tags.
struct OneMore {
    tags: u32,
    is_in: AtomicBool,
    is_short_of_tags: AtomicBool,
}

impl OneMore {
    fn wait_for_one_more(&self) {
        if !is_met(|| self.is_in.load(SeqCst) || self.is_short_of_tags.load(SeqCst)) {
            self.is_short_of_tags.store(true, SeqCst);
        }
    }
}

impl Stall for OneMore {
    fn at(&self, number: u32, point: Point) {
        match point {
            Point::Entered if number == self.tags => self.is_in.store(true, SeqCst),
            Point::Drawn if number > 0 => self.wait_for_one_more(),
            _ => {}
        }
    }
}

/// The first tag that comes back serves again at once, while all others are in use, however many there are.
#[test]
fn a_tag_that_comes_back_serves_again() {
    for (workers, tags) in [(1, 1), (2, 9), (1, 16), (4, 33), (1, 63), (32, 63)] {
        let script = script(&format!("blkq 1\ndisk 1 hw 1\n{}", "read 0 1\n".repeat(tags as usize + 1)));
        let one_more = OneMore { tags, is_in: AtomicBool::new(false), is_short_of_tags: AtomicBool::new(false) };
        run_checked(&Checked::of(&script).unwrap(), Config::new(workers, 3, tags).unwrap(), &one_more).unwrap();
        assert!(!one_more.is_short_of_tags.into_inner(), "{workers} workers, {tags} tags");
    }
}

/// There is memory for the replies behind one that is owed, as many as a text has room for.
#[test]
fn very_many_replies_behind_one_that_is_owed() {
    for behind in ["read 1 1\n", "write 1 1 01\n", "thaw\n", "mode slots\n"] {
        let script = script(&format!("blkq 1\ndisk 1 hw 1\nread 0 1\n{}", behind.repeat(1_048_000 / behind.len())));
        let ran = run(&script, Config::new(2, 2, 2).unwrap(), &NoStall).unwrap();
        let mut out = ran.replies;
        push_disk(&mut out, &ran.disk).unwrap();
        assert!(out == run_alone(&script).unwrap(), "{behind}");
    }
}

/// `run` checks the script itself, of either version, and replies as one thread does.
#[test]
fn a_run_of_a_script_replies_as_one_thread() {
    for version in [1, 2] {
        let lines = "write 0 6 61\nset max_sectors 2\nread 0 8\nfreeze\nthaw\nstat\n";
        let script = script(&format!("blkq {version}\ndisk 8 hw 4\n{lines}"));
        let ran = run(&script, Config::new(3, 2, 5).unwrap(), &NoStall).unwrap();
        let mut out = ran.replies;
        push_disk(&mut out, &ran.disk).unwrap();
        assert_eq!(out, run_alone(&script).unwrap());
    }
}

/// The numbers with which a run passes each point.
#[derive(Default)]
struct Passed {
    entered: Mutex<Vec<u32>>,
    drawn: Mutex<Vec<u32>>,
    answered: Mutex<Vec<u32>>,
    drained: Mutex<Vec<u32>>,
}

impl Stall for Passed {
    fn at(&self, number: u32, point: Point) {
        let numbers = match point {
            Point::Entered => &self.entered,
            Point::Drawn => &self.drawn,
            Point::Answered => &self.answered,
            Point::Drained => &self.drained,
        };
        numbers.lock().unwrap().push(number);
    }
}

impl Passed {
    /// Whether each request up to this one passed each point once, and entered in order.
    fn has_each_once(self, requests: u32) -> bool {
        let all: Vec<u32> = (0..requests).collect();
        let [mut drawn, mut answered] = [self.drawn, self.answered].map(|it| it.into_inner().unwrap());
        drawn.sort_unstable();
        answered.sort_unstable();
        self.entered.into_inner().unwrap() == all && drawn == all && answered == all
    }
}

/// There is memory for the most requests, and for a great one of many pieces behind them. Each is counted and passes each point, and each
/// drain tells how many were accepted before it.
#[test]
fn the_longest_run_of_a_script_replies_as_one_thread() {
    let reads = "read 0 1\n".repeat(116_000);
    let script = script(&format!("blkq 1\ndisk 4096 hw 1\n{reads}stat\nread 0 4096\n"));
    let passed = Passed::default();
    let ran = run(&script, Config::new(3, 2, 5).unwrap(), &passed).unwrap();
    let mut out = ran.replies;
    push_disk(&mut out, &ran.disk).unwrap();
    assert!(out == run_alone(&script).unwrap());
    assert_eq!(*passed.drained.lock().unwrap(), [116_000, 116_001]);
    assert!(passed.has_each_once(116_001));
}
