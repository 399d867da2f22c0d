//! A run drains as often as its script asks, which no contract says. It writes the text that one thread does, whatever overlaps and
//! however its threads are scheduled. held_runs.rs has the tests of runs that are held at their points.

use blkq::erased::blk_script::{Checked, parse, render_disk};
use blkq::erased::blk_workers::{Config, NoStall, Point, Stall, run_checked};
use std::fmt::Write;
use std::hint;
use std::sync::Mutex;
use std::sync::atomic::{AtomicU32, Ordering::SeqCst};

#[path = "shared/both_texts.rs"]
mod both_texts;
#[path = "shared/pausing.rs"]
mod pausing;

use both_texts::both_texts;
use pausing::pause;

/// A script with a line of each kind.
const MIXED: &str = "blkq 1\ndisk 16 hw 8\nwrite 0 4 01\nread 8 4\nset max_sectors 3\nread 0 4\nfreeze\nfreeze\nread 0 1\n\
    set chunk_sectors 2\nthaw\nthaw\nthaw\nwrite 4 9 0203\nread 0 2\nstat\nread 3 12\nwrite 15 2 ff\nmode atomic\nremove\nread 0 1\n";

/// Runs a script on this many workers, with this many tags: it writes the text that one thread does.
fn agrees(text: &str, workers: u32, tags: u32, stall: &impl Stall) {
    let [out, wanted] = both_texts(text.as_bytes(), [workers, 3, tags], stall);
    assert_eq!(
        String::from_utf8_lossy(&out),
        String::from_utf8_lossy(&wanted),
        "{workers} workers, {tags} tags:\n{text}"
    );
}

/// 200 writes, each at its place and of its own byte. Each is cut into three pieces and drawn once, and each worker's list increases.
#[test]
fn two_hundred_writes() {
    let lines = (0..200).map(|i| format!("write {} 20 {i:02x}\n", 20 * i));
    let text = format!("blkq 1\ndisk 4096 hw 7\n{}", lines.collect::<String>());
    let replies = (0..200).map(|i| format!("{} ok 7+7+6\n", i + 3)).collect::<String>();
    let disk = (0..200).map(|i| format!("{i:02x}*10240,")).collect::<String>();
    for (workers, slots, tags) in [(1, 1, 1), (32, 64, 63)] {
        let script = parse(text.as_bytes()).expect("a script");
        let checked = Checked::of(&script).expect("no overlap");
        let config = Config::new(workers, slots, tags).expect("within the limits");
        let ran = run_checked(&checked, config, &NoStall).expect("memory and threads");
        assert_eq!(String::from_utf8_lossy(&ran.replies), replies);
        let told = render_disk(&ran.disk).expect("memory");
        assert_eq!(String::from_utf8_lossy(&told), format!("disk {disk}00*49152\n"));
        assert_eq!(ran.drawn.len(), workers as usize);
        assert!(ran.drawn.iter().all(|list| list.is_sorted()));
        let mut drawn = ran.drawn.concat();
        drawn.sort_unstable();
        assert!(drawn.into_iter().eq(0..200));
    }
}

#[test]
fn mixed_lines() {
    for (workers, tags) in [(1, 1), (2, 1), (4, 16), (32, 63)] {
        agrees(MIXED, workers, tags, &NoStall);
    }
}

/// A run has each two of a number of workers, of slots and of tags: no two of them are refused together.
#[test]
fn any_two_sizes_go_together() {
    let script = parse(b"blkq 1\ndisk 4 hw 2\nwrite 0 3 61\nread 3 1\n").expect("a script");
    let checked = Checked::of(&script).expect("no overlap");
    for slots in 1..=64 {
        for tags in 1..=63 {
            let workers = (slots + tags) % 32 + 1;
            let config = Config::new(workers, slots, tags).expect("within the limits");
            let ran = run_checked(&checked, config, &NoStall).expect("memory and threads");
            assert_eq!(ran.replies, b"3 ok 2+1\n4 ok 1 00*512\n", "{workers} workers, {slots} slots, {tags} tags");
        }
    }
}

/// Notes after how many requests each drain came.
#[derive(Default)]
struct Drains(Mutex<Vec<u32>>);

impl Stall for Drains {
    fn at(&self, number: u32, point: Point) {
        if point == Point::Drained {
            self.0.lock().expect("numbers").push(number);
        }
    }
}

/// Each ordered request drains the queue, and so does the end; of version 1 only the end does. `Drained` is passed also if a line
/// or the end finds the queue frozen, at any depth, and before the first request. It isn't passed by a setting, which doesn't drain then, nor
/// by a thaw, a switch or what is refused.
#[test]
fn as_many_drains_as_are_ordered() {
    let rows: [(&str, &[u32]); 6] = [
        ("blkq 2\ndisk 4 hw 4\nwrite 0 2 01\nwrite 1 2 02\nwrite 0 1 03\nread 1 1\n", &[1, 3, 4]),
        ("blkq 2\ndisk 8 hw 8\nread 0 4\nread 2 4\nwrite 6 1 ff\nread 6 2\n", &[3, 4]),
        ("blkq 1\ndisk 4 hw 4\nread 0 4\nread 0 4\n", &[2]),
        ("blkq 1\ndisk 4 hw 4\nread 0 4\nfreeze\nset max_sectors 2\nstat\n", &[1, 1, 1]),
        ("blkq 1\ndisk 4 hw 4\nstat\nfreeze\nfreeze\nstat\nfreeze\nthaw\nstat\nthaw\nremove\n", &[0; 8]),
        (
            "blkq 1\ndisk 4 hw 4\nfreeze\nread 0 4\nthaw\nread 0 4\nthaw\nmode atomic\nset max_sectors 9\nread 4 1\n",
            &[0, 1],
        ),
    ];
    for (text, wanted) in rows {
        for tags in [2, 9, 63] {
            let drains = Drains::default();
            agrees(text, 2, tags, &drains);
            assert_eq!(drains.0.into_inner().expect("numbers"), wanted, "{tags} tags: {text}");
        }
    }
}

/// A script of requests that overlap as they look random.
fn overlapping(seed: &mut u32) -> String {
    let mut text = String::from("blkq 2\ndisk 8 hw 3\n");
    for line in 1..=12 {
        *seed = seed.wrapping_mul(1_664_525).wrapping_add(1_013_904_223);
        let (start, count) = (*seed >> 29, (*seed >> 26) % 3 + 1);
        if *seed >> 25 & 1 == 0 {
            writeln!(text, "read {start} {count}").expect("a text");
        } else {
            writeln!(text, "write {start} {count} {line:02x}").expect("a text");
        }
    }
    text
}

#[test]
fn whatever_overlaps() {
    let mut seed = 7;
    for _ in 0..2_000 {
        agrees(&overlapping(&mut seed), 4, 5, &NoStall);
    }
}

/// Spins at points for turns that look random, and yields at one of eight.
struct Dallies(AtomicU32);

impl Stall for Dallies {
    fn at(&self, _number: u32, _point: Point) {
        let seed = self.0.fetch_add(2_654_435_769, SeqCst);
        for _ in 0..(seed >> 16) % 512 {
            hint::spin_loop();
        }
        if seed >> 29 == 0 {
            pause();
        }
    }
}

#[test]
fn whatever_the_schedule() {
    let dallies = Dallies(AtomicU32::new(1));
    for _ in 0..4_000 {
        agrees(MIXED, 4, 3, &dallies);
    }
}

/// Small requests in a row between large ones: each number of tags, and of small requests before a large one, a drain or the end.
#[test]
fn small_requests_between_large_ones() {
    for tags in 1..=4 {
        for small in 0..10 {
            let mut text = String::from("blkq 2\ndisk 64 hw 8\n");
            for round in 1..=6 {
                for sector in 0..small {
                    writeln!(text, "write {sector} 2 {round}{sector}").expect("a text");
                }
                text.push_str(["write 20 40 ab\n", "read 20 40\n", "stat\n", "set max_sectors 3\n"][round % 4]);
            }
            for workers in [1, 3] {
                let dallies = Dallies(AtomicU32::new(1));
                for _ in 0..20 {
                    agrees(&text, workers, tags, &dallies);
                }
            }
        }
    }
}
