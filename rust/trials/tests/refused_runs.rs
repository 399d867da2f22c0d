//! Runs whole scripts with each allocation refused in turn, or every third one of the longest script. Each run answers `memory` or
//! `thread`, or completes if it didn't need the memory. It frees its blocks, and has drained the queue after the last request that
//! entered. It isn't begun again: no request passes a point twice, and the input is read to its end once.
//!
//! Each run is a process of its own, since std aborts if memory for a thread is refused. The test counts these aborts, and checks
//! that each is of a size that std asks for: no allocation of the erased code may abort.
//! (This program has its own allocator, which refuses and counts, so it has `unsafe`.)
#![allow(unsafe_code)]

use blkq::erased::blk_workers::{Config, Point, Stall};
use blkq::erased::blkq_run::{self, replay_bytes, run_bytes};
use blkq::erased::counted_io::Counted;
use std::env::{args, current_exe};
use std::fs::{create_dir_all, read, read_dir, write};
use std::io::{self, Read};
use std::path::{Path, PathBuf};
use std::process::{Command, exit};
use std::sync::atomic::{AtomicBool, AtomicI64, AtomicU32, Ordering};
use std::thread::sleep;
use std::time::Duration;

#[path = "shared/refusing.rs"]
mod refusing;
use refusing::Refusing;

/// Allocations that succeed before one is refused.
static LEFT: AtomicI64 = AtomicI64::new(i64::MAX);
/// Blocks that were allocated, less those that were freed.
static BLOCKS: AtomicI64 = AtomicI64::new(0);
/// Threads of a run.
const WORKERS: u32 = 2;
/// The largest allocation of std for a thread: 104 bytes in Rust 1.85.
const MOST_OF_STD: usize = 104;

/// Whether this allocation is the one that is refused.
fn is_refused() -> bool {
    LEFT.fetch_sub(1, Ordering::Relaxed) == 0
}

#[global_allocator]
static ALLOCATOR: Refusing =
    Refusing { is_refused, count: |blocks, _bytes| _ = BLOCKS.fetch_add(blocks, Ordering::Relaxed) };

/// The number of allocations from which not all are refused.
const MANY: i64 = 2_000;
/// Maximum number of requests of an example.
const REQUESTS: usize = 1_100;

/// How a run passes its points.
struct Points {
    /// Whether a request entered after the last drain.
    is_open: AtomicBool,
    /// Whether a drain had another number than as many requests entered before it.
    is_miscounted: AtomicBool,
    /// How often each request entered, was drawn and was answered.
    passed: [[AtomicU32; REQUESTS]; 3],
}

impl Points {
    fn new() -> Points {
        let passed = [(); 3].map(|()| [(); REQUESTS].map(|()| AtomicU32::new(0)));
        Points { is_open: AtomicBool::new(false), is_miscounted: AtomicBool::new(false), passed }
    }

    fn drained(&self, number: u32) {
        self.is_open.store(false, Ordering::SeqCst);
        let entered: u32 = self.passed[0].iter().map(|times| times.load(Ordering::SeqCst)).sum();
        if entered != number {
            self.is_miscounted.store(true, Ordering::SeqCst);
        }
    }

    /// The fault of a run whose points were passed so.
    fn fault(self) -> Option<&'static str> {
        if self.is_open.into_inner() {
            return Some("a request entered, and the queue wasn't drained");
        }
        if self.is_miscounted.into_inner() {
            return Some("a drain had another number than as many requests entered");
        }
        let mut times = self.passed.into_iter().flatten();
        times.any(|it| it.into_inner() > 1).then_some("a request was at a point twice")
    }
}

impl Stall for Points {
    fn at(&self, number: u32, point: Point) {
        let place = match point {
            Point::Entered => 0,
            Point::Drawn => 1,
            Point::Answered => 2,
            Point::Drained => return self.drained(number),
        };
        if place == 0 {
            self.is_open.store(true, Ordering::SeqCst);
        }
        self.passed[place][number as usize].fetch_add(1, Ordering::SeqCst);
    }
}

/// An input that comes whole, and counts how often it is read.
struct Feed<'a> {
    rest: &'a [u8],
    reads: u32,
}

impl Read for Feed<'_> {
    fn read(&mut self, buf: &mut [u8]) -> io::Result<usize> {
        self.reads += 1;
        self.rest.read(buf)
    }
}

/// Runs an example into this room: the number of its fault, if it is refused.
fn answer(example: &Path, input: &[u8], room: &mut [u8]) -> Result<(), u8> {
    let mut feed = Feed { rest: input, reads: 0 };
    let (mut reader, mut writer) = (Counted::new(&mut feed), Counted::new(room));
    let points = Points::new();
    let answered = match kind_of(example) {
        "gate" => replay_bytes(&mut reader, &mut writer).map(drop).map_err(number),
        _ => {
            let config = Config::new(WORKERS, 2, 2).unwrap();
            run_bytes(&mut reader, &mut writer, config, &points).map_err(number)
        }
    };
    let fault = points.fault().or((feed.reads > 2).then_some("the input was read again"));
    if let Some(fault) = fault {
        eprintln!("{fault}");
        return Err(WRONG);
    }
    answered
}

fn kind_of(example: &Path) -> &str {
    example.extension().and_then(|kind| kind.to_str()).unwrap_or_default()
}

const MEMORY: u8 = 10;
const THREAD: u8 = 11;
const OTHER: u8 = 12;
const WRONG: u8 = 13;

fn number(fault: blkq_run::Fault) -> u8 {
    match fault {
        blkq_run::Fault::Memory => MEMORY,
        blkq_run::Fault::Thread => THREAD,
        _ => OTHER,
    }
}

/// One run, with the allocation refused that comes after so many. It ends with 0 and the count of allocations, or with the
/// number of what is refused; with `WRONG` if a block is left or another text is written.
fn one_run(example: &Path, allowed: i64) -> u8 {
    let input = read(example).unwrap();
    let wanted = read(example.with_extension("answer")).unwrap();
    let mut room = vec![0; wanted.len() + 1];
    let blocks = BLOCKS.load(Ordering::SeqCst);
    LEFT.store(allowed, Ordering::SeqCst);
    let answered = answer(example, &input, &mut room);
    let asked = allowed - LEFT.swap(i64::MAX, Ordering::SeqCst);
    // A thread of a scope that is over may still be about to free what std took for it.
    for _ in 0..60_000 {
        if BLOCKS.load(Ordering::SeqCst) <= blocks {
            break;
        }
        sleep(Duration::from_millis(1));
    }
    let left = BLOCKS.load(Ordering::SeqCst) - blocks;
    if left != 0 {
        eprintln!("{left} blocks are left");
        return WRONG;
    }
    match answered {
        Ok(()) if room[..wanted.len()] == wanted && room[wanted.len()] == 0 => {
            println!("{asked}");
            0
        }
        Err(number) if room.iter().all(|byte| *byte == 0) => number,
        _ => WRONG,
    }
}

/// The fault of a run that ended so, if it has one, and whether std aborted it.
fn fault_of(status: Option<i32>, said: &str) -> (Option<String>, bool) {
    if matches!(status, Some(0)) || status == Some(MEMORY.into()) || status == Some(THREAD.into()) {
        return (None, false);
    }
    let bytes: Option<usize> =
        said.split_once("memory allocation of ").and_then(|(_, rest)| rest.split(' ').next()?.parse().ok());
    match bytes {
        Some(bytes) if bytes <= MOST_OF_STD => (None, true),
        _ => (Some(format!("{status:?}: {said}")), false),
    }
}

/// Runs an example with each of its allocations refused, or with every third one if there are thousands. Returns how often std
/// aborted.
fn each_refused(example: &Path) -> u32 {
    let run = |allowed: i64| {
        let mut command = Command::new(current_exe().unwrap());
        command.args(["--one", example.to_str().unwrap(), &allowed.to_string()]).output().unwrap()
    };
    let all = run(i64::MAX / 2);
    assert_eq!(all.status.code(), Some(0), "{example:?} with nothing refused");
    let asked: i64 = String::from_utf8_lossy(&all.stdout).trim().parse().unwrap();
    let mut aborts = 0;
    let step = 1 + usize::try_from(asked / MANY).unwrap();
    for allowed in (0..asked + 3).step_by(step) {
        let done = run(allowed);
        let (fault, is_of_std) = fault_of(done.status.code(), &String::from_utf8_lossy(&done.stderr));
        assert_eq!(fault, None, "{example:?} with allocation {allowed} refused");
        aborts += u32::from(is_of_std);
    }
    println!("{}: {asked} allocations, {aborts} of std", example.display());
    aborts
}

/// A script of 1,100 writes of one byte each, of which the last ten are of three sectors and cut in two, and its answer.
fn many_writes() -> (String, String) {
    let mut script = String::from("blkq 1\ndisk 1200 hw 4\n");
    let (mut answer, mut disk) = (String::new(), String::from("disk "));
    for at in 0..REQUESTS {
        let byte = at % 255 + 1;
        let (sector, sectors, line, pieces) = match at.checked_sub(1090) {
            None => (at, 1, at + 3, "1"),
            Some(past) => (1090 + 3 * past, 3, at + 4, "2+1"),
        };
        if at == 1090 {
            script += "set max_sectors 2\n";
            answer += "1093 ok\n";
        }
        script += &format!("write {sector} {sectors} {byte:02x}\n");
        answer += &format!("{line} ok {pieces}\n");
        disk += &format!("{byte:02x}*{},", 512 * sectors);
    }
    (script, format!("{answer}{disk}00*40960\n"))
}

/// A folder with the longest script.
fn folder_of_many() -> PathBuf {
    let folder = Path::new(env!("CARGO_TARGET_TMPDIR")).join("refused");
    create_dir_all(&folder).unwrap();
    let (script, answer) = many_writes();
    write(folder.join("eleven_hundred_writes.blkq"), script).unwrap();
    write(folder.join("eleven_hundred_writes.answer"), answer).unwrap();
    folder
}

fn main() {
    let words: Vec<String> = args().collect();
    if words.get(1).is_some_and(|word| word == "--one") {
        exit(one_run(Path::new(&words[2]), words[3].parse().unwrap()).into());
    }
    let here = Path::new(env!("CARGO_MANIFEST_DIR"));
    let folders = [here.join("../../examples"), here.join("tests/refused"), folder_of_many()];
    let files = folders.iter().flat_map(|folder| read_dir(folder).unwrap());
    let mut examples: Vec<PathBuf> = files.map(|entry| entry.unwrap().path()).collect();
    examples.sort();
    for example in &examples {
        let kind = kind_of(example);
        if matches!(kind, "blkq" | "gate") {
            let aborts = each_refused(example);
            // For a thread std allocates up to 5 blocks (its scope, a handle, a packet, a closure and its box), and a scope for the submitter.
            assert!(aborts <= if kind == "blkq" { 5 * WORKERS + 1 } else { 0 }, "{example:?}: {aborts}");
        }
    }
}
