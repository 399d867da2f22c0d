//! Times a read of a guarded value and a change of it, beside std's RwLock and arc-swap. usage: beside THREADS ROUNDS CHANGES
//!
//! A line for each way: its name, the threads, nanoseconds of processor time of a read, and of the wall clock of a change while those
//! threads read, the middle of CHANGES, in microseconds.

use arc_swap::ArcSwap;
use freeze_queue::{Limits, Queue};
use percpu_gate::{Start, guarded::Gate};
use std::cell::RefCell;
use std::fs;
use std::hint::{black_box, spin_loop};
use std::process::ExitCode;
use std::sync::atomic::{AtomicBool, AtomicU32, Ordering::SeqCst};
use std::sync::{Arc, Mutex, RwLock};
use std::thread;
use std::time::Instant;

/// Limits of a device, as a request reads them.
#[derive(Clone, Copy, Default)]
struct Device {
    limits: [u64; 4],
}

impl Device {
    fn read(&self) -> u64 {
        self.limits.iter().sum()
    }

    fn change(&mut self) {
        self.limits.iter_mut().for_each(|limit| *limit += 1);
    }
}

/// A way to share a device.
trait Way: Sync {
    /// Reads by the thread of this number, for as long as it is to go on.
    fn reads(&self, number: u32, go_on: impl FnMut() -> bool);
    fn change(&self);
}

impl Way for RwLock<Device> {
    fn reads(&self, _: u32, mut go_on: impl FnMut() -> bool) {
        while go_on() {
            black_box(RwLock::read(self).expect("no poison").read());
        }
    }
    fn change(&self) {
        self.write().expect("no poison").change();
    }
}

impl Way for ArcSwap<Device> {
    fn reads(&self, _: u32, mut go_on: impl FnMut() -> bool) {
        while go_on() {
            black_box(self.load().read());
        }
    }
    fn change(&self) {
        let mut device = **self.load();
        device.change();
        self.store(Arc::new(device));
    }
}

impl Way for Queue<Device> {
    fn reads(&self, _number: u32, mut go_on: impl FnMut() -> bool) {
        let mut tag = self.tag().expect("a tag");
        while go_on() {
            black_box(self.enter(&mut tag).expect("a live queue").read());
        }
    }
    fn change(&self) {
        self.freeze().expect("a freeze").lock().change();
    }
}

/// A gate whose control is under a lock.
struct Gated(Mutex<Gate<Device>>);

impl Way for Gated {
    fn reads(&self, number: u32, mut go_on: impl FnMut() -> bool) {
        let pass = self.0.lock().expect("no poison").next_pass(number).expect("a pass");
        while go_on() {
            let read = pass.try_get_live().map(|device| black_box(device.read()));
            black_box(read.is_ok());
        }
    }
    fn change(&self) {
        let mut gate = self.0.lock().expect("no poison");
        gate.kill().expect("a live gate");
        while !gate.is_zero() {
            thread::yield_now();
        }
        gate.get_mut().expect("a gate at zero").change();
        gate.reinit().expect("a gate at zero");
    }
}

/// The processor time of this thread so far, in nanoseconds.
fn processor_time() -> f64 {
    let text = fs::read_to_string("/proc/thread-self/schedstat").unwrap_or_default();
    text.split(' ').next().and_then(|word| word.parse().ok()).unwrap_or(0.0)
}

/// Nanoseconds of processor time of a read, by so many threads at once.
fn time_reads(way: &impl Way, threads: u32, rounds: u32) -> f64 {
    let ready = AtomicU32::new(0);
    let spent = Mutex::new(0.0);
    thread::scope(|scope| {
        for number in 0..threads {
            let (ready, spent) = (&ready, &spent);
            scope.spawn(move || {
                ready.fetch_add(1, SeqCst);
                while ready.load(SeqCst) < threads {
                    spin_loop();
                }
                let before = processor_time();
                let mut left = rounds;
                way.reads(number, || {
                    left = left.wrapping_sub(1);
                    left != u32::MAX
                });
                *spent.lock().expect("no poison") += processor_time() - before;
            });
        }
    });
    *spent.lock().expect("no poison") / f64::from(threads) / f64::from(rounds)
}

/// Microseconds of a change, the middle of so many, while so many threads read.
fn time_changes(way: &impl Way, threads: u32, changes: u32) -> f64 {
    let (is_over, ready) = (AtomicBool::new(false), AtomicU32::new(0));
    let times = RefCell::new(Vec::new());
    thread::scope(|scope| {
        for number in 0..threads {
            let (is_over, ready) = (&is_over, &ready);
            scope.spawn(move || {
                ready.fetch_add(1, SeqCst);
                way.reads(number, || !is_over.load(SeqCst));
            });
        }
        while ready.load(SeqCst) < threads {
            spin_loop();
        }
        for _ in 0..changes {
            let before = Instant::now();
            way.change();
            times.borrow_mut().push(before.elapsed().as_secs_f64() * 1e6);
        }
        is_over.store(true, SeqCst);
    });
    let mut times = times.into_inner();
    times.sort_by(f64::total_cmp);
    times[times.len() / 2]
}

fn time<W: Way>(name: &str, make: impl Fn() -> W, (threads, rounds, changes): (u32, u32, u32)) {
    let read = time_reads(&make(), threads, rounds);
    let change = time_changes(&make(), threads, changes);
    println!("{name},{threads},{read:.2},{change:.2}");
}

fn usage() -> ExitCode {
    eprintln!("usage: beside THREADS ROUNDS CHANGES");
    ExitCode::FAILURE
}

fn main() -> ExitCode {
    let words: Vec<u32> = std::env::args().skip(1).filter_map(|word| word.parse().ok()).collect();
    let Ok([threads, rounds, changes]) = <[u32; 3]>::try_from(words) else {
        return usage();
    };
    if !(1..=63).contains(&threads) || rounds == 0 || changes == 0 {
        return usage();
    }
    let sizes = (threads, rounds, changes);
    let device = Device::default();
    let queue = || Queue::builder(Limits::of_hardware(64)).slots(threads).tags(threads).value(device).build().expect("a queue");
    let gate = || Gate::new(device, threads, threads, Start::Slots, Arc::new(|| {})).expect("a gate");
    time("RwLock<T>", || RwLock::new(device), sizes);
    time("ArcSwap<T>", || ArcSwap::from_pointee(device), sizes);
    time("Queue<T>", queue, sizes);
    time("Gate<T>", || Gated(Mutex::new(gate())), sizes);
    ExitCode::SUCCESS
}
