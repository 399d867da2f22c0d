//! Guards plain memory with a gate, from life to life. Threads write it while they hold a reference, and
//! the call that makes the release reads what they wrote and frees it. The thread that revives the gate allocates it again. Built for
//! the thread sanitizer with `--cfg percpu_gate_tsan`, this is a race wherever the crate doesn't announce the gate's order
//! to it. Only the gate guards the memory, which Rust's types can't express, so this test has its own `unsafe`.
#![allow(unsafe_code)]

use percpu_gate::{Gate, Killed, OnLast, Pass, Revived, Start};
use std::cell::UnsafeCell;
use std::env;
use std::ptr;
use std::sync::Arc;
use std::sync::atomic::{AtomicBool, AtomicU64, Ordering};
use std::thread;
use std::time::Duration;

const THREADS: u32 = 4;

type Counts = [u64; THREADS as usize];

/// A device with a count for each thread. It exists while the gate isn't at zero; otherwise the pointer is null.
struct Device(UnsafeCell<*mut Counts>);

// SAFETY: the gate guards it: each thread changes its own count under a reference. The call of the release, or a revival of
// the gate from zero, has it alone.
unsafe impl Sync for Device {}
// SAFETY: it points to plain numbers.
unsafe impl Send for Device {}

impl Device {
    fn serve(&self, thread: u32) {
        // SAFETY: the caller holds a reference, so nobody writes the pointer.
        let counts = unsafe { *self.0.get() };
        // SAFETY: the caller holds a reference and counts at its own place; nobody frees the counts meanwhile.
        unsafe { (*counts)[thread as usize] += 1 }
    }

    fn make(&self) {
        let counts = Box::into_raw(Box::new(Counts::default()));
        // SAFETY: the gate is at zero, and its release is done: no other thread is here.
        let old = unsafe { self.0.get().replace(counts) };
        assert!(old.is_null());
    }

    fn free(&self) -> u64 {
        // SAFETY: the caller is the release: no other thread is here before the revival.
        let counts = unsafe { self.0.get().replace(ptr::null_mut()) };
        assert!(!counts.is_null());
        // SAFETY: it came from a box, and isn't led to any more.
        let counts = unsafe { Box::from_raw(counts) };
        counts.iter().sum()
    }
}

/// Signals to and from the threads. All except `over` are relaxed, so they order nothing.
#[derive(Default)]
struct Signs {
    over: AtomicBool,
    /// While set, no thread asks for a reference, so that a kill may find none held.
    quiet: AtomicBool,
    /// The number of threads that wait to ask, and hold nothing.
    resting: [AtomicBool; THREADS as usize],
    /// The number of requests of all threads so far.
    requests: AtomicU64,
}

/// Serves until the end, and returns the number of requests.
fn serve(pass: &Pass, thread: u32, device: &Device, signs: &Signs) -> u64 {
    let mut served = 0;
    while !signs.over.load(Ordering::SeqCst) {
        let rests = signs.quiet.load(Ordering::Relaxed);
        signs.resting[thread as usize].store(rests, Ordering::Relaxed);
        if rests {
            thread::sleep(Duration::from_micros(20));
            continue;
        }
        let given = if thread % 2 == 0 { pass.try_get_live() } else { pass.try_get() };
        if let Ok(_reference) = given {
            device.serve(thread);
            served += 1;
            signs.requests.fetch_add(1, Ordering::Relaxed);
        }
    }
    served
}

/// Waits until the threads have served in this life too, and in some lives also until no thread asks.
fn let_serve(signs: &Signs, life: u64) {
    let before = signs.requests.load(Ordering::Relaxed);
    while signs.requests.load(Ordering::Relaxed) < before + 20 {
        thread::sleep(Duration::from_micros(20));
    }
    if life % 4 < 2 {
        signs.quiet.store(true, Ordering::Relaxed);
        while !signs.resting.iter().all(|rests| rests.load(Ordering::Relaxed)) {
            thread::sleep(Duration::from_micros(20));
        }
    }
}

/// Kills, waits until the device was freed, makes another, and revives, for many lives. Returns the number of kills that found no
/// reference held.
fn live_and_die(control: &mut Gate, device: &Device, freed: &AtomicU64, signs: &Signs, lives: u64) -> u64 {
    let mut at_zero = 0;
    for life in 1..=lives {
        let_serve(signs, life);
        let killed = if life % 3 == 0 { control.kill_and_confirm(|_| ()) } else { control.kill() };
        at_zero += u64::from(killed == Ok(Killed::AtZero));
        while freed.load(Ordering::SeqCst) < life {
            thread::sleep(Duration::from_micros(20));
        }
        signs.quiet.store(false, Ordering::Relaxed);
        device.make();
        if life % 5 == 0 {
            assert_eq!(control.resurrect(), Ok(Revived::FromZero));
        } else {
            control.reinit().unwrap();
        }
    }
    at_zero
}

#[test]
fn memory_that_the_gate_guards() {
    let lives: u64 = env::var("PERCPU_GATE_LIVES").ok().and_then(|text| text.parse().ok()).unwrap_or(300);
    let device = Arc::new(Device(UnsafeCell::new(ptr::null_mut())));
    device.make();
    let (freed, all) = (Arc::new(AtomicU64::new(0)), Arc::new(AtomicU64::new(0)));
    let (its, releases, sum) = (Arc::clone(&device), Arc::clone(&freed), Arc::clone(&all));
    let on_last: OnLast = Arc::new(move || {
        sum.fetch_add(its.free(), Ordering::SeqCst);
        releases.fetch_add(1, Ordering::SeqCst);
    });
    let mut control = Gate::new(THREADS, THREADS, Start::Slots, [0; 8], on_last).unwrap();
    let signs = Signs::default();
    let passes: Vec<Pass> = (0..THREADS).map(|slot| control.next_pass(slot).unwrap()).collect();
    let (mut served, mut at_zero) = (0, 0);
    thread::scope(|threads| {
        let serving: Vec<_> = (0..THREADS)
            .zip(passes)
            .map(|(thread, pass)| {
                let (device, signs) = (&device, &signs);
                threads.spawn(move || (serve(&pass, thread, device, signs), pass))
            })
            .collect();
        at_zero = live_and_die(&mut control, &device, &freed, &signs, lives);
        signs.over.store(true, Ordering::SeqCst);
        for thread in serving {
            let (count, pass) = thread.join().unwrap();
            served += count;
            control.retire(pass).unwrap();
        }
    });
    assert_eq!(control.exit().unwrap().releases, lives);
    assert!(at_zero > 0, "no kill found the gate without references");
    assert_eq!(all.load(Ordering::SeqCst) + device.free(), served);
}
