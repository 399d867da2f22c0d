//! Plain memory under the queue's guard, from freeze to freeze: threads write it while their requests are in flight, and a
//! thread that has frozen the queue reads what they wrote, frees it, and makes it anew. Built for the thread sanitizer with
//! `--cfg freeze_queue_tsan`, this is a race wherever the crate doesn't announce the queue's order to it. The queue alone
//! guards the memory, which no type of Rust can know, so this test has `unsafe` of its own.
#![allow(unsafe_code)]

use freeze_queue::{Queue, Tag};
use std::cell::UnsafeCell;
use std::ptr;
use std::sync::atomic::{AtomicBool, AtomicU64, Ordering};
use std::thread;
use std::time::Duration;

mod shared;
use shared::{LIMITS, PATIENCE, number_of};

const THREADS: u32 = 4;

type Counts = [u64; THREADS as usize];

/// A device that is there while the queue isn't drained, with a count for each thread, and a setting beside the queue's.
struct Device(UnsafeCell<*mut (Counts, u32)>);

// SAFETY: the queue guards it: each thread changes its own count while its request is in flight; a thread that has frozen the
// queue has it alone.
unsafe impl Sync for Device {}

impl Device {
    fn of(counts: Counts, max: u32) -> *mut (Counts, u32) {
        Box::into_raw(Box::new((counts, max)))
    }

    /// Counts, and says what the setting is.
    fn serve(&self, thread: u32) -> u32 {
        // SAFETY: the caller's request is under way, so nobody writes the pointer.
        let device = unsafe { *self.0.get() };
        // SAFETY: the caller's request is under way, and counts at its own place; nobody frees it meanwhile.
        unsafe { (&mut (*device).0)[thread as usize] += 1 }
        // SAFETY: nobody writes the setting while a request is under way.
        unsafe { (*device).1 }
    }

    /// Another in its place: what was served since the last.
    fn renew(&self, max: u32) -> u64 {
        // SAFETY: the caller has frozen the queue, alone: nobody else is here.
        let old = unsafe { self.0.get().replace(Device::of(Counts::default(), max)) };
        // SAFETY: it came from a box, and isn't led to any more.
        unsafe { Box::from_raw(old) }.0.iter().sum()
    }
}

impl Drop for Device {
    fn drop(&mut self) {
        let last = std::mem::replace(self.0.get_mut(), ptr::null_mut());
        // SAFETY: it came from a box, and isn't led to any more.
        drop(unsafe { Box::from_raw(last) });
    }
}

/// Serves until the end, and returns how often. All but `over` is relaxed: it orders nothing.
fn serve(queue: &Queue, tag: &mut Tag, device: &Device, over: &AtomicBool, requests: &AtomicU64) -> u64 {
    let (thread, mut served) = (u32::try_from(tag.number()).unwrap(), 0);
    while !over.load(Ordering::Relaxed) {
        let entered = if thread % 2 == 0 { queue.enter(tag).ok() } else { queue.try_enter_frozen(tag).ok() };
        let Some(request) = entered else { continue };
        assert_eq!(device.serve(thread), request.limits().max);
        drop(request);
        served += 1;
        requests.fetch_add(1, Ordering::Relaxed);
    }
    served
}

/// Freezes so often, after some requests each, and renews the device: what was served by then.
fn change(queue: &Queue, device: &Device, requests: &AtomicU64, lives: u64) -> u64 {
    let mut served = 0;
    for life in 1..=lives {
        let before = requests.load(Ordering::Relaxed);
        while requests.load(Ordering::Relaxed) < before + 20 {
            thread::sleep(Duration::from_micros(20));
        }
        let max = 1 + u32::try_from(life % 64).unwrap();
        let frozen = match life % 3 {
            0 => queue.freeze_timeout(PATIENCE).unwrap(),
            1 => queue.try_freeze().unwrap_or_else(|_| queue.freeze().unwrap()),
            _ => queue.freeze().unwrap(),
        };
        let set = || frozen.set(LIMITS.with_max(max)).unwrap();
        if life % 2 == 0 {
            set();
        }
        served += device.renew(max);
        set(); // here or above, nobody is under way
    }
    served
}

#[test]
fn memory_that_the_queue_guards() {
    let lives = number_of("FREEZE_QUEUE_LIVES", 300);
    let queue = Queue::builder(LIMITS).slots(THREADS).tags(THREADS).build().unwrap();
    let mut tags: Vec<Tag> = (0..THREADS).map(|_| queue.tag().unwrap()).collect();
    let device = Device(UnsafeCell::new(Device::of(Counts::default(), LIMITS.max)));
    let (over, requests) = (AtomicBool::new(false), AtomicU64::new(0));
    thread::scope(|threads| {
        let (queue, device, over, requests) = (&queue, &device, &over, &requests);
        let serving: Vec<_> =
            tags.iter_mut().map(|tag| threads.spawn(move || serve(queue, tag, device, over, requests))).collect();
        let by_then = change(queue, device, requests, lives);
        over.store(true, Ordering::Relaxed);
        let served: u64 = serving.into_iter().map(|thread| thread.join().unwrap()).sum();
        let _frozen = queue.freeze().unwrap();
        assert_eq!(by_then + device.renew(1), served);
    });
}
