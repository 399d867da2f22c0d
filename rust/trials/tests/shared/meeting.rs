//! Holds threads at a point of a run, and bounds runs that may hang.
#![allow(dead_code, reason = "each file uses a part")]

use std::hint::spin_loop;
use std::sync::mpsc::channel;
use std::thread;
use std::time::{Duration, Instant};

#[path = "patience.rs"]
mod patience;
#[path = "pausing.rs"]
mod pausing;
use patience::PATIENCE;
use pausing::pause;

/// Runs a closure on its own thread. Returns `None` if it hangs or panics.
pub fn ended<T: Send + 'static>(run: impl FnOnce() -> T + Send + 'static) -> Option<T> {
    let (done, ended) = channel();
    thread::spawn(move || done.send(run()));
    ended.recv_timeout(PATIENCE).ok()
}

/// Holds this thread until the condition holds. Returns `false` if it doesn't in all that time.
pub fn is_met(mut is_so: impl FnMut() -> bool) -> bool {
    let begun = Instant::now();
    for turn in 0_u32.. {
        if is_so() {
            return true;
        }
        if turn % 1_024 == 1_023 && begun.elapsed() > PATIENCE {
            break;
        }
        pause();
    }
    false
}

/// Holds this thread for this many turns, in which others go on. On a busy machine a turn takes long, and fewer turns are
/// enough.
pub fn hold_for(turns: u32) {
    let begun = Instant::now();
    for _ in 0..turns {
        if begun.elapsed() > Duration::from_millis(100) {
            break;
        }
        pause();
    }
}

/// Holds this thread until the condition holds, for at most this many turns of a bare loop. Returns `false` if it never holds.
pub fn is_met_within(turns: u32, mut is_so: impl FnMut() -> bool) -> bool {
    (0..turns).any(|_| {
        spin_loop();
        is_so()
    })
}
