//! Waits between the threads of a test, with a bound of some minutes, so that a thread which is never woken fails the
//! test. Such a failure aborts the program, since a panic would wait for the sleeping thread.

use std::io::Write;
use std::sync::atomic::{AtomicU64, Ordering::SeqCst};
use std::time::Instant;
use std::{hint, io, process};

#[path = "patience.rs"]
mod patience;
#[path = "pausing.rs"]
mod pausing;
use patience::PATIENCE;
pub use pausing::pause;

/// The number of turns for which a thread spins before it lets other threads run at each turn.
const SPINS: u64 = 200;

/// Waits until this condition holds; fails if it doesn't in all that time.
pub fn until(mut is_so: impl FnMut() -> bool) {
    let begun = Instant::now();
    for turn in 0.. {
        if is_so() {
            return;
        }
        pass_turn(turn);
        insist(turn % 1_024 > 0 || begun.elapsed() < PATIENCE, "a thread sleeps that nobody woke");
    }
}

/// Waits until this count is reached.
pub fn wait_for(count: &AtomicU64, high: u64) {
    until(|| count.load(SeqCst) >= high);
}

/// Ends the program if this condition doesn't hold, while other threads may sleep.
pub fn insist(is_so: bool, why: &str) {
    if !is_so {
        let _ = writeln!(io::stderr(), "FAILED: {why}");
        process::abort();
    }
}

/// Lets a turn pass.
fn pass_turn(turn: u64) {
    if turn < SPINS {
        hint::spin_loop();
    } else {
        pause();
    }
}
