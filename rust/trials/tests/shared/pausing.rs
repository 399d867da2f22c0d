//! Lets other threads run.

use std::sync::atomic::{AtomicU32, Ordering::Relaxed};
use std::thread;
use std::time::{Duration, Instant};

/// Lets other threads run for a moment. If other programs want the processor too, a yield gives it away for milliseconds; after each
/// such yield come a thousand short sleeps instead.
pub fn pause() {
    static SLEEPS: AtomicU32 = AtomicU32::new(0);
    if SLEEPS.load(Relaxed) > 0 {
        SLEEPS.fetch_sub(1, Relaxed);
        thread::sleep(Duration::from_micros(1));
        return;
    }
    let begun = Instant::now();
    thread::yield_now();
    if begun.elapsed() > Duration::from_millis(1) {
        SLEEPS.store(1_000, Relaxed);
    }
}
