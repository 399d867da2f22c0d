//! How long tags stay unbiased after a change.
//!
//! A bias saves each request some 20 ns, and taking biases away costs a change some microseconds. So once a change has taken
//! them, no request that enters begins a bias for as long as that took. If biases don't live much longer than a pause before the
//! next change takes them, the pause is doubled each time, as a multiple of that cost, up to 1,024 times. So a queue that changes
//! often has few biases or none.
use std::sync::atomic::{AtomicU64, Ordering::Relaxed};
use std::time::Instant;

/// Biases that lived for this many pauses were worth it.
const WORTH: u64 = 16;
/// The longest pause, as a multiple of the cost of taking the biases.
const MOST_TIMES: u64 = 1 << 10;

/// Whether tags may be biased. This is a hint that requests read, and that the freezer writes under the lock.
pub(crate) struct Pause {
    began: Instant,
    /// The end of the pause, in nanoseconds after `began`; 0 if there is none.
    until: AtomicU64,
}

impl Pause {
    pub(crate) fn new() -> Pause {
        Pause { began: Instant::now(), until: AtomicU64::new(0) }
    }

    /// The nanoseconds since `began`.
    pub(crate) fn now(&self) -> u64 {
        u64::try_from(self.began.elapsed().as_nanos()).unwrap_or(u64::MAX)
    }

    /// Whether tags may be biased. It asks the clock only if a change took biases since the last pause that was found to be
    /// over.
    pub(crate) fn is_over(&self) -> bool {
        let until = self.until.load(Relaxed);
        let is_over = until == 0 || until <= self.now();
        if is_over && until > 0 {
            let _begun_anew = self.until.compare_exchange(until, 0, Relaxed, Relaxed);
        }
        is_over
    }

    /// Begins a pause, after a change that took biases from this nanosecond on.
    pub(crate) fn begins(&self, pauses: &mut Pauses, from: u64) {
        self.until.store(pauses.next(from, self.now()), Relaxed);
    }
}

/// The pauses of a queue, under its lock.
#[derive(Default)]
pub(crate) struct Pauses {
    /// The end of the last pause.
    until: u64,
    length: u64,
    /// Its length, as a multiple of the cost of taking the biases.
    times: u64,
}

impl Pauses {
    /// Returns the end of the next pause, after biases were taken between two moments.
    fn next(&mut self, from: u64, to: u64) -> u64 {
        let lived = from.saturating_sub(self.until);
        let was_worth = lived >= self.length.saturating_mul(WORTH);
        self.times = if was_worth { 1 } else { (self.times * 2).min(MOST_TIMES) };
        self.length = to.saturating_sub(from).max(1).saturating_mul(self.times);
        self.until = to.saturating_add(self.length);
        self.until
    }
}

#[cfg(test)]
mod tests {
    use super::*;
    use crate::limits::Limits;
    use crate::queue::Queue;
    use std::sync::Arc;

    #[test]
    fn a_pause_is_as_long_as_taking_the_biases_took() {
        let mut pauses = Pauses::default();
        assert_eq!(pauses.next(100, 115), 130);
        assert_eq!(pauses.next(130 + 15 * WORTH, 130 + 15 * WORTH + 7), 130 + 15 * WORTH + 14);
    }

    #[test]
    fn pauses_double_while_biases_live_too_short() {
        let (mut pauses, mut now) = (Pauses::default(), 0);
        let mut lengths = vec![];
        for _ in 0..13 {
            let until = pauses.next(now, now + 10);
            lengths.push(until - now - 10);
            now = until + 1;
        }
        assert_eq!(lengths[..4], [10, 20, 40, 80]);
        assert_eq!(lengths[10..], [10 * MOST_TIMES; 3]);
        assert_eq!(
            pauses.next(now + WORTH * lengths[12], now + WORTH * lengths[12] + 10),
            now + WORTH * lengths[12] + 20
        );
    }

    #[test]
    fn a_pause_that_is_over_is_forgotten() {
        let (pause, mut pauses) = (Pause::new(), Pauses::default());
        assert!(pause.is_over());
        pause.begins(&mut pauses, pause.now());
        while !pause.is_over() {}
        assert_eq!(pause.until.load(Relaxed), 0);
        pause.until.store(u64::MAX, Relaxed);
        assert!(!pause.is_over());
    }

    /// In each life of a queue, the freeze that takes a bias begins a pause, and a freeze that takes none doesn't.
    #[test]
    fn each_freeze_that_takes_a_bias_begins_a_pause() {
        let queue = Queue::builder(Limits::of_hardware(8)).slots(1).tags(1).build().unwrap();
        let mut tag = queue.tag().unwrap();
        let shared = Arc::clone(&tag.parts().shared);
        let until = || shared.pause.until.load(Relaxed);
        for life in 0..6 {
            while queue.stats().biased == 0 {
                drop(queue.enter(&mut tag).unwrap());
            }
            assert_eq!(until(), 0, "life {life}: a bias begins after the pause");
            let before = shared.pause.now();
            let frozen = queue.freeze().unwrap();
            let begun = until();
            assert!(begun > before, "life {life}: {begun} after {before}");
            drop(queue.freeze().unwrap());
            drop(frozen);
            drop(queue.freeze().unwrap());
            assert_eq!(until(), begun, "life {life}: no bias was taken");
        }
    }
}
