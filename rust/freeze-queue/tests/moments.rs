//! Two threads meet at any moment, round after round, and after each nobody wakes anybody until both are there: so a wake that
//! is lost between a look and a sleep is seen, since they never come. `FREEZE_QUEUE_ROUNDS` changes how many rounds.
use freeze_queue::Queue;
use std::hint;
use std::sync::atomic::{AtomicU64, Ordering};
use std::thread;
use std::time::Duration;

mod shared;
use shared::{Chance, LIMITS, block_on, ends, number_of};

/// In which round a thread is.
#[derive(Default)]
struct Round(AtomicU64);

impl Round {
    fn begins(&self, round: u64) {
        self.0.store(round, Ordering::SeqCst);
    }

    /// Looks without a pause, so that both go on at the same moment; where others have the processor it is given up at last. (By a sleep:
    /// a yield would leave it to other programs for milliseconds.)
    fn wait_for(&self, round: u64) {
        for looks in 1_u32.. {
            if self.0.load(Ordering::SeqCst) >= round {
                return;
            }
            if looks % 10_000 == 0 { thread::sleep(Duration::from_micros(1)) } else { hint::spin_loop() }
        }
    }
}

/// Some nanoseconds for each.
fn linger(times: u32) {
    (0..times).for_each(|_| hint::spin_loop());
}

fn rounds() -> u64 {
    number_of("FREEZE_QUEUE_ROUNDS", 100_000) / 10
}

/// A thaw at any moment of an entering, after which nobody freezes.
#[test]
fn a_thaw_at_any_moment() {
    ends(|| {
        let queue = Queue::builder(LIMITS).slots(1).tags(1).build().unwrap();
        let mut tag = queue.tag().unwrap();
        let (frozen_in, entered_in, mut chance) = (Round::default(), Round::default(), Chance(1));
        thread::scope(|threads| {
            threads.spawn(|| {
                for round in 1..=rounds() {
                    frozen_in.wait_for(round);
                    match round % 3 {
                        0 => drop(queue.enter(&mut tag).unwrap()),
                        1 => drop(queue.enter_timeout(&mut tag, Duration::from_secs(3600)).unwrap()),
                        _ => drop(block_on(queue.enter_async(&mut tag)).unwrap()),
                    }
                    entered_in.begins(round);
                }
            });
            for round in 1..=rounds() {
                let frozen = queue.freeze().unwrap();
                frozen_in.begins(round);
                linger(chance.below(150));
                drop(frozen);
                entered_in.wait_for(round);
            }
        });
    });
}

/// The last leaves at any moment of a freeze, after which nobody enters.
#[test]
fn a_leaving_at_any_moment() {
    ends(|| {
        let queue = Queue::builder(LIMITS).slots(1).tags(1).build().unwrap();
        let mut tag = queue.tag().unwrap();
        let (entered_in, drained_in, mut chance) = (Round::default(), Round::default(), Chance(2));
        thread::scope(|threads| {
            threads.spawn(|| {
                for round in 1..=rounds() {
                    let request = queue.enter(&mut tag).unwrap();
                    entered_in.begins(round);
                    linger(chance.below(150));
                    drop(request);
                    drained_in.wait_for(round);
                }
            });
            for round in 1..=rounds() {
                entered_in.wait_for(round);
                if round % 2 == 0 {
                    drop(queue.freeze().unwrap());
                } else {
                    drop(queue.freeze_timeout(Duration::from_secs(3600)).unwrap());
                }
                drained_in.begins(round);
            }
        });
    });
}
