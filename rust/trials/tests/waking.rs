//! Short rounds, again and again: in each a thread falls asleep about when another one wakes it. tests/wakes runs these tests
//! with all threads on one processor, and on two.

use blkq::erased::freeze_queue::{BlockQueue, Enter, Freezer, Limits, Put, Tag};
use blkq::erased::wait_queue::WaitQueue;
use std::sync::atomic::{AtomicBool, AtomicU64, Ordering::SeqCst};
use std::{hint, thread};

#[path = "shared/turns.rs"]
mod turns;
use turns::{insist, pause, until, wait_for};

/// Spins for so long, and lets other threads run so often.
fn dawdle(spins: u64, yields: u64) {
    for _ in 0..spins {
        hint::spin_loop();
    }
    for _ in 0..yields {
        pause();
    }
}

/// A queue of so many slots for a device of 8 sectors, with its freezer and so many tags.
fn queue(slots: u32, tags: u32) -> (BlockQueue, Freezer, Vec<Tag>) {
    BlockQueue::new(Limits::start(8).expect("limits"), slots, tags).expect("memory")
}

/// A turn that one thread hands to the other, and the place where that waits for it.
struct Side {
    handed: AtomicU64,
    waiting: WaitQueue,
}

impl Side {
    fn new() -> Side {
        Side { handed: AtomicU64::new(0), waiting: WaitQueue::new() }
    }

    fn hand(&self, round: u64) {
        self.handed.store(round, SeqCst);
        self.waiting.wake_one();
    }

    fn receive(&self, round: u64) {
        for _ in self.waiting.announced_tries() {
            if self.handed.load(SeqCst) >= round {
                return;
            }
        }
    }
}

/// Two threads hand a turn to one another: no wake is missed between a try and the sleep after it.
#[test]
fn no_hand_over_is_missed() {
    const ROUNDS: u64 = 200_000;
    let (first, second) = (Side::new(), Side::new());
    thread::scope(|scope| {
        scope.spawn(|| {
            for round in 1..=ROUNDS {
                first.hand(round);
                second.receive(round);
            }
        });
        for round in 1..=ROUNDS {
            first.receive(round);
            second.hand(round);
        }
    });
    assert_eq!(second.handed.into_inner(), ROUNDS);
}

/// How far the threads of a test are: the last round in which the queue was frozen, and how often a tag entered.
#[derive(Default)]
struct Rounds {
    frozen: AtomicU64,
    come: AtomicU64,
    entered: AtomicU64,
}

/// Dawdles a little longer or shorter than in the round before: some rounds spin, as a thread that is about to sleep does.
fn dawdle_in(round: u64) {
    if round % 2 == 0 {
        dawdle(round / 2 % 512, 0);
    } else {
        dawdle(0, round / 2 % 8);
    }
}

/// Enters once the queue is frozen, in so many rounds, and leaves once the freezer may be asleep.
fn enter_rounds(queue: &BlockQueue, tag: &mut Tag, rounds: &Rounds, many: u64) {
    for round in 1..=many {
        wait_for(&rounds.frozen, round);
        rounds.come.fetch_add(1, SeqCst);
        queue.enter(tag, 0);
        rounds.entered.fetch_add(1, SeqCst);
        dawdle_in(round);
        queue.leave(tag, 0);
    }
}

/// In each round the last thaw wakes the thread that waits in `enter`, and its leave wakes the freezer.
#[test]
fn no_wake_is_missed() {
    const ROUNDS: u64 = 10_000;
    let (queue, mut freezer, mut tags) = queue(1, 1);
    let rounds = Rounds::default();
    thread::scope(|scope| {
        scope.spawn(|| enter_rounds(&queue, &mut tags[0], &rounds, ROUNDS));
        for round in 1..=ROUNDS {
            insist(freezer.freeze(&queue) == Ok(1), "a freeze is refused");
            rounds.frozen.store(round, SeqCst);
            dawdle_in(round);
            insist(freezer.thaw(&queue) == Ok(0), "a thaw is refused");
            wait_for(&rounds.entered, round);
        }
    });
}

/// The last thaw wakes the thread that waits in `enter` also if a tag is in, so that the queue never was drained.
#[test]
fn a_thaw_before_the_drain_wakes_submitters() {
    const ROUNDS: u64 = 200;
    let (queue, mut freezer, mut tags) = queue(2, 2);
    let (inside, tag) = tags.split_at_mut(1);
    let rounds = Rounds::default();
    thread::scope(|scope| {
        scope.spawn(|| enter_rounds(&queue, &mut tag[0], &rounds, ROUNDS));
        for round in 1..=ROUNDS {
            queue.enter(&mut inside[0], 0);
            insist(freezer.start_freeze(&queue) == Ok(1), "a freeze is refused");
            rounds.frozen.store(round, SeqCst);
            dawdle(round % 8 * 2_048, round % 16 * 16);
            insist(freezer.thaw(&queue) == Ok(0), "a thaw is refused");
            wait_for(&rounds.entered, round);
            queue.leave(&mut inside[0], 0);
        }
    });
}

/// One thaw wakes each of several threads that wait in `enter`, mostly asleep.
#[test]
fn a_thaw_wakes_all_who_wait() {
    const ROUNDS: u64 = 100;
    const CROWD: u64 = 3;
    let (queue, mut freezer, mut tags) = queue(1, CROWD as u32);
    let rounds = Rounds::default();
    thread::scope(|scope| {
        for tag in &mut tags {
            scope.spawn(|| enter_rounds(&queue, tag, &rounds, ROUNDS));
        }
        for round in 1..=ROUNDS {
            insist(freezer.freeze(&queue) == Ok(1), "a freeze is refused");
            rounds.frozen.store(round, SeqCst);
            wait_for(&rounds.come, round * CROWD);
            dawdle(round % 64 * 16, round % 16);
            insist(freezer.thaw(&queue) == Ok(0), "a thaw is refused");
            wait_for(&rounds.entered, round * CROWD);
        }
    });
}

/// In each round the last leave wakes the thread that waits for the drain.
#[test]
fn no_drain_is_missed() {
    const ROUNDS: u64 = 5_000;
    let (queue, mut freezer, mut tags) = queue(1, 1);
    let (rounds, tag) = (Rounds::default(), &mut tags[0]);
    thread::scope(|scope| {
        scope.spawn(|| {
            for round in 1..=ROUNDS {
                queue.enter(tag, 0);
                rounds.entered.store(round, SeqCst);
                wait_for(&rounds.frozen, round);
                dawdle(round % 512 * 4, round % 16);
                queue.leave(tag, 0);
            }
        });
        for round in 1..=ROUNDS {
            wait_for(&rounds.entered, round);
            insist(freezer.start_freeze(&queue) == Ok(1), "a freeze is refused");
            rounds.frozen.store(round, SeqCst);
            insist(freezer.wait_drained(&queue) == Ok(()), "a wait is refused");
            insist(freezer.thaw(&queue) == Ok(0), "a thaw is refused");
        }
    });
}

/// How far three threads are. A round is over once it is drained.
#[derive(Default)]
struct Refused {
    /// The rounds in which a tag was in.
    inside: AtomicU64,
    /// How often the other tag was refused, in all.
    refused: AtomicU64,
    /// The rounds that were drained.
    drained: AtomicU64,
    /// Whether there are no more rounds.
    over: AtomicBool,
}

impl Refused {
    /// Waits until a tag is in. Whether there is such a round.
    fn begins(&self, round: u64) -> bool {
        wait_for(&self.inside, round);
        !self.over.load(SeqCst)
    }

    /// Tries to enter until the round is drained. A freezer that nobody wakes never thaws.
    fn try_in_round(&self, queue: &BlockQueue, tag: &mut Tag, round: u64) {
        /// Tries in a row, which are interrupted now and then, also on one processor.
        const TRIES: u32 = 2_000;
        until(|| {
            (0..TRIES).any(|_| {
                if queue.try_enter(tag, 1) == Enter::Entered {
                    queue.leave(tag, 1);
                } else {
                    self.refused.fetch_add(1, SeqCst);
                }
                self.drained.load(SeqCst) >= round
            })
        });
    }

    /// Enters, and leaves while the freezer sleeps and the other tag is refused, until so many leaves weren't the last. In such a
    /// round a refusal was, since the freezer's own drop came before. How many there were.
    fn leave_rounds(&self, queue: &BlockQueue, tag: &mut Tag, rounds: u64, wanted: u64) -> u64 {
        /// How often the other tag is refused first: the freezer is asleep by then.
        const REFUSALS: u64 = 500;
        let mut by_refusals = 0;
        for round in 1..=rounds {
            queue.enter(tag, 0);
            self.over.store(by_refusals >= wanted || round == rounds, SeqCst);
            let refused = self.refused.load(SeqCst);
            self.inside.store(round, SeqCst);
            if self.over.load(SeqCst) {
                break;
            }
            wait_for(&self.refused, refused + REFUSALS);
            by_refusals += u64::from(queue.leave(tag, 0) == Put::NotLast);
            wait_for(&self.drained, round);
        }
        by_refusals
    }
}

/// A try that is refused wakes a freezer that sleeps, if the drop of that try is the last.
#[test]
fn a_refusal_that_is_last_wakes_the_freezer() {
    const ROUNDS: u64 = 20_000;
    const WANTED: u64 = 20;
    let (queue, mut freezer, mut tags) = queue(2, 2);
    let (leaving, trying) = tags.split_at_mut(1);
    let told = Refused::default();
    let by_refusals = thread::scope(|scope| {
        scope.spawn(|| {
            for round in (1..).take_while(|round| told.begins(*round)) {
                insist(freezer.freeze(&queue) == Ok(1), "a freeze is refused");
                told.drained.store(round, SeqCst);
                insist(freezer.thaw(&queue) == Ok(0), "a thaw is refused");
            }
        });
        scope.spawn(|| {
            for round in (1..).take_while(|round| told.begins(*round)) {
                told.try_in_round(&queue, &mut trying[0], round);
            }
        });
        told.leave_rounds(&queue, &mut leaving[0], ROUNDS, WANTED)
    });
    assert_eq!(by_refusals, WANTED);
}
