//! Random calls on one thread, on a few queues, beside a model of plain numbers: what requests, freezes and limits mean by
//! the header of the library. Each answer is what the model says. `FREEZE_QUEUE_CALLS` and `FREEZE_QUEUE_SEED` change how
//! many calls, and which.
use freeze_queue::{Limits, LimitsError, NewError, Piece, Queue};
use std::sync::Arc;

#[path = "model/life.rs"]
mod life;
#[path = "model/line.rs"]
mod line;
#[path = "model/plain.rs"]
mod plain;
#[path = "model/refusals.rs"]
mod refusals;
mod shared;

use life::Life;
use plain::Plain;
use shared::{Chance, number_of};

/// Mostly limits that are allowed, near to each bound.
fn some_limits(chance: &mut Chance) -> Limits {
    const HARDWARE: [u32; 11] = [0, 1, 7, 8, 8, 8, 8, 100, 65_535, 65_536, u32::MAX];
    const CHUNKS: [u32; 10] = [0, 0, 1, 3, 8, 12, 128, 65_535, 65_536, u32::MAX];
    const PHYSICAL: [u32; 12] = [1, 1, 2, 4, 8, 32_768, 1, 2, 0, 3, 65_536, u32::MAX];
    let mut one_of = |all: &[u32]| all[chance.below(u32::try_from(all.len()).unwrap()) as usize];
    let (hardware, chunk, physical) = (one_of(&HARDWARE), one_of(&CHUNKS), one_of(&PHYSICAL));
    let most = if hardware < 65_536 { hardware + 1 } else { 9 };
    let max = if chance.one_in(4) { chance.below(70_000) } else { chance.below(most) };
    Limits::of_hardware(hardware).with_max(max).with_chunk(chunk).with_physical(physical)
}

/// Makes a queue, where its limits and its size are allowed, and says why not where they aren't.
fn some_queue(chance: &mut Chance, made: &mut Vec<u64>) -> Option<(Queue, Plain)> {
    let limits = some_limits(chance);
    let slots = if chance.one_in(6) { chance.below(600) } else { 1 + chance.below(4) };
    let tags = if chance.one_in(6) { chance.below(1_200) } else { 1 + chance.below(6) };
    let fits = (1..=512).contains(&slots) && (1..=1_023).contains(&tags);
    let want = plain::refusal(&limits).map_or(if fits { Ok(()) } else { Err(NewError::Size) }, |why| Err(why.into()));
    match Queue::builder(limits).slots(slots).tags(tags).build() {
        Ok(queue) => {
            assert_eq!(want, Ok(()));
            assert!(made.last().is_none_or(|last| *last < queue.id()), "no other queue has its number");
            made.push(queue.id());
            Some((queue, Plain::new(slots, tags, limits)))
        }
        Err(why) => {
            assert_eq!(want, Err(why.reason));
            None
        }
    }
}

/// A range is cut as the definition of its pieces says, or refused as the definition of the refusals says.
fn cut(chance: &mut Chance) {
    const COUNTS: [u32; 8] = [0, 1, 2, 5, 8, 9, 100, 500];
    let mut limits = some_limits(chance);
    limits.hardware = if chance.one_in(3) { limits.hardware } else { 60 };
    limits.max = if limits.max > 70 { 33 } else { limits.max };
    let count = COUNTS[chance.below(8) as usize];
    let near = (1 << 33) - u64::from(chance.below(600)) + u64::from(chance.below(2)) * 100;
    let start = if chance.one_in(3) { near } else { u64::from(chance.below(5000)) };
    let want = match plain::refusal(&limits) {
        Some(why) => Err(why),
        None if start + u64::from(count) > 1 << 33 => Err(LimitsError::TooFar),
        None => Ok(plain::pieces(&plain::kept(limits), start, count)),
    };
    assert_eq!(limits.check().err(), plain::refusal(&limits));
    assert_eq!(limits.pieces(start, count).map(Iterator::collect::<Vec<Piece>>), want);
}

#[test]
fn random_calls() {
    let mut chance = Chance(number_of("FREEZE_QUEUE_SEED", 1));
    let (mut left, mut made, mut releases) = (number_of("FREEZE_QUEUE_CALLS", 2_000_000), vec![], 0);
    while left > 0 {
        let mut queues: Vec<(Arc<Queue>, Plain)> = vec![];
        while queues.len() < 3 {
            queues.extend(some_queue(&mut chance, &mut made).map(|(queue, plain)| (Arc::new(queue), plain)));
            cut(&mut chance);
        }
        let calls = u64::from(1 + chance.below(3000)).min(left);
        let plains = Life::of(&mut chance, &queues).run(calls);
        for ((queue, _), plain) in queues.into_iter().zip(plains) {
            releases += plain.releases;
            life::end(queue, &plain);
        }
        left -= calls;
    }
    assert!(made.len() > 300 && releases > 1000, "{} queues, {releases} releases", made.len());
    assert_eq!(plain::refusal(&Limits::of_hardware(0)), Some(LimitsError::HardwareRange));
}
