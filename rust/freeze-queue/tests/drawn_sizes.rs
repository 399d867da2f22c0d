//! Queues of sizes that are drawn over all their dimensions at once, through lives with many freezes and waits: with memory at hand none returns
//! `NoMemory`. A call that gives up above some size passes every other test. `DRAWN_SIZES` is how many are drawn, and `DRAWN_FROM` the first
//! of their seeds.
use freeze_queue::{EnterError, Limits, Queue};
use std::future::Future;
use std::pin::Pin;
use std::task::{Context, Poll, Waker};

mod shared;
use shared::{Chance, number_of};

/// A size, of each magnitude as often as of any other.
fn size(chance: &mut Chance, least: u32, most: u32) -> u32 {
    let magnitudes = u32::BITS - (most - least).leading_zeros();
    let more = match chance.below(magnitudes + 2) {
        0 => 0,
        bits if bits > magnitudes => most - least,
        bits => (1 << (bits - 1)) + chance.below(1 << (bits - 1)),
    };
    least + more.min(most - least)
}

type Waits<'q, T> = Pin<Box<dyn Future<Output = T> + 'q>>;

/// So many of these futures, which all wait.
fn waiting<'q, T, F: Future<Output = T> + 'q>(count: u32, future: impl Fn() -> F) -> Vec<Waits<'q, T>> {
    let mut all: Vec<_> = (0..count).map(|_| Box::pin(future()) as Waits<'q, T>).collect();
    for one in &mut all {
        assert!(one.as_mut().poll(&mut Context::from_waker(Waker::noop())).is_pending());
    }
    all
}

fn done<T>(mut future: Waits<'_, T>) -> T {
    match future.as_mut().poll(&mut Context::from_waker(Waker::noop())) {
        Poll::Ready(done) => done,
        Poll::Pending => panic!("it waits"),
    }
}

/// A life: all tags go out, tasks wait in line for one, for the drain and for their update; then each has what it waited for.
fn life(queue: &Queue<String>, chance: &mut Chance) {
    let requests: Vec<_> = std::iter::from_fn(|| queue.try_enter_any().ok()).collect();
    let line = waiting(size(chance, 0, 3_000), || queue.enter_any_async());
    let freezes = waiting(size(chance, 0, Queue::MAX_DEPTH - 1), || queue.freeze_async());
    let updates = waiting(size(chance, 1, 300), || queue.update_async(|limits| limits.with_chunk(limits.chunk + 1)));
    drop(requests);
    let frozen: Vec<_> = freezes.into_iter().map(|freeze| done(freeze).unwrap()).collect();
    let before = queue.limits().chunk;
    let count = u32::try_from(updates.len()).unwrap();
    for update in updates {
        done(update).unwrap();
    }
    assert_eq!(queue.limits().chunk, before + count);
    drop(frozen);
    for request in line {
        assert_eq!(**done(request).as_ref().unwrap(), *"disk");
    }
}

#[test]
fn queues() {
    let first = number_of("DRAWN_FROM", 0);
    for seed in first..first + number_of("DRAWN_SIZES", 300) {
        let mut chance = Chance(seed);
        let (tags, slots) = (size(&mut chance, 1, Queue::MAX_TAGS), size(&mut chance, 1, Queue::MAX_SLOTS));
        let reserved = size(&mut chance, 0, tags - 1);
        let builder = Queue::builder(Limits::of_hardware(size(&mut chance, 1, 65_535)));
        let queue = builder.tags(tags).slots(slots).reserved(reserved).value(String::from("disk")).build();
        let queue = queue.unwrap_or_else(|refused| panic!("seed {seed}: {refused:?}"));
        let lives = size(&mut chance, 1, 8);
        (0..lives).for_each(|_| life(&queue, &mut chance));
        let kept: Vec<_> = std::iter::from_fn(|| queue.tag().ok()).collect();
        assert_eq!(kept.len(), tags as usize);
        assert_eq!(queue.try_enter_any().unwrap_err(), EnterError::NoTag);
        drop(kept);
        assert_eq!(queue.remove().unwrap().value, "disk");
    }
}
