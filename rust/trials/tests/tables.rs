//! The stand-in for `atomic_table`: rows, random calls beside a list of numbers, and threads.

mod shared;

use blkq::erased::atomic_table::{Seat, Shared, Table};
use shared::Numbers;
use std::cell::UnsafeCell;
use std::sync::atomic::{AtomicBool, Ordering};
use std::thread;

type Step = fn(&Shared, &mut Seat, usize, u64) -> u64;
type Leaves = fn(u64, u64) -> u64;

/// Each step that returns the value before, with what it leaves, written from the documentation of `AtomicU64`.
const STEPS: [(Step, Leaves); 5] = [
    (Shared::swap, |_, new| new),
    (Shared::fetch_add, u64::wrapping_add),
    (Shared::fetch_sub, u64::wrapping_sub),
    (Shared::fetch_and, |old, bits| old & bits),
    (Shared::fetch_or, |old, bits| old | bits),
];

#[test]
fn steps_by_hand() {
    let (table, mut seat) = Table::of_words(&[5, u64::MAX]).unwrap();
    let words = &table.shared;
    assert_eq!(words.load(&mut seat, 0), 5);
    words.store(&mut seat, 0, 12);
    assert_eq!(words.fetch_add(&mut seat, 0, 3), 12);
    assert_eq!(words.fetch_sub(&mut seat, 0, 1), 15);
    assert_eq!(words.fetch_and(&mut seat, 0, 6), 14);
    assert_eq!(words.fetch_or(&mut seat, 0, 9), 6);
    assert_eq!(words.swap(&mut seat, 0, 1), 15);
    assert_eq!(words.compare_exchange(&mut seat, 0, 2, 7), 1);
    assert_eq!(words.load(&mut seat, 0), 1);
    assert_eq!(words.compare_exchange(&mut seat, 0, 1, 7), 1);
    assert_eq!(words.load(&mut seat, 0), 7);
    assert_eq!(words.fetch_add(&mut seat, 1, 2), u64::MAX);
    assert_eq!(words.fetch_sub(&mut seat, 1, 2), 1);
    assert_eq!(words.load(&mut seat, 1), u64::MAX);
    table.close_with(seat).free();
}

#[test]
#[should_panic(expected = "index out of bounds")]
fn a_word_that_is_not_there() {
    let (table, mut seat) = Table::of_words(&[1, 2, 3]).unwrap();
    table.shared.load(&mut seat, 3);
}

#[test]
fn random_steps_beside_a_list() {
    for seed in 1..200 {
        let mut numbers = Numbers::from(seed);
        let mut list: Vec<u64> = (0..1 + numbers.below(5)).map(|_| numbers.next()).collect();
        let (table, mut first) = Table::of_words(&list).unwrap();
        let mut second = table.shared.split_seat(&mut first);
        for _ in 0..500 {
            let seat = if numbers.below(2) == 0 { &mut first } else { &mut second };
            let word = numbers.below(list.len() as u64) as usize;
            let value = if numbers.below(4) == 0 { list[word] } else { numbers.next() >> numbers.below(64) };
            match numbers.below(8) {
                0 => {
                    table.shared.store(seat, word, value);
                    list[word] = value;
                }
                1 => {
                    let old = if numbers.below(2) == 0 { list[word] } else { value };
                    assert_eq!(table.shared.compare_exchange(seat, word, old, value), list[word]);
                    list[word] = if list[word] == old { value } else { list[word] };
                }
                kind => {
                    let (step, leaves) = STEPS[kind as usize % STEPS.len()];
                    assert_eq!(step(&table.shared, seat, word, value), list[word]);
                    list[word] = leaves(list[word], value);
                }
            }
            assert_eq!(table.shared.load(seat, word), list[word]);
        }
        table.shared.join_seat(&mut first, second);
        table.close_with(first).free();
    }
}

/// Does this in a thread for each seat, and joins them one by one: that is an order that the sanitizer of threads sees.
fn joined(seats: &mut [Seat], work: impl Fn(&mut Seat) + Sync) {
    thread::scope(|scope| {
        let threads: Vec<_> = seats.iter_mut().map(|seat| scope.spawn(|| work(seat))).collect();
        threads.into_iter().for_each(|thread| thread.join().unwrap());
    });
}

#[test]
fn threads_count() {
    let (table, mut seat) = Table::of_words(&[0, 0]).unwrap();
    let mut seats: Vec<Seat> = (0..4).map(|_| table.shared.split_seat(&mut seat)).collect();
    let words = &table.shared;
    joined(&mut seats, |seat| {
        for round in 0..20_000 {
            words.fetch_add(seat, 0, round % 3);
            let mut found = words.load(seat, 1);
            loop {
                match words.compare_exchange(seat, 1, found, found + 1) {
                    now if now == found => break,
                    now => found = now,
                }
            }
        }
    });
    assert_eq!(table.shared.load(&mut seat, 0), 4 * (0..20_000).map(|round| round % 3).sum::<u64>());
    assert_eq!(table.shared.load(&mut seat, 1), 80_000);
}

/// Two numbers that are equal for a thread that has the lock: plain memory.
struct Pair(UnsafeCell<[u64; 2]>);

#[allow(unsafe_code)]
// SAFETY: the lock of `a_lock_orders_plain_memory` lets one thread at a time at it.
unsafe impl Sync for Pair {}

/// A lock by one exchange and one store: what a thread wrote under it the next one reads, by the order of the steps.
#[test]
#[allow(unsafe_code)]
fn a_lock_orders_plain_memory() {
    let (table, mut seat) = Table::of_words(&[0]).unwrap();
    let mut seats: Vec<Seat> = (0..4).map(|_| table.shared.split_seat(&mut seat)).collect();
    let (pair, torn) = (Pair(UnsafeCell::new([0; 2])), AtomicBool::new(false));
    let (words, pair, torn) = (&table.shared, &pair, &torn);
    joined(&mut seats, |seat| {
        for _ in 0..5_000 {
            while words.swap(seat, 0, 1) == 1 {
                thread::yield_now();
            }
            // SAFETY: the exchange was won, so no other thread is here until the store.
            let both = unsafe { &mut *pair.0.get() };
            both[0] += 1;
            torn.fetch_or(both[0] != both[1] + 1, Ordering::Relaxed);
            both[1] += 1;
            words.store(seat, 0, 0);
        }
    });
    assert!(!torn.load(Ordering::Relaxed));
    // SAFETY: the threads are joined.
    assert_eq!(unsafe { *pair.0.get() }, [20_000; 2]);
}
