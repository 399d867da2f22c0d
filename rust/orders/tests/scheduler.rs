//! The scheduler itself, on races whose orders are counted by hand.

use orders::erased::atomic_table::{Seat, Table};
use orders::erased::sync::{Condvar, Mutex};
use orders::{Fault, Orders, Race, at_once};

fn table() -> (Table, Seat) {
    at_once(|| Table::of_words(&[0, 0]).unwrap())
}

/// Two actors that add 1, by a load and a store each, or by one step.
struct Adding {
    by_one_step: bool,
}

impl Race for Adding {
    type Answer = u64;

    fn actors(&self) -> usize {
        3
    }

    fn act(&self, actor: usize) -> u64 {
        let (table, mut seat) = table();
        if actor == 2 {
            orders::join();
            return table.shared.load(&mut seat, 0);
        }
        if self.by_one_step {
            table.shared.fetch_add(&mut seat, 0, 1);
        } else {
            let seen = table.shared.load(&mut seat, 0);
            table.shared.store(&mut seat, 0, seen + 1);
        }
        0
    }
}

#[test]
fn a_lost_addition_is_seen() {
    let race = Adding { by_one_step: false };
    let found = Orders::of(&race).find().unwrap();
    // Two and two steps have 6 orders. In 2 of them one actor is behind the other.
    assert_eq!(found.interleavings, 6);
    let ways: Vec<_> = found.outcomes.iter().map(|(sums, it)| (sums[2], it.interleavings, it.steps)).collect();
    assert_eq!(ways, [(1, 4, 6), (2, 2, 6)]);
    // With no switch but those at an end the two come one behind the other; the sum is lost with one more.
    let found = Orders::of(&race).switches(0).find().unwrap();
    assert_eq!((found.interleavings, found.outcomes.len()), (2, 1));
    let found = Orders::of(&race).switches(1).find().unwrap();
    assert_eq!(found.outcomes.keys().map(|sums| sums[2]).collect::<Vec<_>>(), [1, 2]);
}

#[test]
fn an_addition_by_one_step_is_not_lost() {
    let found = Orders::of(&Adding { by_one_step: true }).find().unwrap();
    assert_eq!((found.interleavings, found.outcomes.len()), (2, 1));
}

/// Two actors that take two locks, in the same order or not.
struct Locking {
    in_order: bool,
}

impl Race for Locking {
    type Answer = u32;

    fn actors(&self) -> usize {
        2
    }

    fn act(&self, actor: usize) -> u32 {
        let locks = at_once(|| {
            let locks = [Mutex::new(0), Mutex::new(0)];
            for lock in &locks {
                drop(lock.lock());
            }
            locks
        });
        let first = if self.in_order { 0 } else { actor };
        let mut one = locks[first].lock();
        let mut other = locks[1 - first].lock();
        *one += 1;
        *other += 1;
        *one
    }
}

#[test]
fn a_deadlock_is_seen() {
    let found = Orders::of(&Locking { in_order: true }).find().unwrap();
    assert_eq!(found.outcomes.keys().collect::<Vec<_>>(), [&[1, 2], &[2, 1]]);
    let Err(Fault::Stuck(schedule)) = Orders::of(&Locking { in_order: false }).find() else {
        panic!("each has the other's lock");
    };
    assert_eq!(schedule.len(), 2, "{schedule:?}");
}

/// One actor that waits for a flag, and another that sets it and notifies, with or without the lock.
struct Waiting {
    looks_under_the_lock: bool,
}

impl Race for Waiting {
    type Answer = ();

    fn actors(&self) -> usize {
        2
    }

    fn act(&self, actor: usize) {
        let (flag, condition) = at_once(|| {
            let (flag, condition) = (Mutex::new(false), Condvar::new());
            drop(flag.lock());
            condition.notify_all();
            (flag, condition)
        });
        if actor == 1 {
            *flag.lock() = true;
            condition.notify_one();
        } else if self.looks_under_the_lock {
            let mut is_set = flag.lock();
            while !*is_set {
                is_set = condition.wait(is_set);
            }
        } else if !*flag.lock() {
            drop(condition.wait(flag.lock()));
        }
    }
}

#[test]
fn a_lost_wake_is_seen() {
    Orders::of(&Waiting { looks_under_the_lock: true }).find().unwrap();
    let found = Orders::of(&Waiting { looks_under_the_lock: false }).find();
    assert!(matches!(found, Err(Fault::Stuck(_))), "{found:?}");
}

/// An actor that panics where the other comes first, while it holds a lock.
struct Panicking;

impl Race for Panicking {
    type Answer = ();

    fn actors(&self) -> usize {
        2
    }

    fn act(&self, actor: usize) {
        let (table, mut seat) = table();
        let lock = at_once(|| {
            let lock = Mutex::new(0);
            drop(lock.lock());
            lock
        });
        let _held = lock.lock();
        assert!(table.shared.fetch_add(&mut seat, 0, 1) <= actor as u64, "the other came first");
    }
}

#[test]
fn a_panic_is_told_with_its_schedule() {
    let Err(Fault::Panicked(why, schedule)) = Orders::of(&Panicking).find() else {
        panic!("a panic");
    };
    assert_eq!((why.as_str(), schedule.len()), ("the other came first", 5), "{schedule:?}");
    assert!(matches!(Orders::of(&Panicking).states(1).find(), Err(Fault::TooMany)));
}
