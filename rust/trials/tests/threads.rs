//! The stand-in for std::thread: values that threads give, and panics.

use blkq::erased::thread::{TrySpawn, join, scope};
use std::panic::{AssertUnwindSafe, catch_unwind, resume_unwind};
use std::sync::atomic::{AtomicU32, Ordering};

#[test]
fn values_come_back() {
    let base = [1, 2, 3];
    let sum: i32 = scope(|scope| {
        let threads: Vec<_> = base.iter().map(|number| scope.try_spawn(move || number * 10).unwrap()).collect();
        threads.into_iter().map(|thread| thread.join()).sum()
    });
    assert_eq!(sum, 60);
}

#[test]
fn a_scope_waits_for_threads_that_nobody_joins() {
    let count = AtomicU32::new(0);
    scope(|scope| {
        for _ in 0..4 {
            drop(scope.try_spawn(|| count.fetch_add(1, Ordering::Relaxed)).unwrap());
        }
    });
    assert_eq!(count.into_inner(), 4);
}

/// The join panics, and so does the scope, as std's do.
#[test]
fn a_panic_comes_to_the_thread_that_joins() {
    let mut joined = None;
    let ended = catch_unwind(AssertUnwindSafe(|| {
        scope(|scope| {
            let thread = scope.try_spawn(|| -> u32 { resume_unwind(Box::new("a thread's")) }).unwrap();
            joined = Some(catch_unwind(AssertUnwindSafe(|| thread.join())).is_err());
        });
    }));
    assert_eq!((joined, ended.is_err()), (Some(true), true));
}

#[test]
fn both_are_joined() {
    assert_eq!(join(|| 1, || "two"), (1, "two"));
    assert!(catch_unwind(|| join(|| -> u32 { resume_unwind(Box::new("the first")) }, || 2)).is_err());
}
