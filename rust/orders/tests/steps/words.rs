//! Atomic numbers and fences that note each step of this thread.
use std::cell::{Cell, RefCell};
use std::sync::atomic::{self, Ordering};

thread_local!(static STEPS: RefCell<String> = const { RefCell::new(String::new()) });

thread_local! {
    /// What runs behind the next store of this thread.
    static BEHIND_STORE: Cell<Option<Box<dyn FnOnce()>>> = const { Cell::new(None) };
}

/// Runs a closure behind the next store of this thread, as another thread might.
pub fn behind_the_next_store(run: impl FnOnce() + 'static) {
    BEHIND_STORE.set(Some(Box::new(run)));
}

fn note(step: char) {
    STEPS.with_borrow_mut(|steps| steps.push(step));
}

/// Returns the steps of this thread since the last call of this: a letter for each load, store, exchange without a condition (`w`), exchange
/// with one (`x`) and fence, and the sign of an operator for each other step.
pub fn steps() -> String {
    STEPS.take()
}

#[derive(Debug)]
pub struct AtomicU64(atomic::AtomicU64);

impl AtomicU64 {
    pub const fn new(value: u64) -> AtomicU64 {
        AtomicU64(atomic::AtomicU64::new(value))
    }

    pub fn load(&self, order: Ordering) -> u64 {
        note('l');
        self.0.load(order)
    }

    pub fn store(&self, value: u64, order: Ordering) {
        note('s');
        self.0.store(value, order);
        if let Some(run) = BEHIND_STORE.take() {
            run();
        }
    }

    pub fn swap(&self, value: u64, order: Ordering) -> u64 {
        note('w');
        self.0.swap(value, order)
    }

    pub fn fetch_add(&self, more: u64, order: Ordering) -> u64 {
        note('+');
        self.0.fetch_add(more, order)
    }

    pub fn fetch_sub(&self, less: u64, order: Ordering) -> u64 {
        note('-');
        self.0.fetch_sub(less, order)
    }

    pub fn fetch_and(&self, bits: u64, order: Ordering) -> u64 {
        note('&');
        self.0.fetch_and(bits, order)
    }

    pub fn fetch_or(&self, bits: u64, order: Ordering) -> u64 {
        note('|');
        self.0.fetch_or(bits, order)
    }

    pub fn compare_exchange(&self, old: u64, new: u64, won: Ordering, lost: Ordering) -> Result<u64, u64> {
        note('x');
        self.0.compare_exchange(old, new, won, lost)
    }
}

/// The fences. The process has a heavy one, which no thread of these tests needs.
pub mod fences {
    pub fn light_fence() {}

    pub fn has_heavy_fence() -> bool {
        true
    }

    pub fn heavy_fence() {
        super::note('f');
    }
}
