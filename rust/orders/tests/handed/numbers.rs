//! Numbers that the turns have in another form.

use orders::turns;
use real::sync::OnceLock;
use real::sync::atomic::Ordering;

/// A number that a constant can have.
#[derive(Debug)]
pub struct AtomicUsize {
    first: usize,
    number: OnceLock<turns::AtomicUsize>,
}

impl AtomicUsize {
    pub const fn new(first: usize) -> AtomicUsize {
        AtomicUsize { first, number: OnceLock::new() }
    }

    fn number(&self) -> &turns::AtomicUsize {
        self.number.get_or_init(|| turns::AtomicUsize::new(self.first))
    }

    #[track_caller]
    pub fn load(&self, order: Ordering) -> usize {
        self.number().load(order)
    }

    #[track_caller]
    pub fn fetch_add(&self, more: usize, order: Ordering) -> usize {
        self.number().fetch_add(more, order)
    }

    #[track_caller]
    pub fn fetch_sub(&self, less: usize, order: Ordering) -> usize {
        self.number().fetch_sub(less, order)
    }
}

/// The numbers by which a queue counts tries; it has no others of 32 bits. Each look has one try, since more differ in nothing but time:
/// a number is as it was made, and 1 at most.
#[derive(Debug)]
pub struct AtomicU32(u32);

impl AtomicU32 {
    pub const fn new(first: u32) -> AtomicU32 {
        AtomicU32(first)
    }

    pub fn load(&self, _order: Ordering) -> u32 {
        self.0.min(1)
    }

    pub fn store(&self, _number: u32, _order: Ordering) {}
}
