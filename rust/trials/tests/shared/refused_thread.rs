//! The allocator of a test whose calls are all on one thread. It refuses allocations of that thread on request, and counts its blocks
//! and their bytes.

use std::cell::Cell;

#[path = "refusing.rs"]
mod refusing;
use refusing::Refusing;

thread_local! {
    /// The number of allocations that succeed before a refused one. `None`: none is refused.
    pub static ALLOWED: Cell<Option<u64>> = const { Cell::new(None) };
    /// Whether only one allocation is refused, and not all later ones too.
    pub static IS_ONE: Cell<bool> = const { Cell::new(false) };
    /// Number of blocks in use.
    pub static BLOCKS: Cell<i64> = const { Cell::new(0) };
    /// Number of their bytes.
    pub static BYTES: Cell<i64> = const { Cell::new(0) };
}

fn is_refused() -> bool {
    match ALLOWED.get() {
        Some(0) => {
            if IS_ONE.get() {
                ALLOWED.set(None);
            }
            true
        }
        Some(left) => {
            ALLOWED.set(Some(left - 1));
            false
        }
        None => false,
    }
}

#[global_allocator]
static ALLOCATOR: Refusing = Refusing {
    is_refused,
    count: |blocks, bytes| {
        BLOCKS.set(BLOCKS.get() + blocks);
        BYTES.set(BYTES.get() + bytes);
    },
};
