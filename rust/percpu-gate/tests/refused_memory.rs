//! Refuses each allocation in turn: the call returns an ordinary error, nothing is lost and nothing leaks.
//! (This program has its own allocator, which refuses and counts on one thread, so it has `unsafe`.)
#![allow(unsafe_code)]

use percpu_gate::{Gate, NewError, OnLast, Start};
use std::alloc::{GlobalAlloc, Layout, System};
use std::cell::Cell;
use std::ptr;
use std::sync::Arc;

thread_local! {
    /// The number of allocations that succeed before one is refused. `None`: none is refused.
    static ALLOWED: Cell<Option<u64>> = const { Cell::new(None) };
    /// Number of allocations.
    static ASKED: Cell<u64> = const { Cell::new(0) };
    /// Number of blocks in use.
    static BLOCKS: Cell<i64> = const { Cell::new(0) };
}

/// The system's allocator, which refuses and counts.
struct Refusing;

// SAFETY: each block is the system's, of the same layout; a refusal is null, as the trait has it.
unsafe impl GlobalAlloc for Refusing {
    unsafe fn alloc(&self, layout: Layout) -> *mut u8 {
        ASKED.set(ASKED.get() + 1);
        match ALLOWED.get() {
            Some(0) => return ptr::null_mut(),
            Some(left) => ALLOWED.set(Some(left - 1)),
            None => {}
        }
        // SAFETY: the caller meets the precondition, which is the same.
        let at = unsafe { System.alloc(layout) };
        BLOCKS.set(BLOCKS.get() + i64::from(!at.is_null()));
        at
    }

    unsafe fn dealloc(&self, at: *mut u8, layout: Layout) {
        BLOCKS.set(BLOCKS.get() - 1);
        // SAFETY: the block is the system's, of this layout.
        unsafe { System.dealloc(at, layout) }
    }
}

#[global_allocator]
static ALLOCATOR: Refusing = Refusing;

/// Returns the result of a call if this many allocations succeed and the next one fails.
fn after<T>(allowed: u64, call: impl FnOnce() -> T) -> T {
    ALLOWED.set(Some(allowed));
    let answer = call();
    ALLOWED.set(None);
    answer
}

fn end(mut control: Gate, pass: percpu_gate::Pass) {
    control.retire(pass).unwrap();
    assert_eq!(control.exit().unwrap().words, [3; 8]);
}

/// Refuses each allocation except the last, the `Arc` that the control and its passes share, whose failure stable Rust can't report.
#[test]
fn each_allocation_refused() {
    let on_last: OnLast = Arc::new(|| {});
    let new = || Gate::new(512, 2, Start::Slots, [3; 8], Arc::clone(&on_last));
    let (asked, blocks) = (ASKED.get(), BLOCKS.get());
    let mut control = new().unwrap();
    let asked = ASKED.get() - asked;
    assert!(asked > 2, "a gate takes more than two allocations");
    for allowed in 0..asked - 1 {
        let blocks = BLOCKS.get();
        assert_eq!(after(allowed, new).unwrap_err(), NewError::NoMemory);
        assert_eq!(BLOCKS.get(), blocks);
    }
    let pass = after(0, || control.next_pass(0).unwrap());
    assert_eq!(pass.try_get_live().map(|reference| reference.words()), Ok([3; 8]));
    end(control, pass);
    assert_eq!((BLOCKS.get(), Arc::strong_count(&on_last)), (blocks, 1), "nothing leaks");
}

/// Only `Gate::new` allocates, and the end doesn't.
#[test]
fn the_rest_needs_no_memory() {
    let on_last: OnLast = Arc::new(|| {});
    let blocks = BLOCKS.get();
    let mut control = Gate::new(4, 3, Start::Slots, [3; 8], Arc::clone(&on_last)).unwrap();
    let pass = control.next_pass(3).unwrap();
    after(0, || {
        let held = pass.try_get_live().unwrap();
        control.kill_and_confirm(|_| ()).unwrap();
        drop(held.try_clone().unwrap());
        drop(held.get_many(7).unwrap());
        drop(held);
        control.store_word(percpu_gate::Word::ALL[0], 3).unwrap();
        control.reinit().unwrap();
        control.switch_to_atomic();
        for _ in 0..10 {
            let other = control.next_pass(0).unwrap();
            control.retire(other).unwrap();
        }
        let request = pass.into_reference_live().unwrap();
        end(control, request.put());
    });
    assert_eq!(BLOCKS.get(), blocks, "nothing leaks");
}

/// Dropping instead of ending leaks nothing: a pass after its control, and a pass with a leaked reference.
#[test]
fn what_is_dropped_is_freed() {
    let on_last: OnLast = Arc::new(|| {});
    let blocks = BLOCKS.get();
    let mut control = Gate::new(4, 3, Start::Slots, [3; 8], Arc::clone(&on_last)).unwrap();
    let (pass, other) = (control.next_pass(3).unwrap(), control.next_pass(0).unwrap());
    std::mem::forget(pass.try_get_live().unwrap());
    drop(other.into_reference_live().unwrap());
    drop(control);
    drop(pass);
    assert_eq!((BLOCKS.get(), Arc::strong_count(&on_last)), (blocks, 1));
}
