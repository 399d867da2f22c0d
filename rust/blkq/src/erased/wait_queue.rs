// Erased from crates/wait_queue/src/lib.rt by tools/erase: edit that file.
//! Waiting for something that another thread does: announce the wait, try, and sleep only if the try failed.
//!
//! A thread that tries first and then announces its wait may sleep forever: what it waits for can happen between the two, and the
//! thread that did it looks for waiters, finds none, and wakes none. So the announcement comes before the try: then one of the two
//! threads sees the other. [`Tries`] has that order in one place, and a caller of [`WaitQueue::tries`] writes only the try:
//!
//! ```text
//! for _ in queue.tries(rt) {
//!     if try_it() {
//!         return;
//!     }
//! }
//! unreachable!()
//! ```
//!
//! and the other thread calls [`WaitQueue::wake_all`] or [`WaitQueue::wake_one`] afterwards. No contract says that a
//! sleeping thread is woken; tests of the callers show it.

mod tries;

pub use tries::{Tries, WaitQueue};
