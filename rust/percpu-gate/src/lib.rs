//! A reference count for something that may go away while requests use it, for example a device.
//!
//! Each request takes a reference ([`Pass::try_get_live`]) and drops it ([`Reference`]) when it is done. To remove the device, kill the
//! gate ([`Gate::kill`]): new requests are refused, and when the last reference is gone, `on_last` is called, once.
//! Linux has the same in `percpu_ref` (lib/percpu-refcount.c).
//!
//! ```
//! use percpu_gate::{Gate, Start};
//! use std::sync::Arc;
//! use std::thread;
//!
//! // A device that is removed while two threads use it: whoever drops the last reference powers it off.
//! let power_off = Arc::new(|| println!("powered off"));
//! let mut gate = Gate::new(2, 2, Start::Slots, [0; 8], power_off)?;
//! let passes = [gate.next_pass(0)?, gate.next_pass(1)?]; // each on a slot of its own
//! let threads = passes.map(|pass| thread::spawn(move || {
//!     while let Ok(_reference) = pass.try_get_live() {
//!         // The device stays while the reference is there.
//!     }
//!     pass
//! }));
//! gate.kill()?;
//! for thread in threads {
//!     gate.retire(thread.join().unwrap())?;
//! }
//! assert_eq!(gate.exit()?.releases, 1);
//! # Ok::<(), Box<dyn std::error::Error>>(())
//! ```
//!
//! # A gate's parts
//!
//! A gate has one [`Gate`] and 1 to 1,024 [`Pass`]es. Each thread counts with its own pass, on its own slot.
//! Threads may share a slot, which is slower. Unlike in `percpu_ref`, a reference belongs to the pass that took it; a
//! request that ends on another thread takes its pass along ([`OwnedReference`]). Threads may come and go: retire the pass of a
//! thread that ends ([`Gate::retire`]), and the gate can give it out again.
//!
//! A gate also has eight guarded words, for settings. Its owner stores them while the gate is dead and at zero
//! ([`Gate::store_word`]), and threads with a pass read them under a reference ([`Reference::word`]). Therefore a request sees the
//! words of one setting, from its try to its drop. To change a setting, kill the gate, wait until `on_last` was called, store the
//! words, and call [`Gate::reinit`].
//!
//! ```
//! use percpu_gate::{Gate, Start, Word};
//! use std::sync::{Arc, Condvar, Mutex};
//!
//! const SECTOR_LIMIT: Word = Word::new(0).unwrap();
//! let released = Arc::new((Mutex::new(0), Condvar::new()));
//! let count = Arc::clone(&released);
//! let on_last = Arc::new(move || {
//!     *count.0.lock().unwrap() += 1;
//!     count.1.notify_all();
//! });
//! let mut gate = Gate::new(4, 4, Start::Slots, [512, 0, 0, 0, 0, 0, 0, 0], on_last)?;
//! let kills = 1;
//! gate.kill()?;
//! drop(released.1.wait_while(released.0.lock().unwrap(), |released| *released < kills).unwrap());
//! gate.store_word(SECTOR_LIMIT, 1024)?;
//! gate.reinit()?;
//! # assert_eq!(gate.words()[0], 1024);
//! # Ok::<(), Box<dyn std::error::Error>>(())
//! ```
//!
//! To guard a whole Rust value, such as a device, use [`guarded::Gate<T>`](guarded::Gate): a reference lends `&T`, a gate
//! that is dead and at zero lends `&mut T`, and the end returns T.
//!
//! No call waits, takes a lock or retries. Only [`Gate::new`] allocates. `on_last` sees all writes made before the
//! kill, and those that callers made while they held a reference. A caller that gets a reference after a revival sees all writes made
//! before the revival.
//!
//! # What is proved, and what isn't
//!
//! The steps of the gate are in `src/erased`. A program made this Rust by removing the contracts from proved sources. The contracts
//! are proved in every order of the atomic steps of all threads, for callers that meet the preconditions.
//!
//! These aren't proved: the program that removes the contracts, its stand-in for the words that threads change
//! (`src/erased/atomic_table.rs`), the Rust compiler, and this crate around the steps. The types of this crate enforce the preconditions:
//! most misuse doesn't compile, and misuse that types can't exclude returns an error. If the inner steps refuse something that the
//! types should have excluded, this crate has a bug, and panics.
//!
//! Only one file of 60 lines has `unsafe`: `src/guarded/value.rs`, with which a [`guarded::Gate<T>`](guarded::Gate) lends its T. A mistake
//! elsewhere could break the laws of the gate; it could break memory safety only for users of that type.
//!
//! The module `erased` is public only for the crates above this one, and isn't part of the stable API: its functions
//! trust their preconditions, so don't call them.
//!
//! The crate needs `alloc` and 64-bit atomics, and has no dependencies. Its one feature, `std`, is for the crates above
//! it, and for an [`OnLast`] that panics while its thread unwinds. Without `std` (`default-features = false`) the crate is `no_std`,
//! with the same API.
#![no_std]
#![deny(unsafe_code)] // except in guarded/value.rs

extern crate alloc;
#[cfg(any(test, feature = "std"))]
extern crate std;

#[cfg(not(target_has_atomic = "64"))]
compile_error!("percpu-gate counts by 64-bit atomics, which this target lacks");

/// Compiles the example in README.md.
#[cfg(doctest)]
#[doc = include_str!("../README.md")]
mod readme {}

/// Misuse that doesn't compile.
#[cfg(doctest)]
#[doc = include_str!("../tests/misuse.md")]
mod misuse {}

#[doc(hidden)]
pub mod erased;
mod errors;
mod gate;
pub mod guarded;
mod handed_back;
mod outcomes;
mod owned;
mod pass;
mod reference;
mod references;
mod shared;
mod start;
mod word;

pub use errors::{
    ExitError, GetError, KillError, NewError, NextPassError, ReinitError, ResurrectError, RetireError, SlotError,
    StoreError, TryGetError,
};
pub use gate::Gate;
pub use handed_back::HandedBack;
pub use outcomes::{Final, Killed, Phase, Revived};
pub use owned::OwnedReference;
pub use pass::Pass;
pub use reference::Reference;
pub use references::References;
pub use start::Start;
pub use word::Word;

use alloc::sync::Arc;
use shared::WORD_COUNT;

/// A function that is called once for each release, which is the last put after a kill. The call that makes this put calls the
/// function, on its thread, before it returns.
///
/// If the function panics, so does that call, and no other call calls the function for this release. If the thread is already
/// unwinding, the first panic continues. (Without the feature `std` the program ends then, as with any destructor that panics.)
///
/// ```
/// use percpu_gate::{Gate, OnLast, Start};
/// use std::sync::Arc;
/// use std::sync::atomic::{AtomicU32, Ordering};
///
/// let released = Arc::new(AtomicU32::new(0));
/// let count = Arc::clone(&released);
/// let on_last: OnLast = Arc::new(move || { count.fetch_add(1, Ordering::SeqCst); });
/// let mut gate = Gate::new(1, 1, Start::Slots, [0; 8], on_last)?;
/// gate.kill()?;
/// assert_eq!(released.load(Ordering::SeqCst), 1);
/// # Ok::<(), Box<dyn std::error::Error>>(())
/// ```
pub type OnLast = Arc<dyn Fn() + Send + Sync>;
