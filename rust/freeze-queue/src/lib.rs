//! A request queue whose limits change while threads submit, for authors of storage services, block devices and drivers.
//!
//! A request enters ([`Queue::enter`]), reads the limits, cuts itself into pieces by them ([`Request::pieces`]), and leaves when it is
//! dropped. A change ([`Queue::update`], or [`Queue::freeze`]) freezes the queue: new requests wait, those in flight drain, the limits are
//! set, and the queue thaws. So each request has one setting from entering to leaving. Linux: `blk_mq_freeze_queue`.
//!
//! ```
//! use freeze_queue::{Limits, Queue};
//! use std::thread;
//!
//! let queue = Queue::new(Limits::of_hardware(64))?; // sectors
//! thread::scope(|threads| {
//!     for _ in 0..2 {
//!         threads.spawn(|| {
//!             let mut tag = queue.tag().unwrap(); // one request in flight at a time
//!             let request = queue.enter(&mut tag).unwrap();
//!             for piece in request.pieces(1000, 100).unwrap() {
//!                 assert!(piece.sectors <= request.limits().max); // all pieces by one setting
//!             }
//!         });
//!     }
//!     queue.update(|limits| limits.with_max(8)).unwrap(); // frozen and drained meanwhile
//! });
//! println!("at most {} sectors", queue.limits().max);
//! # assert_eq!(queue.limits().max, 8);
//! # Ok::<(), Box<dyn std::error::Error>>(())
//! ```
//!
//! As long as the queue isn't frozen, and [`watch`](Queue::watch) is off, a thread that has a tag enters and leaves without a lock.
//! After its first request a tag is *biased*: until the next freeze it enters and leaves by a store and a load each, on a cache line
//! of its own. A freeze takes the bias away, even from a tag whose thread sleeps or has ended. A request whose bias was taken while
//! it was in flight takes the lock once, when it leaves. [`enter_any`](Queue::enter_any) costs two atomic exchanges more: one to take
//! the tag, one to return it.
//!
#![doc = include_str!("freeze_in_time.svg")]
//!
//! | a request | now, or wait | with a timeout | as a task | gives |
//! |---|---|---|---|---|
//! | with the thread's own tag | [`try_enter`](Queue::try_enter), [`enter`](Queue::enter) | [`enter_timeout`](Queue::enter_timeout) | [`enter_async`](Queue::enter_async) | [`Request`] |
//! | that takes its tag along | [`try_enter_owned`](Queue::try_enter_owned), [`enter_owned`](Queue::enter_owned) | [`enter_owned_timeout`](Queue::enter_owned_timeout) | [`enter_owned_async`](Queue::enter_owned_async) | [`OwnedRequest`] |
//! | with any free tag | [`try_enter_any`](Queue::try_enter_any), [`enter_any`](Queue::enter_any) | [`enter_any_timeout`](Queue::enter_any_timeout) | [`enter_any_async`](Queue::enter_any_async), [`enter_any_owned_async`](Queue::enter_any_owned_async) | [`OwnedRequest`] |
//! | of a queue that may be frozen, until it is drained | [`try_enter_frozen`](Queue::try_enter_frozen) | | | [`Request`] |
//! | the same, taking its tag along | [`try_enter_frozen_owned`](Queue::try_enter_frozen_owned) | | | [`OwnedRequest`] |
//!
//! | a change | now | wait | with a timeout | as a task |
//! |---|---|---|---|---|
//! | of the limits | | [`update`](Queue::update) | [`update_timeout`](Queue::update_timeout) | [`update_async`](Queue::update_async) |
//! | of the value | | [`update_value`](Queue::update_value) | [`update_value_timeout`](Queue::update_value_timeout) | [`update_value_async`](Queue::update_value_async) |
//! | a freeze, which nests | [`begin_freeze`](Queue::begin_freeze), [`try_freeze`](Queue::try_freeze) | [`freeze`](Queue::freeze) | [`freeze_timeout`](Queue::freeze_timeout) | [`freeze_async`](Queue::freeze_async) |
//! | the device's end | [`mark_dying`](Queue::mark_dying) | [`shut_down`](Queue::shut_down) | [`shut_down_timeout`](Queue::shut_down_timeout) | [`shut_down_async`](Queue::shut_down_async) |
//!
//! A [`Queue<T>`](Queue) guards a value ([`Builder::value`]): a request derefs to T, a freeze lends `&mut T` ([`OwnedFrozen::lock`]).
//!
//! # Where to keep a tag
//!
//! A thread that submits often keeps a tag: in a local variable, in a struct beside the queue, or in a thread-local
//! (`examples/keeping.rs` has each). Threads that come and go take any free tag for each request ([`enter_any`](Queue::enter_any)); with
//! rayon, `map_init(|| queue.tag().unwrap(), ..)` gives each job a tag. A task keeps its tag like any other value, and may hold a request
//! across an `.await`. It hands an owned request to a task that it spawns.
//!
//! A struct can't hold a tag and the request that borrows it. Let the request own the tag:
//!
//! ```compile_fail
//! use freeze_queue::{Queue, Request, Tag};
//!
//! struct Write<'q> { queue: &'q Queue, tag: Tag, request: Option<Request<'q>> }
//!
//! impl<'q> Write<'q> {
//!     fn begin(&mut self) {
//!         self.request = self.queue.enter(&mut self.tag).ok(); // the request outlives the borrow of `self`
//!     }
//! }
//! ```
//!
//! ```
//! use freeze_queue::{Limits, OwnedRequest, Queue};
//!
//! struct Write { request: OwnedRequest, start: u64 } // from `enter_owned(tag)` or `enter_any()`
//!
//! let queue = Queue::new(Limits::of_hardware(64))?;
//! let write = Write { request: queue.enter_any()?, start: 8 };
//! assert_eq!(write.request.pieces(write.start, 100)?.count(), 2);
//! # Ok::<(), Box<dyn std::error::Error>>(())
//! ```
//!
//! While a request borrows the tag of `self`, no method takes `&mut self`. Use the other fields, or give the method what it needs:
//!
//! ```compile_fail
//! use freeze_queue::{EnterError, Queue, Tag};
//!
//! struct Writer { queue: Queue, tag: Tag, log: Vec<u64> }
//!
//! impl Writer {
//!     fn write(&mut self, start: u64) -> Result<(), EnterError> {
//!         let request = self.queue.enter(&mut self.tag)?;
//!         self.note(start); // borrows all of `self`; `self.log.push(start)` borrows one field
//!         drop(request);
//!         Ok(())
//!     }
//!
//!     fn note(&mut self, start: u64) {
//!         self.log.push(start);
//!     }
//! }
//! ```
//!
//! # Waiting
//!
//! Threads wait for a thaw or a drain with `std`'s condition variables, after up to 4 µs of polling; a thread in a line waits in
//! `thread::park`. Tasks wait on any executor. Dropping a future gives up its wait. Threads and tasks stand in one line for a tag,
//! and in one for the turn to update. No waker runs under a lock. If a waker panics, the other waiters are still woken, and the panic
//! continues in the call that woke them. A waker may call this crate. If that call wakes other tasks, they are woken only after the
//! waker has returned, so a waker must not block on them. (Executors' wakers don't.)
//!
//! A thread blocks for long only in `enter`, `enter_owned`, `enter_any`, `freeze`, `wait`, `update`, `shut_down`, their forms with a
//! timeout, and [`OwnedFrozen::lock`]. Any other call, and the drop of a tag, a request or a freeze, may wait briefly for a lock,
//! which is never held while the queue drains. [`remove`](Queue::remove) may also sleep briefly, until another thread has finished
//! giving back a tag or thawing.
//!
//! # What waits forever
//!
//! These wait forever, on a thread and as a task. (The forms with a timeout return when it expires.)
//!
//! - `freeze`, `update` or `shut_down`, if the caller holds a request of the same queue, or if two threads or tasks each hold a request
//!   of the queue that the other freezes. In `match queue.enter(&mut tag)?.limits().max { .. }` the request is held to the end of the
//!   `match`, and in `assert!(queue.enter_any().is_ok())` or an argument of `println!` to the end of the statement.
//! - `enter`, `enter_owned` or `enter_any`, if the caller holds a freeze.
//! - `enter`, `enter_owned` or `enter_any`, if the caller holds a request and a freeze begins meanwhile: the freeze waits for the
//!   request, and the call waits for the thaw. [`Queue::try_enter_frozen`] enters at once.
//! - The same calls, if the request is of another queue and somebody freezes both ([`Queue::begin_freeze`] on each) before waiting.
//! - `enter`, `enter_owned` or `enter_any` on a thread that a request in flight needs in order to complete, for example a worker that
//!   gets requests through a channel, if a freeze begins meanwhile. On these threads enter by `try_enter`, `try_enter_any` or
//!   `try_enter_frozen`, or not at all.
//! - `enter_any`, if the caller holds all tags that aren't reserved.
//! - A wait for a request, a tag, a freeze or a value that was leaked (`mem::forget`).
//! - A wait for a future that was polled once, and is neither polled again nor dropped: it may have a tag, a freeze or the turn to
//!   update.
//! - A blocking call in a task, if another task of the same executor has what the call waits for, and no other thread runs that task.
//!   Use the `_async` form.
//!
//! If a drain hangs, [`Queue::in_flight`] lists the requests, and if a thaw doesn't come, [`Queue::frozen_by`] the freezes.
//!
//! # What is proved
//!
//! The queue's atomic steps (`src/erased`, only for crates of this repository) are generated from sources with contracts that are
//! proved for every interleaving of sequentially consistent steps. The steps of biased tags are weaker here, and a barrier,
//! `membarrier(2)`, makes up for that. This is an assumption: `docs/PROOF.md` argues for it for one request beside one freeze; whole
//! runs are tested. The code around the steps, including
//! the waits, and the generator are tested, not proved. The types exclude most misuse, and an error reports the rest. Four files
//! have `unsafe`: `src/lent.rs`, `src/value.rs`, and two of `src/erased`.
#![deny(unsafe_code)] // except in these files
#![expect(clippy::inline_always, reason = "a call that isn't inlined would pass the request through memory")]

extern crate alloc;

/// The example of the page beside the crate.
#[cfg(doctest)]
#[doc = include_str!("../README.md")]
mod readme {}

/// Misuse that doesn't compile.
#[cfg(doctest)]
#[doc = include_str!("../tests/misuse.md")]
mod misuse {}

mod body;
mod builder;
mod counts;
mod enter_any;
#[doc(hidden)]
pub mod erased;
mod errors;
mod excluded;
mod freezing;
mod frozen;
mod frozen_by;
mod handed_back;
mod in_flight;
mod lent;
mod limits;
mod line;
mod locked;
mod outcomes;
mod owned;
mod patience;
mod pause;
mod pieces;
mod places;
mod queue;
mod request;
mod seats;
mod shared;
mod shows;
mod sync;
mod tag;
mod tasks;
mod threads;
mod turns;
mod value;
mod waits;

pub use builder::Builder;
pub use counts::Stats;
pub use errors::{EnterError, FreezeError, LimitsError, NewError, RemoveError, UpdateError};
pub use freezing::{Freezing, OwnedFreezing};
pub use frozen::{Frozen, OwnedFrozen};
pub use frozen_by::FrozenBy;
pub use handed_back::HandedBack;
pub use in_flight::InFlight;
pub use limits::Limits;
pub use outcomes::Final;
pub use owned::OwnedRequest;
pub use pieces::{Piece, Pieces};
pub use queue::Queue;
pub use request::Request;
pub use tag::Tag;
pub use value::Alone;
