//! The crate freeze-queue itself, by its own files, over locks, conditions, atomic numbers and parked threads that take turns: every
//! order of three threads' steps, within a bound of switches. No wake is lost in any, and no value is lent twice.
//!
//! The files name what threads wait by through `crate::sync`, which is std's there, and the turns here.
#![allow(
    dead_code,
    unused_imports,
    unsafe_code,
    unfulfilled_lint_expectations,
    missing_docs,
    missing_debug_implementations,
    clippy::all,
    clippy::pedantic
)]

extern crate alloc;

#[path = "../shared/erased.rs"]
mod erased;
#[path = "../shared/words.rs"]
mod words;

/// The files of freeze-queue, where they are.
#[path = "../../../freeze-queue/src"]
mod files {
    pub(crate) mod body;
    pub(crate) mod builder;
    pub(crate) mod counts;
    pub(crate) mod enter_any;
    pub(crate) mod errors;
    pub(crate) mod excluded;
    pub(crate) mod freezing;
    pub(crate) mod frozen;
    pub(crate) mod frozen_by;
    pub(crate) mod handed_back;
    pub(crate) mod in_flight;
    pub(crate) mod lent;
    pub(crate) mod limits;
    pub(crate) mod line;
    pub(crate) mod locked;
    pub(crate) mod outcomes;
    pub(crate) mod owned;
    pub(crate) mod patience;
    pub(crate) mod pieces;
    pub(crate) mod places;
    pub(crate) mod queue;
    pub(crate) mod request;
    pub(crate) mod seats;
    pub(crate) mod shared;
    pub(crate) mod shows;
    pub(crate) mod tag;
    pub(crate) mod tasks;
    pub(crate) mod turns;
    pub(crate) mod value;
    pub(crate) mod waits;
}

use files::{
    body, builder, counts, enter_any, errors, excluded, freezing, frozen, frozen_by, handed_back, in_flight, lent,
    limits, line, locked, outcomes, owned, patience, pieces, places, queue, request, seats, shared, shows, tag, tasks,
    turns, value, waits,
};

mod sync {
    /// A thread that waits looks once before it announces that. A clock would tell each run of an order another number of looks.
    pub(crate) const MOST_PATIENCE: std::time::Duration = std::time::Duration::ZERO;

    pub(crate) use orders::turns::{AtomicU32, Condvar, Mutex, MutexGuard, Thread, current, park};

    /// Another thread may go on meanwhile.
    pub(crate) fn sleep(_time: std::time::Duration) {
        orders::turns::pause();
    }

    /// It may end at any moment, and its deadline doesn't pass.
    pub(crate) fn park_timeout(_patience: std::time::Duration) {
        orders::turns::pause();
    }
}

/// The slots of threads, by the numbers of actors, so that each run of an order is the same.
mod threads {
    pub(crate) use orders::turns::hint;

    pub(crate) fn note(_thread: u32, _from: usize) {}
}

/// How long tags stay unbiased after a change: no time, since a clock would tell each run of an order otherwise.
mod pause {
    pub(crate) struct Pause;

    #[derive(Default)]
    pub(crate) struct Pauses;

    impl Pause {
        pub(crate) fn new() -> Pause {
            Pause
        }

        pub(crate) fn now(&self) -> u64 {
            0
        }

        pub(crate) fn is_over(&self) -> bool {
            true
        }

        pub(crate) fn begins(&self, _pauses: &mut Pauses, _from: u64) {}
    }
}

#[path = "../shared/value.rs"]
mod plain_value;
mod races;

use errors::*;
use freezing::{Freezing, OwnedFreezing};
use frozen::{Frozen, OwnedFrozen};
use handed_back::HandedBack;
use in_flight::InFlight;
use limits::Limits;
use outcomes::Final;
use owned::OwnedRequest;
use queue::Queue;
use request::Request;
use tag::Tag;
