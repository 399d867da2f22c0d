//! Tests which calls of the crate wake sleeping threads, that needless wakes end no wait, that a call has one deadline, whom updates let in, and
//! on which slots requests count. The crate's own files are compiled again here, over conditions that count and over a gate that logs.
#![allow(
    dead_code,
    unused_imports,
    unsafe_code,
    unfulfilled_lint_expectations,
    missing_docs,
    missing_debug_implementations,
    clippy::all,
    clippy::pedantic
)]

extern crate alloc;

#[path = "../slots/erased.rs"]
mod erased;
#[path = "../../src"]
mod files {
    pub(crate) mod body;
    pub(crate) mod builder;
    pub(crate) mod counts;
    pub(crate) mod enter_any;
    pub(crate) mod errors;
    pub(crate) mod excluded;
    pub(crate) mod freezing;
    pub(crate) mod frozen;
    pub(crate) mod frozen_by;
    pub(crate) mod handed_back;
    pub(crate) mod in_flight;
    pub(crate) mod lent;
    pub(crate) mod limits;
    pub(crate) mod line;
    pub(crate) mod locked;
    pub(crate) mod outcomes;
    pub(crate) mod owned;
    pub(crate) mod patience;
    pub(crate) mod pause;
    pub(crate) mod pieces;
    pub(crate) mod places;
    pub(crate) mod queue;
    pub(crate) mod request;
    pub(crate) mod seats;
    pub(crate) mod shared;
    pub(crate) mod shows;
    pub(crate) mod tag;
    pub(crate) mod tasks;
    pub(crate) mod threads;
    pub(crate) mod turns;
    pub(crate) mod value;
    pub(crate) mod waits;
}
#[path = "../shared/mod.rs"]
mod common;
mod deadlines;
#[path = "../slots/gate.rs"]
pub mod gate;
mod let_in;
mod requests;
mod sleeps;
mod sync;

use errors::*;
use files::{
    body, builder, counts, enter_any, errors, excluded, freezing, frozen, frozen_by, handed_back, in_flight, lent,
    limits, line, locked, outcomes, owned, patience, pause, pieces, places, queue, request, seats, shared, shows, tag,
    tasks, threads, turns, value, waits,
};
use freezing::{Freezing, OwnedFreezing};
use frozen::{Frozen, OwnedFrozen};
use handed_back::HandedBack;
use in_flight::InFlight;
use limits::Limits;
use outcomes::Final;
use owned::OwnedRequest;
use queue::Queue;
use request::Request;
use tag::Tag;
