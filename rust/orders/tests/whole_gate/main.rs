//! The crate percpu-gate itself, by its own files, over atomic numbers that take turns: every order of three threads' steps, within a
//! bound of switches. Each kill has one release, passes are given again, and no value is lent twice.
#![allow(
    dead_code,
    unused_imports,
    unfulfilled_lint_expectations,
    missing_docs,
    missing_debug_implementations,
    clippy::all,
    clippy::pedantic
)]

extern crate alloc;

#[path = "../shared/erased.rs"]
mod erased;
#[path = "../shared/words.rs"]
mod words;

/// The files of percpu-gate, where they are.
#[path = "../../../percpu-gate/src"]
mod files {
    pub(crate) mod errors;
    pub(crate) mod gate;
    pub(crate) mod guarded;
    pub(crate) mod handed_back;
    pub(crate) mod outcomes;
    pub(crate) mod owned;
    pub(crate) mod pass;
    pub(crate) mod reference;
    pub(crate) mod references;
    pub(crate) mod shared;
    pub(crate) mod start;
    pub(crate) mod word;
}

use files::{errors, gate, guarded, handed_back, outcomes, owned, pass, reference, references, shared, start, word};

mod races;
#[path = "../shared/value.rs"]
mod value;

use alloc::sync::Arc;
use errors::*;
use gate::Gate;
use handed_back::HandedBack;
use outcomes::{Final, Killed, Phase, Revived};
use owned::OwnedReference;
use pass::Pass;
use reference::Reference;
use shared::WORD_COUNT;
use start::Start;
use word::Word;

type OnLast = Arc<dyn Fn() + Send + Sync>;
