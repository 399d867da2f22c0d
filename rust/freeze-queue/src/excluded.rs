//! Refusals of the erased steps that can't come about.
use std::fmt::Display;

/// Stops at a refusal that this crate's types exclude.
#[cold]
#[track_caller]
pub(crate) fn excluded(call: &str, refusal: impl Display) -> ! {
    panic!("a bug of freeze-queue: {call} was refused ({refusal})")
}
