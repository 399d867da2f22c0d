// Erased from crates/percpu_core/src/not_enabled.rt by tools/erase: edit that file.
//! Why an event isn't enabled.

use std::error::Error;
use std::fmt;

/// Why a step isn't enabled now: the first reason, in the order in which they are tested.
#[derive(Clone, Copy, Debug, PartialEq, Eq)]
pub enum NotEnabled {
    NoSuchActor,
    NoSuchSlot,
    WrongPhase,
    NothingHeld,
    MidCall,
    HeldFull,
    WornOut,
    NoSuchWord,
    BadAmount,
    StillHeld,
}

impl fmt::Display for NotEnabled {
    fn fmt(&self, f: &mut fmt::Formatter<'_>) -> fmt::Result {
        match self {
            NotEnabled::NoSuchActor => f.write_str("no such actor"),
            NotEnabled::NoSuchSlot => f.write_str("no such slot"),
            NotEnabled::WrongPhase => f.write_str("wrong phase"),
            NotEnabled::NothingHeld => f.write_str("nothing held"),
            NotEnabled::MidCall => f.write_str("mid call"),
            NotEnabled::HeldFull => f.write_str("held full"),
            NotEnabled::WornOut => f.write_str("worn out"),
            NotEnabled::NoSuchWord => f.write_str("no such word"),
            NotEnabled::BadAmount => f.write_str("bad amount"),
            NotEnabled::StillHeld => f.write_str("still held"),
        }
    }
}

impl Error for NotEnabled {}

impl NotEnabled {
    /// The refusal's number, 1 to 10.
    pub fn number(&self) -> u8 {
        match self {
            NotEnabled::NoSuchActor => 1,
            NotEnabled::NoSuchSlot => 2,
            NotEnabled::WrongPhase => 3,
            NotEnabled::NothingHeld => 4,
            NotEnabled::MidCall => 5,
            NotEnabled::HeldFull => 6,
            NotEnabled::WornOut => 7,
            NotEnabled::NoSuchWord => 8,
            NotEnabled::BadAmount => 9,
            NotEnabled::StillHeld => 10,
        }
    }
}
