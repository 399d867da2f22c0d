// Erased from crates/c_answers/src/misuse.rt by tools/erase: edit that file.
//! Misuse by a C program.

use core::error::Error;
use core::fmt;

/// Why a call is refused before it reaches the gate or the queue. The call has changed nothing.
#[derive(Clone, Copy, Debug, PartialEq, Eq)]
pub enum Misuse {
    Closed,
    Open,
    Slot,
    Size,
    Memory,
    InUse,
    Foreign,
    NoneWaits,
    Entered,
    NotEntered,
    Mode,
    Range,
    HeldFull,
    NotHeld,
    StillHeld,
    Amount,
    Word,
    Step,
}

impl fmt::Display for Misuse {
    fn fmt(&self, f: &mut fmt::Formatter<'_>) -> fmt::Result {
        match self {
            Misuse::Closed => f.write_str("the handle is closed"),
            Misuse::Open => f.write_str("the handle is open"),
            Misuse::Slot => f.write_str("no such slot"),
            Misuse::Size => f.write_str("too few or too many"),
            Misuse::Memory => f.write_str("no memory"),
            Misuse::InUse => f.write_str("the gate or the queue is in use"),
            Misuse::Foreign => f.write_str("the pass or the tag is of another gate or queue"),
            Misuse::NoneWaits => f.write_str("no pass or tag waits"),
            Misuse::Entered => f.write_str("the tag has entered"),
            Misuse::NotEntered => f.write_str("the tag hasn't entered"),
            Misuse::Mode => f.write_str("no such mode"),
            Misuse::Range => f.write_str("no such range"),
            Misuse::HeldFull => f.write_str("the pass holds no more"),
            Misuse::NotHeld => f.write_str("the pass doesn't hold as many"),
            Misuse::StillHeld => f.write_str("the pass holds references"),
            Misuse::Amount => f.write_str("none is asked for"),
            Misuse::Word => f.write_str("no such word"),
            Misuse::Step => f.write_str("not the next step"),
        }
    }
}

impl Error for Misuse {}

impl Misuse {
    /// The number that C gets: 32 to 39 for what both libraries refuse, 48 to 51 for the queue alone, 64 to 69 for the
    /// gate alone.
    pub fn number(&self) -> u32 {
        match self {
            Misuse::Closed => 32,
            Misuse::Open => 33,
            Misuse::Slot => 34,
            Misuse::Size => 35,
            Misuse::Memory => 36,
            Misuse::InUse => 37,
            Misuse::Foreign => 38,
            Misuse::NoneWaits => 39,
            Misuse::Entered => 48,
            Misuse::NotEntered => 49,
            Misuse::Mode => 50,
            Misuse::Range => 51,
            Misuse::HeldFull => 64,
            Misuse::NotHeld => 65,
            Misuse::StillHeld => 66,
            Misuse::Amount => 67,
            Misuse::Word => 68,
            Misuse::Step => 69,
        }
    }
}
