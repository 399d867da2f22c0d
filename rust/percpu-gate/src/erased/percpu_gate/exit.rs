// Erased from crates/percpu_gate/src/exit.rt by tools/erase: edit that file.
//! The end of a gate.

use crate::erased::percpu_gate::control::Control;
use crate::erased::percpu_gate::gate::Gate;
use core::error::Error;
use core::fmt;

/// Why a gate may not end.
#[derive(Clone, Copy, Debug, PartialEq, Eq)]
pub enum ExitWhy {
    /// A kill that `mark_dead` began hasn't reached `drop_base`.
    MidSwitch,
    /// This many passes aren't retired.
    PassesOut(u32),
}

impl fmt::Display for ExitWhy {
    fn fmt(&self, f: &mut fmt::Formatter<'_>) -> fmt::Result {
        match self {
            ExitWhy::MidSwitch => f.write_str("mid switch"),
            ExitWhy::PassesOut(it) => write!(f, "{it} passes out"),
        }
    }
}

impl Error for ExitWhy {}

impl ExitWhy {
    /// The refusal's number: 4 or 6.
    pub fn number(&self) -> u8 {
        match self {
            ExitWhy::MidSwitch => 4,
            ExitWhy::PassesOut(_) => 6,
        }
    }
}

/// A gate that may not end, with its control, both unchanged.
pub struct ExitFault<const W: usize> {
    pub why: ExitWhy,
    pub gate: Gate<W>,
    pub control: Control<W>,
}

impl<const W: usize> ExitFault<W> {
    /// The refusal's number: 4 or 6.
    pub fn number(&self) -> u8 {
        self.why.number()
    }
}

/// The last facts of a gate that has ended.
#[derive(Clone, Copy, Debug, PartialEq, Eq)]
pub struct Final<const W: usize> {
    /// Whether it was dead.
    pub dead: bool,
    pub kills: u64,
    /// The number of releases that all its seats have won.
    pub releases: u64,
    /// The guarded words.
    pub words: [u64; W],
}
