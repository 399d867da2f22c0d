// Erased from crates/percpu_gate/src/control_fault.rt by tools/erase: edit that file.
//! Refusals of the control.

use core::error::Error;
use core::fmt;

/// Why the control refuses a call. The call has changed nothing.
#[derive(Clone, Copy, Debug, PartialEq, Eq)]
pub enum ControlFault {
    /// The gate is killed already. Linux: a second kill warns (`percpu_ref_kill_and_confirm`).
    AlreadyDead,
    /// The gate is live.
    NotDead,
    /// The count hasn't reached zero.
    NotZero,
    /// A kill that `mark_dead` began hasn't reached `drop_base`.
    MidSwitch,
    /// The gate was killed 2^40 times.
    WornOut,
}

impl fmt::Display for ControlFault {
    fn fmt(&self, f: &mut fmt::Formatter<'_>) -> fmt::Result {
        match self {
            ControlFault::AlreadyDead => f.write_str("already dead"),
            ControlFault::NotDead => f.write_str("not dead"),
            ControlFault::NotZero => f.write_str("not zero"),
            ControlFault::MidSwitch => f.write_str("mid switch"),
            ControlFault::WornOut => f.write_str("worn out"),
        }
    }
}

impl Error for ControlFault {}

impl ControlFault {
    /// The refusal's number, 1 to 5.
    pub fn number(&self) -> u8 {
        match self {
            ControlFault::AlreadyDead => 1,
            ControlFault::NotDead => 2,
            ControlFault::NotZero => 3,
            ControlFault::MidSwitch => 4,
            ControlFault::WornOut => 5,
        }
    }
}
