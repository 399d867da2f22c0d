//! Errors of calls. A call that returns an error has changed nothing, except that a refused try may make the release. A later version may
//! add a reason.
use core::error::Error;
use core::fmt;

/// Implements `Display` and `Error` for errors that have no data.
macro_rules! texts {
    ($($error:ident { $($kind:ident => $text:literal,)+ })+) => {$(
        impl fmt::Display for $error {
            fn fmt(&self, f: &mut fmt::Formatter<'_>) -> fmt::Result {
                f.write_str(match self { $($error::$kind => $text,)+ })
            }
        }

        impl Error for $error {}
    )+};
}

/// Why [`Gate::new`](crate::Gate::new) failed.
///
/// ```
/// use percpu_gate::{Gate, NewError, Start};
/// use std::sync::Arc;
///
/// let refused = Gate::new(513, 1, Start::Slots, [0; 8], Arc::new(|| {}));
/// assert_eq!(refused.unwrap_err(), NewError::Size);
/// ```
#[derive(Clone, Copy, Debug, PartialEq, Eq, Hash)]
#[non_exhaustive]
pub enum NewError {
    /// A gate has 1 to 512 slots and 1 to 1,024 passes.
    Size,
    /// There is no memory for the gate.
    NoMemory,
}

/// Why [`Gate::next_pass`](crate::Gate::next_pass) returned no pass.
///
/// ```
/// # use percpu_gate::{Gate, NextPassError, Start};
/// # use std::sync::Arc;
/// let mut gate = Gate::new(2, 1, Start::Slots, [0; 8], Arc::new(|| {}))?;
/// assert_eq!(gate.next_pass(2).unwrap_err(), NextPassError::NoSlot);
/// let pass = gate.next_pass(1)?;
/// assert_eq!(gate.next_pass(1).unwrap_err(), NextPassError::NoPass);
/// # Ok::<(), Box<dyn std::error::Error>>(())
/// ```
#[derive(Clone, Copy, Debug, PartialEq, Eq, Hash)]
#[non_exhaustive]
pub enum NextPassError {
    /// The gate has no such slot.
    NoSlot,
    /// Every pass that the gate was made with is out.
    NoPass,
}

/// Why [`Pass::use_slot`](crate::Pass::use_slot) failed.
///
/// ```
/// # use percpu_gate::{Gate, SlotError, Start};
/// # use std::sync::Arc;
/// let mut gate = Gate::new(2, 1, Start::Slots, [0; 8], Arc::new(|| {}))?;
/// let pass = gate.next_pass(0)?;
/// assert_eq!(pass.use_slot(2), Err(SlotError::NoSlot));
/// # Ok::<(), Box<dyn std::error::Error>>(())
/// ```
#[derive(Clone, Copy, Debug, PartialEq, Eq, Hash)]
#[non_exhaustive]
pub enum SlotError {
    /// The gate has no such slot.
    NoSlot,
}

/// Why a try returned no reference.
///
/// ```
/// # use percpu_gate::{Gate, Start, TryGetError};
/// # use std::sync::Arc;
/// let mut gate = Gate::new(1, 1, Start::Dead, [0; 8], Arc::new(|| {}))?;
/// let pass = gate.next_pass(0)?;
/// assert_eq!(pass.try_get().unwrap_err(), TryGetError::NotGiven);
/// # Ok::<(), Box<dyn std::error::Error>>(())
/// ```
#[derive(Clone, Copy, Debug, PartialEq, Eq, Hash)]
#[non_exhaustive]
pub enum TryGetError {
    /// The gate was killed or, for a try that also accepts dead gates, it is at zero.
    NotGiven,
    /// The pass holds 65,535 references already.
    HeldFull,
}

/// Why a pass can't take more references.
///
/// ```
/// # use percpu_gate::{Gate, GetError, Start};
/// # use std::sync::Arc;
/// let mut gate = Gate::new(1, 1, Start::Slots, [0; 8], Arc::new(|| {}))?;
/// let pass = gate.next_pass(0)?;
/// let first = pass.try_get()?;
/// let others: Result<Vec<_>, _> = (1..Gate::MAX_HELD).map(|_| first.try_clone()).collect();
/// assert_eq!(others?.len(), 65_534);
/// let most: Vec<_> = (1..Gate::MAX_HELD).map_while(|_| first.try_clone().ok()).collect();
/// assert_eq!(first.try_clone().unwrap_err(), GetError::HeldFull);
/// # Ok::<(), Box<dyn std::error::Error>>(())
/// ```
#[derive(Clone, Copy, Debug, PartialEq, Eq, Hash)]
#[non_exhaustive]
pub enum GetError {
    /// The pass holds 65,535 references already.
    HeldFull,
}

/// Why [`Gate::retire`](crate::Gate::retire) handed the pass back.
///
/// ```
/// # use percpu_gate::{Gate, RetireError, Start};
/// # use std::sync::Arc;
/// let mut here = Gate::new(1, 1, Start::Slots, [0; 8], Arc::new(|| {}))?;
/// let mut there = Gate::new(1, 1, Start::Slots, [0; 8], Arc::new(|| {}))?;
/// let pass = here.next_pass(0)?;
/// let refused = there.retire(pass).unwrap_err();
/// assert_eq!(refused.reason, RetireError::OtherGate);
/// here.retire(refused.value)?;
/// # Ok::<(), Box<dyn std::error::Error>>(())
/// ```
#[derive(Clone, Copy, Debug, PartialEq, Eq, Hash)]
#[non_exhaustive]
pub enum RetireError {
    /// The pass belongs to another gate.
    OtherGate,
    /// The pass holds a leaked reference (`mem::forget`).
    StillHeld,
}

/// Why [`Gate::exit`](crate::Gate::exit) handed the gate back.
///
/// ```
/// # use percpu_gate::{ExitError, Gate, Start};
/// # use std::sync::Arc;
/// let mut gate = Gate::new(1, 1, Start::Slots, [0; 8], Arc::new(|| {}))?;
/// let pass = gate.next_pass(0)?;
/// let refused = gate.exit().unwrap_err();
/// assert_eq!(refused.reason, ExitError::PassesOut);
/// let mut gate = refused.value;
/// gate.retire(pass)?;
/// gate.exit()?;
/// # Ok::<(), Box<dyn std::error::Error>>(())
/// ```
#[derive(Clone, Copy, Debug, PartialEq, Eq, Hash)]
#[non_exhaustive]
pub enum ExitError {
    /// A pass isn't retired. A pass that was dropped never will be; in that case drop the gate.
    PassesOut,
}

/// Why a kill failed.
///
/// ```
/// # use percpu_gate::{Gate, KillError, Start};
/// # use std::sync::Arc;
/// let mut gate = Gate::new(1, 1, Start::Dead, [0; 8], Arc::new(|| {}))?;
/// assert_eq!(gate.kill(), Err(KillError::AlreadyDead));
/// # Ok::<(), Box<dyn std::error::Error>>(())
/// ```
#[derive(Clone, Copy, Debug, PartialEq, Eq, Hash)]
#[non_exhaustive]
pub enum KillError {
    /// The gate is dead: it was killed or started dead, and hasn't been revived.
    AlreadyDead,
    /// The gate has been killed 2^40 times.
    WornOut,
}

/// Why [`Gate::reinit`](crate::Gate::reinit) failed.
///
/// ```
/// # use percpu_gate::{Gate, ReinitError, Start};
/// # use std::sync::Arc;
/// let mut gate = Gate::new(1, 1, Start::Slots, [0; 8], Arc::new(|| {}))?;
/// let pass = gate.next_pass(0)?;
/// assert_eq!(gate.reinit(), Err(ReinitError::NotDead));
/// let reference = pass.try_get_live()?;
/// gate.kill()?;
/// assert_eq!(gate.reinit(), Err(ReinitError::NotZero));
/// drop(reference);
/// gate.reinit()?;
/// # Ok::<(), Box<dyn std::error::Error>>(())
/// ```
#[derive(Clone, Copy, Debug, PartialEq, Eq, Hash)]
#[non_exhaustive]
pub enum ReinitError {
    /// The gate is live.
    NotDead,
    /// A reference is still held, or a refused try is in flight.
    NotZero,
}

/// Why [`Gate::resurrect`](crate::Gate::resurrect) failed.
///
/// ```
/// # use percpu_gate::{Gate, ResurrectError, Start};
/// # use std::sync::Arc;
/// let mut gate = Gate::new(1, 1, Start::Slots, [0; 8], Arc::new(|| {}))?;
/// assert_eq!(gate.resurrect(), Err(ResurrectError::NotDead));
/// # Ok::<(), Box<dyn std::error::Error>>(())
/// ```
#[derive(Clone, Copy, Debug, PartialEq, Eq, Hash)]
#[non_exhaustive]
pub enum ResurrectError {
    /// The gate is live.
    NotDead,
}

/// Why [`Gate::store_word`](crate::Gate::store_word) failed.
///
/// ```
/// # use percpu_gate::{Gate, Start, StoreError, Word};
/// # use std::sync::Arc;
/// let mut gate = Gate::new(1, 1, Start::Slots, [0; 8], Arc::new(|| {}))?;
/// assert_eq!(gate.store_word(Word::ALL[0], 1), Err(StoreError::NotDead));
/// # Ok::<(), Box<dyn std::error::Error>>(())
/// ```
#[derive(Clone, Copy, Debug, PartialEq, Eq, Hash)]
#[non_exhaustive]
pub enum StoreError {
    /// The gate is live.
    NotDead,
    /// A reference is still held, or a refused try is in flight.
    NotZero,
}

texts! {
    NewError { Size => "number of slots or passes out of range", NoMemory => "no memory", }
    NextPassError { NoSlot => "no such slot", NoPass => "every pass is out", }
    SlotError { NoSlot => "no such slot", }
    TryGetError {
        NotGiven => "no reference is given",
        HeldFull => "the pass would hold more than 65535 references",
    }
    GetError { HeldFull => "the pass would hold more than 65535 references", }
    RetireError {
        OtherGate => "the pass is of another gate",
        StillHeld => "the pass holds references",
    }
    ExitError { PassesOut => "passes aren't retired", }
    KillError {
        AlreadyDead => "the gate is dead already",
        WornOut => "the gate was killed 2^40 times",
    }
    ReinitError { NotDead => "the gate isn't dead", NotZero => "references are held", }
    ResurrectError { NotDead => "the gate isn't dead", }
    StoreError { NotDead => "the gate isn't dead", NotZero => "references are held", }
}
