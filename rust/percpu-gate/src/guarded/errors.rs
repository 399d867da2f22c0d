//! Errors of a gate that guards a value.
use super::{Gate, Pass};
use crate::{HandedBack, NewError, RetireError, TryGetError};
use alloc::boxed::Box;
use core::error::Error;
use core::fmt;

/// Why a gate doesn't lend `&mut T` or return T.
///
/// ```
/// # use percpu_gate::{Start, guarded::{ChangeError, Gate}};
/// # use std::sync::Arc;
/// let mut gate = Gate::new(7, 1, 1, Start::Slots, Arc::new(|| {}))?;
/// assert_eq!(gate.get_mut(), Err(ChangeError::NotDead));
/// # Ok::<(), Box<dyn std::error::Error>>(())
/// ```
#[derive(Clone, Copy, Debug, PartialEq, Eq, Hash)]
#[non_exhaustive]
pub enum ChangeError {
    /// The gate is live.
    NotDead,
    /// A reference is still held, or a refused try is in flight.
    NotZero,
}

impl fmt::Display for ChangeError {
    fn fmt(&self, f: &mut fmt::Formatter<'_>) -> fmt::Result {
        f.write_str(match self {
            ChangeError::NotDead => "the gate isn't dead",
            ChangeError::NotZero => "references are held",
        })
    }
}

impl Error for ChangeError {}

/// Lets `?` drop the value in functions that return these errors, or boxed ones.
macro_rules! reasons {
    ($($value:ty, $error:ident;)+) => {$(
        impl<T> From<HandedBack<$value, $error>> for $error {
            fn from(refused: HandedBack<$value, $error>) -> $error {
                refused.reason
            }
        }

        impl<T> From<HandedBack<$value, $error>> for Box<dyn Error> {
            fn from(refused: HandedBack<$value, $error>) -> Box<dyn Error> {
                Box::new(refused.reason)
            }
        }

        impl<T> From<HandedBack<$value, $error>> for Box<dyn Error + Send + Sync> {
            fn from(refused: HandedBack<$value, $error>) -> Box<dyn Error + Send + Sync> {
                Box::new(refused.reason)
            }
        }
    )+};
}

reasons! {
    T, NewError;
    Pass<T>, RetireError;
    Pass<T>, TryGetError;
    Gate<T>, ChangeError;
}
