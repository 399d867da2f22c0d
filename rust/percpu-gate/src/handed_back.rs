//! An error that hands back the argument of the call.
use crate::errors::{ExitError, RetireError, TryGetError};
use crate::gate::Gate;
use crate::pass::Pass;
use alloc::boxed::Box;
use core::error::Error;
use core::fmt;

/// The error of a call that takes a value: hands the value back with the reason.
///
/// `?` converts it into its reason, or into a boxed [`Error`], and drops the value. (It isn't an `Error` itself, since with a pass inside
/// it couldn't become a `Box<dyn Error + Send + Sync>`.)
///
/// ```
/// # use percpu_gate::{ExitError, Gate, HandedBack, Start};
/// # use std::sync::Arc;
/// # let mut gate = Gate::new(1, 1, Start::Slots, [0; 8], Arc::new(|| {}))?;
/// # let pass = gate.next_pass(0)?;
/// let HandedBack { value: gate, reason } = gate.exit().unwrap_err();
/// assert_eq!(reason, ExitError::PassesOut);
/// assert_eq!(gate.kills(), 0);
/// # Ok::<(), Box<dyn std::error::Error>>(())
/// ```
pub struct HandedBack<T, E> {
    /// The argument of the call, unchanged.
    pub value: T,
    /// Why the call refused.
    pub reason: E,
}

/// Shows only the reason, so the value needs no `Debug`.
impl<T, E: fmt::Debug> fmt::Debug for HandedBack<T, E> {
    fn fmt(&self, f: &mut fmt::Formatter<'_>) -> fmt::Result {
        f.debug_struct("HandedBack").field("reason", &self.reason).finish_non_exhaustive()
    }
}

impl<T, E: fmt::Display> fmt::Display for HandedBack<T, E> {
    fn fmt(&self, f: &mut fmt::Formatter<'_>) -> fmt::Result {
        self.reason.fmt(f)
    }
}

/// Lets `?` drop the value in functions that return these errors.
macro_rules! reasons {
    ($($value:ty, $error:ident;)+) => {$(
        impl From<HandedBack<$value, $error>> for $error {
            fn from(refused: HandedBack<$value, $error>) -> $error {
                refused.reason
            }
        }

        impl From<HandedBack<$value, $error>> for Box<dyn Error> {
            fn from(refused: HandedBack<$value, $error>) -> Box<dyn Error> {
                Box::new(refused.reason)
            }
        }

        impl From<HandedBack<$value, $error>> for Box<dyn Error + Send + Sync> {
            fn from(refused: HandedBack<$value, $error>) -> Box<dyn Error + Send + Sync> {
                Box::new(refused.reason)
            }
        }
    )+};
}

reasons! {
    Pass, RetireError;
    Pass, TryGetError;
    Gate, ExitError;
}

#[cfg(test)]
mod tests {
    use super::*;
    use std::string::ToString;

    #[test]
    fn a_refusal_that_hands_back_says_why() {
        let refused = HandedBack { value: 7, reason: ExitError::PassesOut };
        assert_eq!(refused.to_string(), "passes aren't retired");
        assert_eq!(refused.value, 7);
    }
}
