//! A refusal that returns the value that the call was given.
use crate::errors::{EnterError, NewError, RemoveError};
use std::error::Error;
use std::fmt;

/// A refusal of a call that takes a value. It returns the value.
///
/// `?` drops the value and returns only the reason (or boxes it). The value's type doesn't matter. `HandedBack` isn't an
/// `Error` itself, since it would keep the value alive. To use `?` with an error type of another crate, take the reason first
/// ([`into_reason`](HandedBack::into_reason)).
///
/// ```
/// # use freeze_queue::{HandedBack, Limits, Queue, RemoveError};
/// # let queue = Queue::builder(Limits::of_hardware(64)).slots(1).tags(1).build()?;
/// # let tag = queue.tag()?;
/// let HandedBack { value: queue, reason } = queue.remove().unwrap_err();
/// assert_eq!(reason, RemoveError::TagsOut);
/// assert_eq!(queue.depth(), 0);
/// # Ok::<(), Box<dyn std::error::Error>>(())
/// ```
pub struct HandedBack<T, E> {
    /// The value that the call was given, unchanged.
    pub value: T,
    /// Why the call refused.
    pub reason: E,
}

impl<T, E> HandedBack<T, E> {
    /// Drops the value and returns the reason, as `?` needs it for an error type of another crate.
    ///
    /// ```
    /// # use freeze_queue::{HandedBack, Limits, Queue};
    /// # #[derive(Debug)]
    /// # struct AnyError(String);
    /// # impl<E: std::error::Error> From<E> for AnyError {
    /// #     fn from(error: E) -> AnyError {
    /// #         AnyError(error.to_string())
    /// #     }
    /// # }
    /// fn remove(queue: Queue) -> Result<(), AnyError> {
    ///     queue.remove().map_err(HandedBack::into_reason)?;
    ///     Ok(())
    /// }
    /// # let queue = Queue::new(Limits::of_hardware(64))?;
    /// # let tag = queue.tag()?;
    /// assert_eq!(remove(queue).unwrap_err().0, "tags are out");
    /// # Ok::<(), AnyError>(())
    /// ```
    pub fn into_reason(self) -> E {
        self.reason
    }
}

impl<T, E: fmt::Display> fmt::Display for HandedBack<T, E> {
    fn fmt(&self, f: &mut fmt::Formatter<'_>) -> fmt::Result {
        self.reason.fmt(f)
    }
}

/// Shows only the reason, whatever the value is.
impl<T, E: fmt::Debug> fmt::Debug for HandedBack<T, E> {
    fn fmt(&self, f: &mut fmt::Formatter<'_>) -> fmt::Result {
        f.debug_struct("HandedBack").field("reason", &self.reason).finish_non_exhaustive()
    }
}

impl<T, E: Error + 'static> From<HandedBack<T, E>> for Box<dyn Error> {
    fn from(refused: HandedBack<T, E>) -> Box<dyn Error> {
        refused.reason.into()
    }
}

impl<T, E: Error + Send + Sync + 'static> From<HandedBack<T, E>> for Box<dyn Error + Send + Sync> {
    fn from(refused: HandedBack<T, E>) -> Box<dyn Error + Send + Sync> {
        refused.reason.into()
    }
}

/// `?` in a function with these errors drops the value.
macro_rules! reasons {
    ($($error:ident)+) => {$(
        impl<T> From<HandedBack<T, $error>> for $error {
            fn from(refused: HandedBack<T, $error>) -> $error {
                refused.reason
            }
        }
    )+};
}

reasons! { NewError EnterError RemoveError }

#[cfg(test)]
mod tests {
    use super::*;

    #[test]
    fn a_refusal_that_hands_back_says_why() {
        let refused = HandedBack { value: 7, reason: RemoveError::TagsOut };
        assert_eq!(refused.to_string(), "tags are out");
        assert_eq!(refused.value, 7);
        assert_eq!(refused.into_reason(), RemoveError::TagsOut);
    }
}
