//! A pass of a gate that guards a value.
use super::reference::{OwnedReference, Reference};
use super::value::Value;
use crate::{HandedBack, TryGetError};
use alloc::sync::Arc;
use core::fmt;

/// A pass, with which one thread at a time takes references of its gate. Each reference lends `&T`.
///
/// ```
/// use percpu_gate::{Start, guarded::Gate};
/// use std::sync::Arc;
///
/// let mut gate = Gate::new([7, 8], 1, 1, Start::Slots, Arc::new(|| {}))?;
/// let pass = gate.next_pass(0)?;
/// let (one, other) = (pass.try_get_live()?, pass.try_get()?);
/// assert_eq!((one[0], other[1]), (7, 8));
/// # Ok::<(), Box<dyn std::error::Error>>(())
/// ```
pub struct Pass<T> {
    pass: crate::Pass,
    /// The value of this pass's gate.
    value: Arc<Value<T>>,
}

impl<T> Pass<T> {
    pub(super) fn of(pass: crate::Pass, value: Arc<Value<T>>) -> Pass<T> {
        Pass { pass, value }
    }

    pub(super) fn into_parts(self) -> (crate::Pass, Arc<Value<T>>) {
        (self.pass, self.value)
    }

    /// Takes a reference unless the gate has reached zero, as [`Pass::try_get`](crate::Pass::try_get) does.
    ///
    /// # Errors
    ///
    /// Returns [`TryGetError::NotGiven`] or [`TryGetError::HeldFull`].
    #[inline]
    pub fn try_get(&self) -> Result<Reference<'_, T>, TryGetError> {
        Ok(Reference::of(self.pass.try_get()?, &self.value))
    }

    /// Takes a reference unless the gate was killed, as [`Pass::try_get_live`](crate::Pass::try_get_live) does.
    ///
    /// # Errors
    ///
    /// Returns [`TryGetError::NotGiven`] or [`TryGetError::HeldFull`].
    #[inline]
    pub fn try_get_live(&self) -> Result<Reference<'_, T>, TryGetError> {
        Ok(Reference::of(self.pass.try_get_live()?, &self.value))
    }

    /// Takes a reference unless the gate was killed, and moves the pass into it, as
    /// [`Pass::into_reference_live`](crate::Pass::into_reference_live) does. It can end on another thread.
    ///
    /// # Errors
    ///
    /// Returns [`TryGetError::NotGiven`] or [`TryGetError::HeldFull`], with the pass.
    ///
    /// # Examples
    ///
    /// ```
    /// # use percpu_gate::{Start, guarded::Gate};
    /// # use std::{sync::Arc, thread};
    /// let mut gate = Gate::new(String::from("disk"), 1, 1, Start::Slots, Arc::new(|| {}))?;
    /// let request = gate.next_pass(0)?.into_reference_live()?;
    /// let ends = thread::spawn(move || {
    ///     assert_eq!(*request, "disk");
    ///     request.put()
    /// });
    /// gate.retire(ends.join().unwrap())?;
    /// # Ok::<(), Box<dyn std::error::Error>>(())
    /// ```
    #[expect(clippy::result_large_err, reason = "a refusal hands the pass back")]
    pub fn into_reference_live(self) -> Result<OwnedReference<T>, HandedBack<Pass<T>, TryGetError>> {
        let Pass { pass, value } = self;
        match pass.into_reference_live() {
            Ok(reference) => Ok(OwnedReference::of(reference, value)),
            Err(HandedBack { value: pass, reason }) => Err(HandedBack { value: Pass { pass, value }, reason }),
        }
    }

    /// Returns the pass of the plain gate, for queries and to change its slot. References taken with it don't lend the value.
    ///
    /// ```
    /// # use percpu_gate::{Start, guarded::Gate};
    /// # use std::sync::Arc;
    /// # let mut gate = Gate::new((), 2, 1, Start::Slots, Arc::new(|| {}))?;
    /// let pass = gate.next_pass(0)?;
    /// pass.as_pass().use_slot(1)?;
    /// assert!(!pass.as_pass().is_dying());
    /// # Ok::<(), Box<dyn std::error::Error>>(())
    /// ```
    #[must_use]
    pub fn as_pass(&self) -> &crate::Pass {
        &self.pass
    }
}

impl<T> fmt::Debug for Pass<T> {
    fn fmt(&self, f: &mut fmt::Formatter<'_>) -> fmt::Result {
        self.pass.fmt(f)
    }
}
