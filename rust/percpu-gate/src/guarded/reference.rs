//! References that lend a value.
use super::pass::Pass;
use super::value::Value;
use crate::GetError;
use alloc::sync::Arc;
use core::fmt;
use core::ops::Deref;

/// A reference. While it exists, the value doesn't change. Dropping it puts it.
///
/// ```
/// use percpu_gate::{Start, guarded::Gate};
/// use std::sync::Arc;
///
/// let mut gate = Gate::new(String::from("disk"), 1, 1, Start::Slots, Arc::new(|| {}))?;
/// let pass = gate.next_pass(0)?;
/// let request = pass.try_get_live()?;
/// gate.kill()?;
/// assert_eq!(request.len(), 4);
/// # Ok::<(), Box<dyn std::error::Error>>(())
/// ```
#[must_use = "an unused reference is put at once"]
pub struct Reference<'p, T> {
    reference: crate::Reference<'p>,
    /// The value of this reference's gate. Not a `&T`, which would still exist while the drop puts the reference.
    value: &'p Value<T>,
}

impl<'p, T> Reference<'p, T> {
    #[inline]
    pub(super) fn of(reference: crate::Reference<'p>, value: &'p Value<T>) -> Reference<'p, T> {
        Reference { reference, value }
    }

    /// Takes another reference, as [`Reference::try_clone`](crate::Reference::try_clone) does.
    ///
    /// # Errors
    ///
    /// Returns [`GetError::HeldFull`].
    pub fn try_clone(&self) -> Result<Reference<'p, T>, GetError> {
        Ok(Reference::of(self.reference.try_clone()?, self.value))
    }
}

impl<T> Deref for Reference<'_, T> {
    type Target = T;

    #[inline]
    fn deref(&self) -> &T {
        self.value.shared(&self.reference)
    }
}

impl<T: fmt::Debug> fmt::Debug for Reference<'_, T> {
    fn fmt(&self, f: &mut fmt::Formatter<'_>) -> fmt::Result {
        f.debug_tuple("Reference").field(&**self).finish()
    }
}

/// A reference together with its pass, so that it can end on another thread. Dropping it puts it and drops the pass;
/// [`put`](OwnedReference::put) returns the pass.
///
/// ```
/// use percpu_gate::{Start, guarded::Gate};
/// use std::sync::Arc;
///
/// let mut gate = Gate::new(vec![1, 2, 3], 1, 1, Start::Slots, Arc::new(|| {}))?;
/// let request = gate.next_pass(0)?.into_reference_live()?;
/// assert_eq!(request.iter().sum::<i32>(), 6);
/// let pass = request.put();
/// # Ok::<(), Box<dyn std::error::Error>>(())
/// ```
#[must_use = "an unused reference is put at once"]
pub struct OwnedReference<T> {
    reference: crate::OwnedReference,
    /// The value of this reference's gate.
    value: Arc<Value<T>>,
}

impl<T> OwnedReference<T> {
    pub(super) fn of(reference: crate::OwnedReference, value: Arc<Value<T>>) -> OwnedReference<T> {
        OwnedReference { reference, value }
    }

    /// Puts the reference and returns the pass.
    pub fn put(self) -> Pass<T> {
        Pass::of(self.reference.put(), self.value)
    }
}

impl<T> Deref for OwnedReference<T> {
    type Target = T;

    #[inline]
    fn deref(&self) -> &T {
        self.value.shared(&self.reference)
    }
}

impl<T: fmt::Debug> fmt::Debug for OwnedReference<T> {
    fn fmt(&self, f: &mut fmt::Formatter<'_>) -> fmt::Result {
        f.debug_tuple("OwnedReference").field(&**self).finish()
    }
}
