//! Several references of one pass, counted in one step.
use crate::pass::Pass;
use crate::reference::Reference;
use core::fmt;

/// Several references of one pass, taken in one step by [`Reference::get_many`]. Dropping them puts all of them in one step.
///
/// Linux: `percpu_ref_get_many`, `percpu_ref_put_many`.
///
/// ```
/// use percpu_gate::{Gate, Start};
/// use std::sync::Arc;
///
/// let mut gate = Gate::new(1, 1, Start::Slots, [0; 8], Arc::new(|| {}))?;
/// let pass = gate.next_pass(0)?;
/// let mut pieces = pass.try_get_live()?.get_many(3)?;
/// let first = pieces.split_one().unwrap();
/// gate.kill()?;
/// drop(pieces);
/// assert!(!gate.is_zero());
/// drop(first);
/// assert!(gate.is_zero());
/// # Ok::<(), Box<dyn std::error::Error>>(())
/// ```
#[must_use = "unused references are put at once"]
pub struct References<'p> {
    pass: &'p Pass,
    /// The number of references that the pass holds for this value.
    count: u32,
}

impl<'p> References<'p> {
    /// The pass holds this many more than it has given out.
    pub(crate) fn of(pass: &'p Pass, count: u32) -> References<'p> {
        References { pass, count }
    }

    /// Returns the number of references.
    ///
    /// ```
    /// # use percpu_gate::{Gate, Start};
    /// # use std::sync::Arc;
    /// # let mut gate = Gate::new(1, 1, Start::Slots, [0; 8], Arc::new(|| {}))?;
    /// # let pass = gate.next_pass(0)?;
    /// assert_eq!(pass.try_get_live()?.get_many(3)?.count(), 3);
    /// # Ok::<(), Box<dyn std::error::Error>>(())
    /// ```
    #[must_use]
    pub fn count(&self) -> u32 {
        self.count
    }

    /// Splits off one reference, to be put by itself. Returns `None` if none is left.
    ///
    /// ```
    /// # use percpu_gate::{Gate, Start};
    /// # use std::sync::Arc;
    /// # let mut gate = Gate::new(1, 1, Start::Slots, [0; 8], Arc::new(|| {}))?;
    /// # let pass = gate.next_pass(0)?;
    /// let mut pieces = pass.try_get_live()?.get_many(1)?;
    /// assert!(pieces.split_one().is_some());
    /// assert!(pieces.split_one().is_none());
    /// # Ok::<(), Box<dyn std::error::Error>>(())
    /// ```
    #[must_use = "an unused reference is put at once"]
    pub fn split_one(&mut self) -> Option<Reference<'p>> {
        self.count = self.count.checked_sub(1)?;
        Some(Reference::of(self.pass))
    }

    /// Puts `count` references in one step, or all if there are fewer. Linux: `percpu_ref_put_many`.
    ///
    /// ```
    /// # use percpu_gate::{Gate, Start};
    /// # use std::sync::Arc;
    /// # let mut gate = Gate::new(1, 1, Start::Slots, [0; 8], Arc::new(|| {}))?;
    /// # let pass = gate.next_pass(0)?;
    /// let mut pieces = pass.try_get_live()?.get_many(3)?;
    /// gate.kill()?;
    /// pieces.put_many(2);
    /// assert!(!gate.is_zero());
    /// pieces.put_many(2);
    /// assert!(gate.is_zero());
    /// # Ok::<(), Box<dyn std::error::Error>>(())
    /// ```
    pub fn put_many(&mut self, count: u32) {
        let count = count.min(self.count);
        // Before the put, whose `on_last` may panic: the references must not be put again then.
        self.count -= count;
        if count > 0 {
            self.pass.put(count);
        }
    }
}

impl Drop for References<'_> {
    fn drop(&mut self) {
        self.put_many(self.count);
    }
}

impl fmt::Debug for References<'_> {
    fn fmt(&self, f: &mut fmt::Formatter<'_>) -> fmt::Result {
        f.debug_struct("References").field("pass", self.pass).field("count", &self.count).finish()
    }
}
