//! A reference that borrows its pass.
use crate::WORD_COUNT;
use crate::errors::GetError;
use crate::pass::Pass;
use crate::references::References;
use crate::word::Word;
use core::fmt;

/// A reference. While it exists, the gate doesn't reach zero and the guarded words don't change.
///
/// It borrows the pass that took it, since no other pass can put it, and stays on the pass's thread. Use
/// [`OwnedReference`](crate::OwnedReference) for a reference that ends on another thread.
///
/// Dropping a reference puts it, on the slot that the pass uses then (Linux: `percpu_ref_put`). If it was the last one after a kill,
/// `on_last` is called before the drop returns. A leaked reference (`mem::forget`) is held forever: its gate never reaches zero, and its
/// pass can't be retired.
///
/// ```
/// use percpu_gate::{Gate, Start};
/// use std::sync::Arc;
/// use std::sync::atomic::{AtomicU32, Ordering};
///
/// let released = Arc::new(AtomicU32::new(0));
/// let count = Arc::clone(&released);
/// let on_last = Arc::new(move || { count.fetch_add(1, Ordering::SeqCst); });
/// let mut gate = Gate::new(1, 1, Start::Slots, [0; 8], on_last)?;
/// let pass = gate.next_pass(0)?;
/// let reference = pass.try_get_live()?;
/// gate.kill()?;
/// assert_eq!(released.load(Ordering::SeqCst), 0);
/// drop(reference);
/// assert_eq!(released.load(Ordering::SeqCst), 1);
/// # Ok::<(), Box<dyn std::error::Error>>(())
/// ```
#[must_use = "an unused reference is put at once"]
pub struct Reference<'p> {
    pass: &'p Pass,
}

impl<'p> Reference<'p> {
    /// The pass holds one more than it has given out.
    pub(crate) fn of(pass: &'p Pass) -> Reference<'p> {
        Reference { pass }
    }

    /// The id of its gate.
    #[inline]
    pub(crate) fn gate_id(&self) -> u64 {
        self.pass.gate_id()
    }

    /// Takes another reference, of a live or dead gate. A pass that holds one always gets another, up to 65,535. Linux: `percpu_ref_get`.
    ///
    /// # Errors
    ///
    /// Returns [`GetError::HeldFull`].
    ///
    /// # Examples
    ///
    /// ```
    /// # use percpu_gate::{Gate, Start};
    /// # use std::sync::Arc;
    /// # let mut gate = Gate::new(1, 1, Start::Slots, [0; 8], Arc::new(|| {}))?;
    /// # let pass = gate.next_pass(0)?;
    /// let reference = pass.try_get_live()?;
    /// gate.kill()?;
    /// let another = reference.try_clone()?;
    /// drop(reference);
    /// assert!(!gate.is_zero());
    /// drop(another);
    /// assert!(gate.is_zero());
    /// # Ok::<(), Box<dyn std::error::Error>>(())
    /// ```
    pub fn try_clone(&self) -> Result<Reference<'p>, GetError> {
        self.pass.get(1)?;
        Ok(Reference::of(self.pass))
    }

    /// Takes `count` more references in one step, of a live or dead gate. (To try for several, try for one and call this.) Linux:
    /// `percpu_ref_get_many`.
    ///
    /// # Errors
    ///
    /// Returns [`GetError::HeldFull`].
    ///
    /// # Examples
    ///
    /// ```
    /// # use percpu_gate::{Gate, Start};
    /// # use std::sync::Arc;
    /// # let mut gate = Gate::new(1, 1, Start::Slots, [0; 8], Arc::new(|| {}))?;
    /// # let pass = gate.next_pass(0)?;
    /// let request = pass.try_get_live()?;
    /// let mut bios = request.get_many(8)?;
    /// gate.kill()?;
    /// drop(request);
    /// bios.put_many(5);
    /// assert_eq!(bios.count(), 3);
    /// drop(bios); // the other three, in one step
    /// assert!(gate.is_zero());
    /// # Ok::<(), Box<dyn std::error::Error>>(())
    /// ```
    pub fn get_many(&self, count: u32) -> Result<References<'p>, GetError> {
        self.pass.get(count)?;
        Ok(References::of(self.pass, count))
    }

    /// Reads a guarded word, which keeps its value while a reference is held.
    ///
    /// ```
    /// # use percpu_gate::{Gate, Start, Word};
    /// # use std::sync::Arc;
    /// const SECTOR_LIMIT: Word = Word::new(0).unwrap();
    /// let words = [512, 0, 0, 0, 0, 0, 0, 0];
    /// # let mut gate = Gate::new(1, 1, Start::Slots, words, Arc::new(|| {}))?;
    /// # let pass = gate.next_pass(0)?;
    /// let reference = pass.try_get_live()?;
    /// assert_eq!(reference.word(SECTOR_LIMIT), 512);
    /// # Ok::<(), Box<dyn std::error::Error>>(())
    /// ```
    #[must_use]
    pub fn word(&self, which: Word) -> u64 {
        self.pass.word(which)
    }

    /// Reads all eight guarded words.
    ///
    /// ```
    /// # use percpu_gate::{Gate, Start};
    /// # use std::sync::Arc;
    /// # let mut gate = Gate::new(1, 1, Start::Slots, [7; 8], Arc::new(|| {}))?;
    /// # let pass = gate.next_pass(0)?;
    /// let reference = pass.try_get_live()?;
    /// assert_eq!(reference.words(), [7; 8]);
    /// # Ok::<(), Box<dyn std::error::Error>>(())
    /// ```
    #[must_use]
    pub fn words(&self) -> [u64; WORD_COUNT] {
        Word::ALL.map(|which| self.word(which))
    }
}

impl Drop for Reference<'_> {
    fn drop(&mut self) {
        self.pass.put(1);
    }
}

impl fmt::Debug for Reference<'_> {
    fn fmt(&self, f: &mut fmt::Formatter<'_>) -> fmt::Result {
        f.debug_tuple("Reference").field(self.pass).finish()
    }
}
