//! A reference that takes its pass along.
use crate::WORD_COUNT;
use crate::errors::TryGetError;
use crate::handed_back::HandedBack;
use crate::pass::Pass;
use crate::word::Word;
use core::fmt;

/// A reference together with the pass that took it, so that it can end on another thread.
///
/// In Linux any thread may put a reference that another took. Here a reference belongs to its pass, so a request that
/// ends on another thread takes its pass along. [`put`](OwnedReference::put) returns the pass. Dropping this value puts the
/// reference and drops the pass, which then can't be retired.
///
/// ```
/// use percpu_gate::{Gate, Start};
/// use std::sync::Arc;
/// use std::thread;
///
/// let mut gate = Gate::new(1, 1, Start::Slots, [0; 8], Arc::new(|| {}))?;
/// let request = gate.next_pass(0)?.into_reference_live()?;
/// let pass = thread::spawn(move || request.put()).join().unwrap();
/// gate.retire(pass)?;
/// gate.exit()?;
/// # Ok::<(), Box<dyn std::error::Error>>(())
/// ```
#[must_use = "an unused reference is put at once"]
pub struct OwnedReference {
    /// The pass, which holds one more than it has given out; none once it was given back.
    pass: Option<Pass>,
}

impl OwnedReference {
    /// Makes the reference that a try took on the pass, or hands the pass back if the try was refused.
    #[expect(clippy::result_large_err, reason = "a refusal hands the pass back")]
    pub(crate) fn of(
        pass: Pass,
        taken: Result<(), TryGetError>,
    ) -> Result<OwnedReference, HandedBack<Pass, TryGetError>> {
        match taken {
            Ok(()) => Ok(OwnedReference { pass: Some(pass) }),
            Err(reason) => Err(HandedBack { value: pass, reason }),
        }
    }

    /// Puts the reference and returns the pass. If `on_last` panics in this call, the pass is dropped.
    ///
    /// ```
    /// # use percpu_gate::{Gate, Start};
    /// # use std::sync::Arc;
    /// # let mut gate = Gate::new(1, 1, Start::Slots, [0; 8], Arc::new(|| {}))?;
    /// # let pass = gate.next_pass(0)?;
    /// let request = pass.into_reference()?;
    /// let pass = request.put();
    /// assert!(pass.try_get_live().is_ok());
    /// # Ok::<(), Box<dyn std::error::Error>>(())
    /// ```
    #[expect(clippy::missing_panics_doc, reason = "it never does")]
    pub fn put(mut self) -> Pass {
        let pass = self.pass.take().expect("it is there until this call");
        pass.put(1);
        pass
    }

    /// Returns the pass, with which more references may be taken.
    ///
    /// ```
    /// # use percpu_gate::{Gate, Start};
    /// # use std::sync::Arc;
    /// # let mut gate = Gate::new(1, 1, Start::Slots, [0; 8], Arc::new(|| {}))?;
    /// # let pass = gate.next_pass(0)?;
    /// let request = pass.into_reference()?;
    /// let another = request.pass().try_get_live()?;
    /// assert!(!request.pass().is_dying());
    /// # Ok::<(), Box<dyn std::error::Error>>(())
    /// ```
    #[expect(clippy::missing_panics_doc, reason = "it never does")]
    #[inline]
    #[must_use]
    pub fn pass(&self) -> &Pass {
        self.pass.as_ref().expect("it is there until it is put")
    }

    /// Reads a guarded word, which keeps its value while a reference is held.
    ///
    /// ```
    /// # use percpu_gate::{Gate, Start, Word};
    /// # use std::sync::Arc;
    /// # let mut gate = Gate::new(1, 1, Start::Slots, [512; 8], Arc::new(|| {}))?;
    /// # let pass = gate.next_pass(0)?;
    /// let request = pass.into_reference()?;
    /// assert_eq!(request.word(Word::ALL[0]), 512);
    /// # Ok::<(), Box<dyn std::error::Error>>(())
    /// ```
    #[must_use]
    pub fn word(&self, which: Word) -> u64 {
        self.pass().word(which)
    }

    /// Reads all eight guarded words.
    ///
    /// ```
    /// # use percpu_gate::{Gate, Start};
    /// # use std::sync::Arc;
    /// # let mut gate = Gate::new(1, 1, Start::Slots, [7; 8], Arc::new(|| {}))?;
    /// # let pass = gate.next_pass(0)?;
    /// let request = pass.into_reference()?;
    /// assert_eq!(request.words(), [7; 8]);
    /// # Ok::<(), Box<dyn std::error::Error>>(())
    /// ```
    #[must_use]
    pub fn words(&self) -> [u64; WORD_COUNT] {
        Word::ALL.map(|which| self.word(which))
    }
}

impl Drop for OwnedReference {
    fn drop(&mut self) {
        if let Some(pass) = self.pass.take() {
            pass.put(1);
        }
    }
}

impl fmt::Debug for OwnedReference {
    fn fmt(&self, f: &mut fmt::Formatter<'_>) -> fmt::Result {
        f.debug_tuple("OwnedReference").field(&self.pass).finish()
    }
}
