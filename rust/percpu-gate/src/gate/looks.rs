//! Queries of a gate.
use super::Gate;
use crate::WORD_COUNT;
use crate::erased::percpu_gate as erased;
use crate::outcomes::Phase;

impl Gate {
    /// Returns the eight guarded words. (A pass reads them while it holds a reference.)
    ///
    /// ```
    /// # use percpu_gate::{Gate, Start};
    /// # use std::sync::Arc;
    /// let gate = Gate::new(4, 4, Start::Slots, [1, 2, 3, 4, 5, 6, 7, 8], Arc::new(|| {}))?;
    /// assert_eq!(gate.words(), [1, 2, 3, 4, 5, 6, 7, 8]);
    /// # Ok::<(), Box<dyn std::error::Error>>(())
    /// ```
    #[must_use]
    pub fn words(&self) -> [u64; WORD_COUNT] {
        self.erased.borrow().words()
    }

    /// Returns the number of kills.
    ///
    /// ```
    /// # use percpu_gate::{Gate, Start};
    /// # use std::sync::Arc;
    /// # let mut gate = Gate::new(4, 4, Start::Slots, [0; 8], Arc::new(|| {}))?;
    /// gate.kill()?;
    /// assert_eq!(gate.kills(), 1);
    /// # Ok::<(), Box<dyn std::error::Error>>(())
    /// ```
    #[must_use]
    pub fn kills(&self) -> u64 {
        self.erased.borrow().kills()
    }

    /// Returns the number of releases made by calls of this gate and of retired passes.
    ///
    /// ```
    /// # use percpu_gate::{Gate, Start};
    /// # use std::sync::Arc;
    /// # let mut gate = Gate::new(4, 4, Start::Slots, [0; 8], Arc::new(|| {}))?;
    /// let pass = gate.next_pass(0)?;
    /// let reference = pass.try_get_live()?;
    /// gate.kill()?;
    /// drop(reference); // this calls `on_last`
    /// assert_eq!(gate.releases(), 0);
    /// gate.retire(pass)?;
    /// assert_eq!(gate.releases(), 1);
    /// # Ok::<(), Box<dyn std::error::Error>>(())
    /// ```
    #[must_use]
    pub fn releases(&self) -> u64 {
        self.erased.borrow().releases() + self.of_retired
    }

    /// Returns the phase of the gate.
    ///
    /// ```
    /// # use percpu_gate::{Gate, Phase, Start};
    /// # use std::sync::Arc;
    /// let gate = Gate::new(4, 4, Start::Dead, [0; 8], Arc::new(|| {}))?;
    /// assert_eq!(gate.phase(), Phase::Dead);
    /// # Ok::<(), Box<dyn std::error::Error>>(())
    /// ```
    #[must_use]
    pub fn phase(&self) -> Phase {
        match self.erased.borrow().phase() {
            erased::Phase::LiveSlots => Phase::LiveOnSlots,
            erased::Phase::LiveAtomic => Phase::LiveAtomic,
            // No kill is under way while the gate is borrowed for this call.
            _ => Phase::Dead,
        }
    }

    /// Returns whether the count has reached zero. `on_last` may not have been called yet, or not have returned. Linux:
    /// `percpu_ref_is_zero`.
    ///
    /// ```
    /// # use percpu_gate::{Gate, Start};
    /// # use std::sync::Arc;
    /// # let mut gate = Gate::new(4, 4, Start::Slots, [0; 8], Arc::new(|| {}))?;
    /// assert!(!gate.is_zero());
    /// gate.kill()?;
    /// assert!(gate.is_zero());
    /// # Ok::<(), Box<dyn std::error::Error>>(())
    /// ```
    #[must_use]
    pub fn is_zero(&self) -> bool {
        self.erased.borrow_mut().is_zero(&self.shared.gate)
    }

    /// Returns the unique id of the gate, at least 1.
    ///
    /// ```
    /// # use percpu_gate::{Gate, Start};
    /// # use std::sync::Arc;
    /// let here = Gate::new(1, 1, Start::Slots, [0; 8], Arc::new(|| {}))?;
    /// let there = Gate::new(1, 1, Start::Slots, [0; 8], Arc::new(|| {}))?;
    /// assert_ne!(here.id(), there.id());
    /// # Ok::<(), Box<dyn std::error::Error>>(())
    /// ```
    #[must_use]
    pub fn id(&self) -> u64 {
        self.shared.number
    }
}
