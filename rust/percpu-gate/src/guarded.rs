//! A gate that guards a Rust value, such as a device.
//!
//! [`Gate<T>`](Gate) lends `&T` under a reference and `&mut T` while the gate is dead and at zero, and returns T at the end.
//!
//! ```
//! use percpu_gate::Start;
//! use percpu_gate::guarded::Gate;
//! use std::sync::Arc;
//! use std::sync::atomic::{AtomicU64, Ordering::Relaxed};
//! use std::thread;
//!
//! struct Device {
//!     sectors: u64,
//!     served: AtomicU64,
//! }
//!
//! let device = Device { sectors: 1000, served: AtomicU64::new(0) };
//! let mut gate = Gate::new(device, 2, 2, Start::Slots, Arc::new(|| println!("no request is left")))?;
//! let passes = [gate.next_pass(0)?, gate.next_pass(1)?];
//! let threads = passes.map(|pass| {
//!     thread::spawn(move || {
//!         while let Ok(device) = pass.try_get_live() {
//!             assert!(device.sectors == 1000 || device.sectors == 2000);
//!             device.served.fetch_add(1, Relaxed);
//!         }
//!     })
//! });
//! gate.kill()?;
//! while !gate.is_zero() {
//!     thread::yield_now(); // or wait until `on_last` is called
//! }
//! gate.get_mut()?.sectors = 2000; // the requests of the next life see it
//! gate.reinit()?;
//! gate.kill()?;
//! # while !gate.is_zero() {
//! #     thread::yield_now();
//! # }
//! let device: Device = gate.remove()?; // although threads still have their passes
//! assert_eq!(device.sectors, 2000);
//! # for thread in threads {
//! #     thread.join().unwrap();
//! # }
//! # Ok::<(), Box<dyn std::error::Error>>(())
//! ```
//!
//! A reference costs the same as with the plain gate. No call waits, takes a lock or retries. Unlike a `Mutex`, a gate isn't poisoned:
//! a thread that panics leaves the value as it is.
//!
//! The passes can move to other threads only if the value is `Send` and `Sync`, as with a shared `RwLock`.
use crate::{HandedBack, Killed, NewError, NextPassError, OnLast, Phase, RetireError, Start};
use crate::{KillError, ReinitError, ResurrectError, Revived};
use alloc::sync::Arc;
use core::fmt;
use value::Value;

mod errors;
mod pass;
mod reference;
mod value;

pub use errors::ChangeError;
pub use pass::Pass;
pub use reference::{OwnedReference, Reference};

/// A gate that guards a T. Its owner gives out passes, kills and revives the gate, changes the value, and gets it back at the end.
///
/// A gate can move between threads, but two threads can't use it at the same time (it is `Send`, and not `Sync`). If it is dropped, the
/// value is dropped with the last pass.
pub struct Gate<T> {
    gate: crate::Gate,
    /// The value of this gate.
    value: Arc<Value<T>>,
}

impl<T> Gate<T> {
    /// Makes a gate around this value, with 1 to 512 slots and 1 to 1,024 passes. [`Gate::new`](crate::Gate::new) says when `on_last` is
    /// called.
    ///
    /// # Errors
    ///
    /// Returns [`NewError::Size`] or [`NewError::NoMemory`], with the value. The gate and its passes share one [`Arc`], and the value is in
    /// another. Stable Rust can't report a failure of these two allocations: the program ends.
    ///
    /// # Examples
    ///
    /// ```
    /// use percpu_gate::Start;
    /// use percpu_gate::guarded::Gate;
    /// use std::sync::Arc;
    ///
    /// let refused = Gate::new("disk", 513, 1, Start::Slots, Arc::new(|| {})).unwrap_err();
    /// let gate = Gate::new(refused.value, 1, 1, Start::Slots, Arc::new(|| {}))?;
    /// # Ok::<(), Box<dyn std::error::Error>>(())
    /// ```
    pub fn new(
        value: T,
        slots: u32,
        passes: u32,
        start: Start,
        on_last: OnLast,
    ) -> Result<Gate<T>, HandedBack<T, NewError>> {
        match crate::Gate::new(slots, passes, start, [0; crate::WORD_COUNT], on_last) {
            Ok(gate) => Ok(Gate { value: Arc::new(Value::of(&gate, value)), gate }),
            Err(reason) => Err(HandedBack { value, reason }),
        }
    }

    /// Returns a pass that isn't out, as [`Gate::next_pass`](crate::Gate::next_pass) does.
    ///
    /// # Errors
    ///
    /// Returns [`NextPassError::NoSlot`] or [`NextPassError::NoPass`].
    pub fn next_pass(&mut self, slot: u32) -> Result<Pass<T>, NextPassError> {
        Ok(Pass::of(self.gate.next_pass(slot)?, Arc::clone(&self.value)))
    }

    /// Takes a pass back, as [`Gate::retire`](crate::Gate::retire) does.
    ///
    /// # Errors
    ///
    /// Returns [`RetireError::OtherGate`] or [`RetireError::StillHeld`], with the pass.
    #[expect(clippy::result_large_err, reason = "a refusal hands the pass back")]
    pub fn retire(&mut self, pass: Pass<T>) -> Result<(), HandedBack<Pass<T>, RetireError>> {
        let (pass, value) = pass.into_parts();
        let refused = self.gate.retire(pass);
        refused.map_err(|refused| HandedBack { value: Pass::of(refused.value, value), reason: refused.reason })
    }

    /// Kills the gate, as [`Gate::kill`](crate::Gate::kill) does: from now on `try_get_live` is refused.
    ///
    /// # Errors
    ///
    /// Returns [`KillError::AlreadyDead`] or [`KillError::WornOut`].
    pub fn kill(&mut self) -> Result<Killed, KillError> {
        self.gate.kill()
    }

    /// Kills the gate, as [`Gate::kill_and_confirm`](crate::Gate::kill_and_confirm) does.
    ///
    /// # Errors
    ///
    /// Returns [`KillError::AlreadyDead`] or [`KillError::WornOut`].
    pub fn kill_and_confirm(&mut self, confirm: impl FnOnce(u64)) -> Result<Killed, KillError> {
        self.gate.kill_and_confirm(confirm)
    }

    /// Revives a dead gate that has reached zero, as [`Gate::reinit`](crate::Gate::reinit) does. New references see the changed value.
    ///
    /// # Errors
    ///
    /// Returns [`ReinitError::NotDead`] or [`ReinitError::NotZero`].
    pub fn reinit(&mut self) -> Result<(), ReinitError> {
        self.gate.reinit()
    }

    /// Revives a dead gate, whether references are held or not, as [`Gate::resurrect`](crate::Gate::resurrect) does.
    ///
    /// # Errors
    ///
    /// Returns [`ResurrectError::NotDead`].
    pub fn resurrect(&mut self) -> Result<Revived, ResurrectError> {
        self.gate.resurrect()
    }

    /// Lends the value for a change while the gate is dead and at zero.
    ///
    /// # Errors
    ///
    /// Returns [`ChangeError::NotDead`] or [`ChangeError::NotZero`].
    ///
    /// # Examples
    ///
    /// ```
    /// # use percpu_gate::{Start, guarded::{ChangeError, Gate}};
    /// # use std::sync::Arc;
    /// let mut gate = Gate::new(String::from("slow"), 1, 1, Start::Slots, Arc::new(|| {}))?;
    /// let pass = gate.next_pass(0)?;
    /// assert_eq!(gate.get_mut(), Err(ChangeError::NotDead));
    /// gate.kill()?;
    /// gate.get_mut()?.replace_range(.., "fast");
    /// gate.reinit()?;
    /// assert_eq!(*pass.try_get_live()?, "fast");
    /// # Ok::<(), Box<dyn std::error::Error>>(())
    /// ```
    #[expect(clippy::missing_panics_doc, reason = "it never does")]
    pub fn get_mut(&mut self) -> Result<&mut T, ChangeError> {
        self.check()?;
        let value = self.value.alone(&mut self.gate).expect("it is dead and at zero");
        Ok(value.as_mut().expect("it is taken out where the gate ends"))
    }

    /// Ends a gate that is dead and at zero, and returns the value. Passes may still be out; they get no more references. Linux:
    /// `percpu_ref_exit`, and freeing the device.
    ///
    /// # Errors
    ///
    /// Returns [`ChangeError::NotDead`] or [`ChangeError::NotZero`], with the gate.
    ///
    /// # Examples
    ///
    /// ```
    /// # use percpu_gate::{Start, guarded::{ChangeError, Gate}};
    /// # use std::sync::Arc;
    /// let mut gate = Gate::new(String::from("disk"), 1, 1, Start::Slots, Arc::new(|| {}))?;
    /// let pass = gate.next_pass(0)?;
    /// let request = pass.try_get_live()?;
    /// gate.kill()?;
    /// let refused = gate.remove().unwrap_err();
    /// assert_eq!(refused.reason, ChangeError::NotZero);
    /// assert_eq!(*request, "disk");
    /// drop(request);
    /// let disk: String = refused.value.remove()?;
    /// assert!(pass.try_get_live().is_err());
    /// # Ok::<(), Box<dyn std::error::Error>>(())
    /// ```
    #[expect(clippy::missing_panics_doc, reason = "it never does")]
    #[expect(clippy::result_large_err, reason = "a refusal hands the gate back")]
    pub fn remove(mut self) -> Result<T, HandedBack<Gate<T>, ChangeError>> {
        if let Err(reason) = self.check() {
            return Err(HandedBack { value: self, reason });
        }
        let value = self.value.alone(&mut self.gate).expect("it is dead and at zero");
        Ok(value.take().expect("it is taken out here alone, where the gate ends"))
    }

    /// Returns whether the count has reached zero, as [`Gate::is_zero`](crate::Gate::is_zero) does.
    #[must_use]
    pub fn is_zero(&self) -> bool {
        self.gate.is_zero()
    }

    /// Returns the plain gate, for queries only.
    ///
    /// ```
    /// # use percpu_gate::{Phase, Start, guarded::Gate};
    /// # use std::sync::Arc;
    /// let mut gate = Gate::new((), 1, 1, Start::Slots, Arc::new(|| {}))?;
    /// gate.kill()?;
    /// assert_eq!((gate.as_gate().phase(), gate.as_gate().kills()), (Phase::Dead, 1));
    /// # Ok::<(), Box<dyn std::error::Error>>(())
    /// ```
    #[must_use]
    pub fn as_gate(&self) -> &crate::Gate {
        &self.gate
    }

    /// Makes the gate count only on the shared word, as [`Gate::switch_to_atomic`](crate::Gate::switch_to_atomic) does.
    pub fn switch_to_atomic(&mut self) {
        self.gate.switch_to_atomic();
    }

    /// Makes the gate count on slots, as [`Gate::switch_to_slots`](crate::Gate::switch_to_slots) does.
    pub fn switch_to_slots(&mut self) {
        self.gate.switch_to_slots();
    }

    /// Why the value can't be lent for a change. A gate that is dead and at zero stays so while its owner doesn't use it.
    fn check(&self) -> Result<(), ChangeError> {
        match self.gate.phase() {
            Phase::Dead if self.gate.is_zero() => Ok(()),
            Phase::Dead => Err(ChangeError::NotZero),
            _ => Err(ChangeError::NotDead),
        }
    }
}

impl<T> fmt::Debug for Gate<T> {
    fn fmt(&self, f: &mut fmt::Formatter<'_>) -> fmt::Result {
        f.debug_struct("Gate").field("gate", &self.gate).finish_non_exhaustive()
    }
}
