// Erased from crates/percpu_gate_c/src/pass_held.rt by tools/erase: edit that file.
//! The box of a handle, behind a pointer that C may keep.

use crate::erased::loose_box::Loose;
use crate::erased::percpu_gate_c::open_pass::OpenPass;
use alloc::boxed::Box;
use core::ptr;

/// A box of a pass, or nothing. The pointer's type hides the pass's, which C may not know. Dropping it doesn't free the
/// box.
#[repr(C)]
pub struct PassHeld {
    at: *mut u8,
}

impl PassHeld {
    /// Returns nothing.
    pub(crate) fn nothing() -> PassHeld {
        let at = ptr::null_mut();
        PassHeld { at }
    }

    /// Holds this box.
    pub(crate) fn of(pass: Box<OpenPass>) -> PassHeld {
        PassHeld::of_loose(Loose::of(pass))
    }

    /// Returns the box.
    ///
    /// # Preconditions
    ///
    /// - For some `s` `self.pass` is `Some(s)`.
    pub(crate) fn into_box(self) -> Box<OpenPass> {
        self.into_loose().into_box()
    }

    fn of_loose(loose: Loose<OpenPass>) -> PassHeld {
        let Loose { at } = loose;
        PassHeld { at: at as *mut u8 }
    }

    /// # Preconditions
    ///
    /// - For some `s` `self.pass` is `Some(s)`.
    fn into_loose(self) -> Loose<OpenPass> {
        let PassHeld { at } = self;
        Loose { at: at as *mut OpenPass }
    }
}

unsafe impl Send for PassHeld {}
