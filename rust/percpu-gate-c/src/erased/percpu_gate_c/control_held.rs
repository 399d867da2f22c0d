// Erased from crates/percpu_gate_c/src/control_held.rt by tools/erase: edit that file.
//! The box of a handle, behind a pointer that C may keep.

use crate::erased::loose_box::Loose;
use crate::erased::percpu_gate_c::open_control::OpenControl;
use alloc::boxed::Box;
use core::ptr;

/// A box of a control, or nothing. The pointer's type hides the control's, which C may not know. Dropping it doesn't
/// free the box.
#[repr(C)]
pub struct ControlHeld {
    at: *mut u8,
}

impl ControlHeld {
    /// Returns nothing.
    pub(crate) fn nothing() -> ControlHeld {
        let at = ptr::null_mut();
        ControlHeld { at }
    }

    /// Holds this box.
    pub(crate) fn of(control: Box<OpenControl>) -> ControlHeld {
        ControlHeld::of_loose(Loose::of(control))
    }

    /// Returns the box.
    ///
    /// # Preconditions
    ///
    /// - For some `s` `self.control` is `Some(s)`.
    pub(crate) fn into_box(self) -> Box<OpenControl> {
        self.into_loose().into_box()
    }

    fn of_loose(loose: Loose<OpenControl>) -> ControlHeld {
        let Loose { at } = loose;
        ControlHeld { at: at as *mut u8 }
    }

    /// # Preconditions
    ///
    /// - For some `s` `self.control` is `Some(s)`.
    fn into_loose(self) -> Loose<OpenControl> {
        let ControlHeld { at } = self;
        Loose { at: at as *mut OpenControl }
    }
}

unsafe impl Send for ControlHeld {}
