// Erased from crates/percpu_gate_c/src/control_handle.rt by tools/erase: edit that file.
//! The control's handle for C.

use crate::erased::c_answers::Misuse;
use crate::erased::percpu_gate_c::control_held::ControlHeld;
use crate::erased::percpu_gate_c::open_control::OpenControl;
use crate::erased::pointers::TryBox;
use alloc::boxed::Box;
use core::mem;

/// The control's handle: for C a `bool` and a pointer, all zero if it is closed.
#[repr(C)]
pub struct ControlHandle {
    is_open: bool,
    held: ControlHeld,
}

impl ControlHandle {
    /// A closed handle. (C makes its own, all zero.)
    #[cfg(test)]
    pub fn new() -> ControlHandle {
        ControlHandle { is_open: false, held: ControlHeld::nothing() }
    }

    /// Takes the box of an open handle, which is closed afterwards.
    pub fn take(&mut self) -> Option<Box<OpenControl>> {
        if !self.is_open {
            return None;
        }
        self.is_open = false;
        let nothing = ControlHeld::nothing();
        Some(mem::replace(&mut self.held, nothing).into_box())
    }

    /// The allocator of a closed handle. Refuses with Open.
    pub fn closed(&self) -> Result<(), Misuse> {
        if self.is_open { Err(Misuse::Open) } else { Ok(()) }
    }

    /// Opens a closed handle, in a new box. Refuses with Memory.
    ///
    /// # Preconditions
    ///
    /// - `self.held.control` is `None`.
    pub fn open(&mut self, control: OpenControl) -> Result<(), Misuse> {
        match Box::try_from_value(control) {
            Ok(control) => {
                self.put_back(control);
                Ok(())
            }
            Err(_) => Err(Misuse::Memory),
        }
    }

    /// Opens a closed handle.
    ///
    /// # Preconditions
    ///
    /// - `self.held.control` is `None`.
    pub fn put_back(&mut self, control: Box<OpenControl>) {
        *self = ControlHandle { is_open: true, held: ControlHeld::of(control) };
    }
}
