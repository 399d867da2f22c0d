// Erased from crates/percpu_gate_c/src/pass_handle.rt by tools/erase: edit that file.
//! A pass's handle for C.

use crate::erased::c_answers::Misuse;
use crate::erased::percpu_gate_c::open_pass::OpenPass;
use crate::erased::percpu_gate_c::pass_held::PassHeld;
use alloc::boxed::Box;
use core::mem;

/// A pass's handle: for C a `bool` and a pointer, all zero if it is closed.
#[repr(C)]
pub struct PassHandle {
    is_open: bool,
    held: PassHeld,
}

impl PassHandle {
    /// A closed handle. (C makes its own, all zero.)
    #[cfg(test)]
    pub fn new() -> PassHandle {
        PassHandle { is_open: false, held: PassHeld::nothing() }
    }

    /// Takes the box of an open handle, which is closed afterwards.
    pub fn take(&mut self) -> Option<Box<OpenPass>> {
        if !self.is_open {
            return None;
        }
        self.is_open = false;
        let nothing = PassHeld::nothing();
        Some(mem::replace(&mut self.held, nothing).into_box())
    }

    /// The allocator of a closed handle. Refuses with Open.
    pub fn closed(&self) -> Result<(), Misuse> {
        if self.is_open { Err(Misuse::Open) } else { Ok(()) }
    }

    /// Opens a closed handle.
    ///
    /// # Preconditions
    ///
    /// - `self.held.pass` is `None`.
    pub fn put_back(&mut self, pass: Box<OpenPass>) {
        // Field by field, since the bytes between them needn't be stored: a store delays the exchange that comes next.
        self.held = PassHeld::of(pass);
        self.is_open = true;
    }
}
