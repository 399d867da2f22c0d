// Erased from crates/freeze_queue_c/src/freezer_handle.rt by tools/erase: edit that file.
//! The freezer's handle for C.

use crate::erased::c_answers::Misuse;
use crate::erased::freeze_queue_c::freezer_held::FreezerHeld;
use crate::erased::freeze_queue_c::open_freezer::OpenFreezer;
use crate::erased::pointers::TryBox;
use alloc::boxed::Box;
use core::mem;

/// The freezer's handle: for C a `bool` and a pointer, all zero if it is closed.
#[repr(C)]
pub struct FreezerHandle {
    is_open: bool,
    held: FreezerHeld,
}

impl FreezerHandle {
    /// A closed handle. (C makes its own, all zero.)
    #[cfg(test)]
    pub fn new() -> FreezerHandle {
        FreezerHandle { is_open: false, held: FreezerHeld::nothing() }
    }

    /// Takes the box of an open handle, which is closed afterwards.
    pub fn take(&mut self) -> Option<Box<OpenFreezer>> {
        if !self.is_open {
            return None;
        }
        self.is_open = false;
        let nothing = FreezerHeld::nothing();
        Some(mem::replace(&mut self.held, nothing).into_box())
    }

    /// Returns the allocator of a closed handle. Refuses with Open.
    pub fn closed(&self) -> Result<(), Misuse> {
        if self.is_open { Err(Misuse::Open) } else { Ok(()) }
    }

    /// Opens a closed handle, in a new box. Refuses with Memory.
    ///
    /// # Preconditions
    ///
    /// - `self.held.freezer` is `None`.
    pub fn open(&mut self, freezer: OpenFreezer) -> Result<(), Misuse> {
        match Box::try_from_value(freezer) {
            Ok(freezer) => {
                self.put_back(freezer);
                Ok(())
            }
            Err(_) => Err(Misuse::Memory),
        }
    }

    /// Opens a closed handle.
    ///
    /// # Preconditions
    ///
    /// - `self.held.freezer` is `None`.
    pub fn put_back(&mut self, freezer: Box<OpenFreezer>) {
        *self = FreezerHandle { is_open: true, held: FreezerHeld::of(freezer) };
    }
}
