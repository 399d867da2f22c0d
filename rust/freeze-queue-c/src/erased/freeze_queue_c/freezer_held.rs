// Erased from crates/freeze_queue_c/src/freezer_held.rt by tools/erase: edit that file.
//! The box of a handle, behind a pointer that C may keep.

use crate::erased::freeze_queue_c::open_freezer::OpenFreezer;
use crate::erased::loose_box::Loose;
use alloc::boxed::Box;
use core::ptr;

/// A box of a freezer, or nothing. The pointer's type hides the freezer's, which C may not know. Dropping it doesn't
/// free the box.
#[repr(C)]
pub struct FreezerHeld {
    at: *mut u8,
}

impl FreezerHeld {
    /// Returns nothing.
    pub(crate) fn nothing() -> FreezerHeld {
        let at = ptr::null_mut();
        FreezerHeld { at }
    }

    /// Holds this box.
    pub(crate) fn of(freezer: Box<OpenFreezer>) -> FreezerHeld {
        FreezerHeld::of_loose(Loose::of(freezer))
    }

    /// Returns the box.
    ///
    /// # Preconditions
    ///
    /// - For some `s` `self.freezer` is `Some(s)`.
    pub(crate) fn into_box(self) -> Box<OpenFreezer> {
        self.into_loose().into_box()
    }

    fn of_loose(loose: Loose<OpenFreezer>) -> FreezerHeld {
        let Loose { at } = loose;
        FreezerHeld { at: at as *mut u8 }
    }

    /// # Preconditions
    ///
    /// - For some `s` `self.freezer` is `Some(s)`.
    fn into_loose(self) -> Loose<OpenFreezer> {
        let FreezerHeld { at } = self;
        Loose { at: at as *mut OpenFreezer }
    }
}

unsafe impl Send for FreezerHeld {}
