// Erased from crates/freeze_queue_c/src/tag_held.rt by tools/erase: edit that file.
//! The box of a handle, behind a pointer that C may keep.

use crate::erased::freeze_queue_c::open_tag::OpenTag;
use crate::erased::loose_box::Loose;
use alloc::boxed::Box;
use core::ptr;

/// A box of a tag, or nothing. The pointer's type hides the tag's, which C may not know. Dropping it doesn't free the
/// box.
#[repr(C)]
pub struct TagHeld {
    at: *mut u8,
}

impl TagHeld {
    /// Returns nothing.
    pub(crate) fn nothing() -> TagHeld {
        let at = ptr::null_mut();
        TagHeld { at }
    }

    /// Holds this box.
    pub(crate) fn of(tag: Box<OpenTag>) -> TagHeld {
        TagHeld::of_loose(Loose::of(tag))
    }

    /// Returns the box.
    ///
    /// # Preconditions
    ///
    /// - For some `s` `self.tag` is `Some(s)`.
    pub(crate) fn into_box(self) -> Box<OpenTag> {
        self.into_loose().into_box()
    }

    fn of_loose(loose: Loose<OpenTag>) -> TagHeld {
        let Loose { at } = loose;
        TagHeld { at: at as *mut u8 }
    }

    /// # Preconditions
    ///
    /// - For some `s` `self.tag` is `Some(s)`.
    fn into_loose(self) -> Loose<OpenTag> {
        let TagHeld { at } = self;
        Loose { at: at as *mut OpenTag }
    }
}

unsafe impl Send for TagHeld {}
