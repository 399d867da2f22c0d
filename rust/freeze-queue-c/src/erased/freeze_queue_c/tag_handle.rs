// Erased from crates/freeze_queue_c/src/tag_handle.rt by tools/erase: edit that file.
//! A tag's handle for C.

use crate::erased::c_answers::Misuse;
use crate::erased::freeze_queue_c::open_tag::OpenTag;
use crate::erased::freeze_queue_c::tag_held::TagHeld;
use alloc::boxed::Box;
use core::mem;

/// A tag's handle: for C a `bool` and a pointer, all zero if it is closed.
#[repr(C)]
pub struct TagHandle {
    is_open: bool,
    held: TagHeld,
}

impl TagHandle {
    /// A closed handle. (C makes its own, all zero.)
    #[cfg(test)]
    pub fn new() -> TagHandle {
        TagHandle { is_open: false, held: TagHeld::nothing() }
    }

    /// Takes the box of an open handle, which is closed afterwards.
    pub fn take(&mut self) -> Option<Box<OpenTag>> {
        if !self.is_open {
            return None;
        }
        self.is_open = false;
        let nothing = TagHeld::nothing();
        Some(mem::replace(&mut self.held, nothing).into_box())
    }

    /// Returns the allocator of a closed handle. Refuses with Open.
    pub fn closed(&self) -> Result<(), Misuse> {
        if self.is_open { Err(Misuse::Open) } else { Ok(()) }
    }

    /// Opens a closed handle.
    ///
    /// # Preconditions
    ///
    /// - `self.held.tag` is `None`.
    pub fn put_back(&mut self, tag: Box<OpenTag>) {
        // Field by field: between the two are bytes of C's (lent_slots).
        self.held = TagHeld::of(tag);
        self.is_open = true;
    }
}
