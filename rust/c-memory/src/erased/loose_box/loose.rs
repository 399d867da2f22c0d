// Erased from crates/loose_box/src/loose.rt by tools/erase: edit that file.
//! A box taken apart.

use alloc::boxed::Box;

/// A box, with its pointer visible.
pub struct Loose<T> {
    pub at: *mut T,
}

impl<T> Loose<T> {
    /// Takes a box apart.
    pub fn of(whole: Box<T>) -> Loose<T> {
        let at = Box::into_raw(whole);
        Loose { at }
    }

    /// Puts the box together again.
    pub fn into_box(self) -> Box<T> {
        let Loose { at } = self;
        unsafe { Box::from_raw(at) }
    }
}
