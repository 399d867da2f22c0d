//! A box under a pointer that C may keep.

use crate::erased::pointers::TryBox;
use alloc::boxed::Box;

/// What a box owns, with its pointer in sight.
pub struct Loose<T> {
    pub(crate) at: *mut T,
}

impl<T> Loose<T> {
    fn of(whole: Box<T>) -> Loose<T> {
        let at = Box::into_raw(whole);
        Loose { at }
    }

    fn into_box(self) -> Box<T> {
        let Loose { at } = self;
        unsafe { Box::from_raw(at) }
    }
}

/// Both bounds stay but the one that every type meets.
pub fn copied<T, U>(it: &T, other: U) -> (T, U)
where
    T: Clone,
{
    (it.clone(), other)
}

/// A handle of a number.
#[repr(C)]
pub struct Handle {
    is_open: bool,
    held: *mut u64,
}

impl Handle {
    /// Its allocator, where it is closed.
    pub fn closed(&self) -> Result<(), u32> {
        if self.is_open { Err(33) } else { Ok(()) }
    }

    fn of_loose(loose: Loose<u64>) -> Handle {
        let Loose { at } = loose;
        Handle { is_open: true, held: at }
    }

    fn into_loose(self) -> Loose<u64> {
        Loose { at: self.held }
    }
}

/// A box of one more.
pub fn more(number: Box<u64>) -> Result<Box<u64>, u32> {
    match Box::try_from_value(number.wrapping_add(1)) {
        Ok(more) => Ok(more),
        Err(back) => Err(back.value as u32),
    }
}

/// What a box has.
pub fn opened(number: Box<u64>) -> u64 {
    let it = *number;
    it
}

fn fill(handle: &mut Handle, number: u64) -> Result<(), u32> {
    handle.closed()?;
    let made = more(Box::try_from_value(number).map_err(|_| 36)?)?;
    *handle = Handle::of_loose(Loose::of(made));
    Ok(())
}

fn fill_by_match(handle: &mut Handle, number: Box<u64>) -> Result<(), u64> {
    match handle.closed() {
        Ok(()) => (),
        Err(why) => return Err(u64::from(why)),
    };
    let Ok(made) = more(number) else {
        return Err(more(number));
    };
    *handle = Handle::of_loose(Loose::of(made));
    Ok(())
}

/// Fills a handle with a number. Its answer's number.
///
/// # Preconditions
///
/// - `number` is at most 1000.
#[unsafe(no_mangle)]
pub extern "C" fn handle_fill(handle: &mut Handle, number: u64) -> u32 {
    debug_assert!(number <= 1000);
    match fill(handle, number) {
        Ok(()) => 0,
        Err(why) => why,
    }
}
