//! Calls that ask for memory, of vectors and of others.

use crate::erased::fallible::{AllocError, TryRoom, TryVec};
use alloc::vec::Vec;

/// A list of its own.
pub struct List {
    items: Vec<u32>,
}

impl List {
    pub fn new(room: usize) -> Result<List, AllocError> {
        let mut items = Vec::try_with_room(room)?;
        items.push(1);
        items.try_push(2)?;
        items.try_extend_from_slice(&[3, 4])?;
        items.try_resize(9, 0)?;
        items.try_make_room(room)?;
        items.try_make_exact_room(1)?;
        Ok(List { items })
    }

    /// A method of the same name, with another number of arguments, is another.
    pub fn push(&mut self, first: u32, second: u32) -> u32 {
        self.items.insert(first as usize);
        first + second
    }

    pub fn filled() -> Result<Vec<u8>, AllocError> {
        Ok(Vec::try_from_elem(b';', 9)?)
    }

    pub fn listed() -> Result<Vec<[u8; 2]>, AllocError> {
        Ok(Vec::try_from_array([[1, 2], [3; 2]])?)
    }
}
