// A stand-in for calls of the kit's library, written by hand: tools/erase leaves it alone.
//! Growth that returns an error if memory is refused, where Rust's own calls would end the program.

#[cfg(feature = "std")]
extern crate std;

use alloc::boxed::Box;
use alloc::collections::{TryReserveError, VecDeque};
use alloc::vec::Vec;
use core::error::Error;
use core::fmt;

/// Memory was refused.
#[derive(Clone, Copy, Debug, PartialEq, Eq)]
pub struct AllocError;

impl fmt::Display for AllocError {
    fn fmt(&self, f: &mut fmt::Formatter<'_>) -> fmt::Result {
        f.write_str("memory allocation failed")
    }
}

impl Error for AllocError {}

impl From<TryReserveError> for AllocError {
    fn from(_: TryReserveError) -> AllocError {
        AllocError
    }
}

/// A copy, or `AllocError` if its memory is refused.
pub trait TryClone: Sized {
    /// A copy of this value.
    fn try_clone(&self) -> Result<Self, AllocError>;
}

impl<T: Clone> TryClone for T {
    #[inline]
    fn try_clone(&self) -> Result<Self, AllocError> {
        Ok(self.clone())
    }
}

/// Memory for this value was refused.
#[derive(Debug)]
pub struct AllocFailed<T> {
    pub value: T,
}

impl<T> From<AllocFailed<T>> for AllocError {
    fn from(_: AllocFailed<T>) -> AllocError {
        AllocError
    }
}

#[cfg(feature = "std")]
impl From<AllocError> for std::io::Error {
    fn from(_: AllocError) -> std::io::Error {
        std::io::ErrorKind::OutOfMemory.into()
    }
}

/// The calls of a vector that may ask for memory. If it is refused, the vector stays as it was.
pub trait TryVec<T>: Sized {
    /// An empty vector with room for `room` items.
    fn try_with_room(room: usize) -> Result<Self, AllocError>;

    /// A vector of these items.
    fn try_from_array<const N: usize>(items: [T; N]) -> Result<Self, AllocError>;

    /// A vector of `count` times `item`.
    fn try_from_elem(item: T, count: usize) -> Result<Self, AllocError>
    where
        T: TryClone;

    /// A vector of copies of these items.
    fn try_from_slice(items: &[T]) -> Result<Self, AllocError>
    where
        T: Clone;

    /// Puts an item behind the others.
    fn try_push(&mut self, item: T) -> Result<(), AllocError>;

    /// Cuts the vector to `count` items, or puts copies of `item` behind the others until there are `count`.
    fn try_resize(&mut self, count: usize, item: T) -> Result<(), AllocError>
    where
        T: Clone;

    /// Puts copies of these items behind the others.
    fn try_extend_from_slice(&mut self, items: &[T]) -> Result<(), AllocError>
    where
        T: Clone;

    /// Puts what an iterator gives behind the others. If memory is refused, what it gave before stays.
    fn try_extend(&mut self, items: impl IntoIterator<Item = T>) -> Result<(), AllocError>;
}

impl<T> TryVec<T> for Vec<T> {
    #[inline]
    fn try_with_room(room: usize) -> Result<Self, AllocError> {
        let mut made = Vec::new();
        made.try_reserve_exact(room)?;
        Ok(made)
    }

    fn try_from_array<const N: usize>(items: [T; N]) -> Result<Self, AllocError> {
        let mut made = Self::try_with_room(N)?;
        made.extend(items);
        Ok(made)
    }

    fn try_from_elem(item: T, count: usize) -> Result<Self, AllocError>
    where
        T: TryClone,
    {
        let mut made = Self::try_with_room(count)?;
        if count > 0 {
            for _ in 1..count {
                made.push(item.try_clone()?);
            }
            made.push(item);
        }
        Ok(made)
    }

    #[inline]
    fn try_from_slice(items: &[T]) -> Result<Self, AllocError>
    where
        T: Clone,
    {
        let mut made = Self::try_with_room(items.len())?;
        made.extend_from_slice(items);
        Ok(made)
    }

    #[inline]
    fn try_push(&mut self, item: T) -> Result<(), AllocError> {
        self.try_reserve(1)?;
        self.push(item);
        Ok(())
    }

    #[inline]
    fn try_resize(&mut self, count: usize, item: T) -> Result<(), AllocError>
    where
        T: Clone,
    {
        self.try_reserve(count.saturating_sub(self.len()))?;
        self.resize(count, item);
        Ok(())
    }

    #[inline]
    fn try_extend_from_slice(&mut self, items: &[T]) -> Result<(), AllocError>
    where
        T: Clone,
    {
        self.try_reserve(items.len())?;
        self.extend_from_slice(items);
        Ok(())
    }

    #[inline]
    fn try_extend(&mut self, items: impl IntoIterator<Item = T>) -> Result<(), AllocError> {
        items.into_iter().try_for_each(|item| self.try_push(item))
    }
}

/// Room for more items.
pub trait TryRoom {
    /// Makes room for `more` items behind those that are there.
    fn try_make_room(&mut self, more: usize) -> Result<(), AllocError>;

    /// The same, and no more room than that.
    fn try_make_exact_room(&mut self, more: usize) -> Result<(), AllocError>;
}

impl<T> TryRoom for Vec<T> {
    #[inline]
    fn try_make_room(&mut self, more: usize) -> Result<(), AllocError> {
        Ok(self.try_reserve(more)?)
    }

    #[inline]
    fn try_make_exact_room(&mut self, more: usize) -> Result<(), AllocError> {
        Ok(self.try_reserve_exact(more)?)
    }
}

impl<T> TryRoom for VecDeque<T> {
    #[inline]
    fn try_make_room(&mut self, more: usize) -> Result<(), AllocError> {
        Ok(self.try_reserve(more)?)
    }

    #[inline]
    fn try_make_exact_room(&mut self, more: usize) -> Result<(), AllocError> {
        Ok(self.try_reserve_exact(more)?)
    }
}

/// A copy of a slice.
pub trait TryToVec<T> {
    /// A vector of copies of these items.
    fn try_to_vec(&self) -> Result<Vec<T>, AllocError>;
}

impl<T: TryClone> TryToVec<T> for [T] {
    fn try_to_vec(&self) -> Result<Vec<T>, AllocError> {
        let mut made = Vec::try_with_room(self.len())?;
        for item in self {
            made.push(item.try_clone()?);
        }
        Ok(made)
    }
}

/// The items of an iterator, in a vector.
pub trait TryCollect: Iterator + Sized {
    /// A vector of the items that are left.
    fn try_collected(self) -> Result<Vec<Self::Item>, AllocError> {
        let mut made = Vec::try_with_room(self.size_hint().0)?;
        for item in self {
            made.try_push(item)?;
        }
        Ok(made)
    }
}

impl<I: Iterator> TryCollect for I {}

/// Why a test fails.
pub type Fail = Box<dyn Error>;
