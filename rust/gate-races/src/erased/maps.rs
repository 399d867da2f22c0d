// A stand-in for the kit's maps, written by hand: tools/erase leaves it alone.
//! Maps whose growth may be refused, by a short hash of a fixed seed.

use crate::erased::fallible::AllocError;
use std::hash::{BuildHasher, BuildHasherDefault, Hash, Hasher};

/// A map by the short hash.
pub type HashMap<K, V> = std::collections::HashMap<K, V, BuildHasherDefault<FoldHasher>>;

/// The insertion into a map, which may ask for memory. If it is refused, the map stays as it was.
pub trait TryMap<K, V> {
    /// Puts a value at a key, and returns the value that was there.
    fn try_put(&mut self, key: K, value: V) -> Result<Option<V>, AllocError>;
}

impl<K: Eq + Hash, V, S: BuildHasher> TryMap<K, V> for std::collections::HashMap<K, V, S> {
    #[inline]
    fn try_put(&mut self, key: K, value: V) -> Result<Option<V>, AllocError> {
        self.try_reserve(1)?;
        Ok(self.insert(key, value))
    }
}

// The first digits of pi and of the golden ratio.
const SEED: u64 = 0x243f_6a88_85a3_08d3;
const FACTOR: u64 = 0x9e37_79b9_7f4a_7c15;

/// A short hash, of a fixed seed: each word is multiplied into the state, and both halves of the product are kept.
///
/// It hashes numbers as the hasher of the proved sources does, so that both builds keep the same states of a race and print its
/// outcomes in one order.
#[derive(Clone, Copy, Debug)]
pub struct FoldHasher {
    state: u64,
}

impl Default for FoldHasher {
    fn default() -> Self {
        FoldHasher { state: SEED }
    }
}

impl FoldHasher {
    /// Multiplies a word that was made of so many bytes into the state.
    #[inline]
    fn fold(&mut self, word: u64, bytes: u64) {
        let product = u128::from(self.state ^ word) * u128::from(FACTOR ^ (2 * bytes));
        self.state = product as u64 ^ (product >> 64) as u64;
    }
}

impl Hasher for FoldHasher {
    #[inline]
    fn write(&mut self, bytes: &[u8]) {
        for part in bytes.chunks(8) {
            let mut word = [0; 8];
            word[..part.len()].copy_from_slice(part);
            self.fold(u64::from_le_bytes(word), part.len() as u64);
        }
    }

    #[inline]
    fn write_u8(&mut self, number: u8) {
        self.fold(u64::from(number) * 0x01_0101, 1);
    }

    #[inline]
    fn write_u32(&mut self, number: u32) {
        self.fold(u64::from(number) << 32 | u64::from(number), 4);
    }

    #[inline]
    fn write_u64(&mut self, number: u64) {
        self.fold(number, 8);
    }

    #[inline]
    fn write_usize(&mut self, number: usize) {
        self.fold(number as u64, 8);
    }

    #[inline]
    fn finish(&self) -> u64 {
        self.state
    }
}
