// Erased from crates/ram_disk/src/pattern.rt by tools/erase: edit that file.
//! Sectors made of a repeated pattern.

use crate::erased::fallible::{TryClone, TryVec};
use crate::erased::ram_disk::sector::SECTOR_BYTES;
use crate::erased::ram_disk::{DiskFault, Sector};

/// Maximum number of bytes of a pattern.
pub const MAX_PATTERN: usize = 64;

// Enough of a repeated pattern to copy a sector from it, starting at any byte of the pattern.
const TILE_BYTES: usize = SECTOR_BYTES + MAX_PATTERN;

/// Returns `count` new sectors, with a pattern of 1 to 64 bytes repeated over the whole range: byte j is the pattern's
/// byte at j modulo the pattern's length. Returns `Memory` if memory is refused.
///
/// The pattern continues across sectors. Equal sectors are one sector, shared.
///
/// # Preconditions
///
/// - `pattern.len()` is from 1 to `MAX_PATTERN`.
pub fn patterned(pattern: &[u8], count: u32) -> Result<Vec<Sector>, DiskFault> {
    debug_assert!(1 <= pattern.len());
    debug_assert!(pattern.len() <= MAX_PATTERN);
    match only_byte(pattern) {
        Some(byte) => {
            let sector = Sector::filled(byte);
            Ok(Vec::try_from_elem(sector, count as usize)?)
        }
        None => tiled(pattern, count as usize),
    }
}

// Returns the only byte value of a pattern, if it has just one.
//
// # Preconditions
//
// - `pattern.len()` is at least 1.
pub(crate) fn only_byte(pattern: &[u8]) -> Option<u8> {
    debug_assert!(1 <= pattern.len());
    let first = pattern[0];
    pattern.iter().all(|byte| *byte == first).then_some(first)
}

// Makes each different sector once, and shares it afterwards.
//
// # Preconditions
//
// - `pattern.len()` is from 1 to `MAX_PATTERN`.
pub(crate) fn tiled(pattern: &[u8], count: usize) -> Result<Vec<Sector>, DiskFault> {
    debug_assert!(1 <= pattern.len());
    debug_assert!(pattern.len() <= MAX_PATTERN);
    let tile = tile_of(pattern);
    let period = period_in_sectors(pattern.len());
    let mut sectors: Vec<Sector> = Vec::try_with_room(count)?;
    for number in 0..count {
        let sector = if number < period {
            let start = number * SECTOR_BYTES % pattern.len();
            Sector::copied_from(&tile[start..start + SECTOR_BYTES])?
        } else {
            sectors[number - period].try_clone()?
        };
        sectors.push(sector);
    }
    Ok(sectors)
}

// Returns the pattern, repeated.
//
// # Preconditions
//
// - `pattern.len()` is from 1 to `MAX_PATTERN`.
fn tile_of(pattern: &[u8]) -> [u8; TILE_BYTES] {
    debug_assert!(1 <= pattern.len());
    debug_assert!(pattern.len() <= MAX_PATTERN);
    let mut tile = [0; TILE_BYTES];
    for place in 0..TILE_BYTES {
        tile[place] = if place < pattern.len() { pattern[place] } else { tile[place - pattern.len()] };
    }
    tile
}

// Returns the number of sectors after which a pattern of this length begins at the start of a sector again.
//
// # Preconditions
//
// - `length` is from 1 to `MAX_PATTERN`.
fn period_in_sectors(length: usize) -> usize {
    debug_assert!(1 <= length);
    debug_assert!(length <= MAX_PATTERN);
    (1..length).find(|sectors| *sectors * SECTOR_BYTES % length == 0).unwrap_or(length)
}
