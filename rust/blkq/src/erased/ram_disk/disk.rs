// Erased from crates/ram_disk/src/disk.rt by tools/erase: edit that file.
//! The disk: its sectors by number, read by sharing and written by moving new ones in.

use crate::erased::fallible::{TryToVec, TryVec};
use crate::erased::ram_disk::sectors::{Sectors, common_byte};
use crate::erased::ram_disk::{DiskFault, Sector, runs};

/// Maximum number of sectors of a disk.
pub const MAX_SECTORS: u32 = 4096;

/// A disk of 1 to 4,096 sectors. In contracts it is the list of its sectors, each a list of 512 bytes.
pub struct Disk {
    sectors: Vec<Sector>,
}

impl Disk {
    /// Returns a disk of this many sectors of zeros. Returns `Memory` if memory is refused.
    ///
    /// Linux: a new `brd` device reads as zeros, since it has no pages yet (drivers/block/brd.c).
    ///
    /// # Preconditions
    ///
    /// - `sectors` is from 1 to `MAX_SECTORS`.
    pub fn new(sectors: u32) -> Result<Disk, DiskFault> {
        debug_assert!(1 <= sectors);
        debug_assert!(sectors <= MAX_SECTORS);
        let sectors = Vec::try_from_elem(Sector::filled(0), sectors as usize)?;
        Ok(Disk { sectors })
    }

    /// Returns the number of sectors, 1 to 4,096.
    pub fn len(&self) -> u32 {
        self.sectors.len() as u32
    }

    /// Reads `count` sectors, starting with sector `start`, by sharing them.
    ///
    /// Returns `PastEnd` if the range reaches past the last sector, which is tested first, and `Memory` if there is none for the
    /// list. A range of no sectors that starts at the end doesn't reach past it.
    ///
    /// Linux: a request past the end of the device is an I/O error (`bio_check_eod`, block/blk-core.c).
    pub fn share(&self, start: u64, count: u32) -> Result<Vec<Sector>, DiskFault> {
        let len = self.sectors.len() as u64;
        if start > len || u64::from(count) > len - start {
            return Err(DiskFault::PastEnd);
        }
        let start = start as usize;
        let end = start + count as usize;
        Ok(self.sectors[start..end].try_to_vec()?)
    }

    /// Reads like [`Disk::share`]. Sectors that were all made of one byte value take no memory.
    pub fn find(&self, start: u64, count: u32) -> Result<Sectors, DiskFault> {
        let len = self.sectors.len() as u64;
        if start > len || u64::from(count) > len - start {
            return Err(DiskFault::PastEnd);
        }
        let start = start as usize;
        let sectors = &self.sectors[start..start + count as usize];
        match common_byte(sectors) {
            Some(byte) => Ok(Sectors::Filled { byte, count }),
            None => Ok(Sectors::Listed(sectors.try_to_vec()?)),
        }
    }

    /// Writes these sectors to the disk, starting with sector `start`. It always succeeds.
    ///
    /// The sectors are moved in, and the disk drops its shares of the old ones.
    ///
    /// # Preconditions
    ///
    /// - `start + sectors.len()` is at most `self.len()`.
    pub fn install(&mut self, start: u64, sectors: Vec<Sector>) {
        replace(&mut self.sectors, start as usize, sectors);
    }

    /// Writes these sectors like [`Disk::install`].
    ///
    /// # Preconditions
    ///
    /// - `start + sectors_of(sectors).len()` is at most `self.len()`.
    pub fn leave(&mut self, start: u64, sectors: Sectors) {
        match sectors {
            Sectors::Filled { byte, count } => fill(&mut self.sectors, start as usize, count, byte),
            Sectors::Listed(sectors) => replace(&mut self.sectors, start as usize, sectors),
        }
    }

    /// Returns the disk's sectors, in the order of their numbers.
    pub fn sectors(&self) -> &[Sector] {
        &self.sectors
    }

    /// Returns the maximal runs of equal bytes of the whole disk, as `runs` does. Returns `Memory` if memory is refused.
    pub fn all_runs(&self) -> Result<Vec<(u8, u64)>, DiskFault> {
        runs(&self.sectors)
    }
}

/// # Preconditions
///
/// - `start + sectors.len()` is at most `kept.len()`.
fn replace(kept: &mut Vec<Sector>, start: usize, sectors: Vec<Sector>) {
    let mut place = start;
    for sector in sectors {
        kept[place] = sector;
        place += 1;
    }
}

/// # Preconditions
///
/// - `start + count` is at most `kept.len()`.
fn fill(kept: &mut Vec<Sector>, start: usize, count: u32, byte: u8) {
    for place in start..start + count as usize {
        kept[place] = Sector::filled(byte);
    }
}
