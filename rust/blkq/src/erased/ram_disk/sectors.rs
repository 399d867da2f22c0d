// Erased from crates/ram_disk/src/sectors.rt by tools/erase: edit that file.
//! Sectors, one after another.

use crate::erased::ram_disk::pattern::{only_byte, tiled};
use crate::erased::ram_disk::{DiskFault, MAX_PATTERN, Sector};

/// Sectors, one after another, as a read finds them or a write leaves them.
pub enum Sectors {
    /// This many with this byte at every place. They take no memory.
    Filled {
        /// The byte.
        byte: u8,
        /// How many there are.
        count: u32,
    },
    /// Any.
    Listed(Vec<Sector>),
}

impl Sectors {
    /// Returns no sectors.
    pub fn none() -> Sectors {
        Sectors::Filled { byte: 0, count: 0 }
    }

    /// Returns the sectors that [`patterned`](crate::erased::ram_disk::patterned) returns. Those of a pattern of one byte value take no memory.
    ///
    /// # Preconditions
    ///
    /// - `pattern.len()` is from 1 to `MAX_PATTERN`.
    pub fn patterned(pattern: &[u8], count: u32) -> Result<Sectors, DiskFault> {
        debug_assert!(1 <= pattern.len());
        debug_assert!(pattern.len() <= MAX_PATTERN);
        match only_byte(pattern) {
            Some(byte) => Ok(Sectors::Filled { byte, count }),
            None => Ok(Sectors::Listed(tiled(pattern, count as usize)?)),
        }
    }
}

// Returns the byte at every place of these sectors, if there are any and all were made of one byte value. Reads no byte.
pub(crate) fn common_byte(sectors: &[Sector]) -> Option<u8> {
    let byte = sectors.first()?.only_byte()?;
    for sector in sectors {
        if sector.only_byte()? != byte {
            return None;
        }
    }
    Some(byte)
}
