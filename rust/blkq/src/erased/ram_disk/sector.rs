// Erased from crates/ram_disk/src/sector.rt by tools/erase: edit that file.
//! A sector: 512 bytes that never change and that any number of owners share.

use crate::erased::fallible::{AllocError, TryClone};
use crate::erased::pointers::Arc;
use crate::erased::ram_disk::DiskFault;
use crate::erased::ram_disk::filled::filled_bytes;

/// The number of bytes of a sector.
pub const SECTOR_BYTES: usize = 512;

// What the owners of a sector share.
struct Block {
    bytes: [u8; SECTOR_BYTES],
}

// The bytes of a sector: one value at every place, or any.
enum Kind {
    Filled(u8),
    Copied(Arc<Block>),
}

/// One owner of 512 bytes that never change. In contracts it is the list of the bytes.
///
/// A clone is another owner: it copies no byte and takes no memory. An owner may move to another thread, and the bytes
/// live until the last owner is dropped. A sector that was made of one byte value has no memory of its own.
pub struct Sector {
    kind: Kind,
}

impl Sector {
    /// Returns the sector's 512 bytes.
    pub fn bytes(&self) -> &[u8] {
        match &self.kind {
            Kind::Filled(byte) => filled_bytes(*byte),
            Kind::Copied(block) => &block.bytes,
        }
    }

    // Returns the byte at every place, if the sector was made of one byte value. Reads no byte.
    pub(crate) fn only_byte(&self) -> Option<u8> {
        match &self.kind {
            Kind::Filled(byte) => Some(*byte),
            Kind::Copied(_) => None,
        }
    }

    // Returns a sector with this byte at every place.
    pub(crate) fn filled(byte: u8) -> Sector {
        Sector { kind: Kind::Filled(byte) }
    }

    // Returns a new sector with these 512 bytes.
    //
    // # Preconditions
    //
    // - `IsSector(from)`: a sector holds 512 numbers, each of them a byte.
    pub(crate) fn copied_from(from: &[u8]) -> Result<Sector, DiskFault> {
        let mut bytes = [0; SECTOR_BYTES];
        bytes.copy_from_slice(from);
        Ok(Sector { kind: Kind::Copied(Arc::try_new(Block { bytes })?) })
    }
}

impl TryClone for Sector {
    fn try_clone(&self) -> Result<Sector, AllocError> {
        let kind = match &self.kind {
            Kind::Filled(byte) => Kind::Filled(*byte),
            Kind::Copied(block) => Kind::Copied(Arc::try_clone(block)?),
        };
        Ok(Sector { kind })
    }
}
