// Erased from crates/ram_disk/src/lib.rt by tools/erase: edit that file.
//! A disk in memory, made of sectors that never change and are shared.
//!
//! It is like Linux's RAM block device (`brd`, drivers/block/brd.c): an array of sectors that are read and written by
//! number, with an error for a range past the end. In Linux a write copies bytes into pages that the device owns. Here
//! a [`Sector`] is 512 bytes that never change, with a count of its owners:
//!
//! - A read, [`Disk::share`], returns more owners of the sectors and copies no byte. What it returns stays as it was
//!   read, whatever is written later, so another thread can look at it.
//! - A write has two halves. [`patterned`] makes the new sectors, which can fail if memory is refused, and
//!   [`Disk::install`] moves them into the disk, which can't fail. So a write that fails has changed nothing.
//! - [`runs`] and [`Disk::all_runs`] return the bytes as maximal runs of equal bytes, and [`add_sector`] adds those of
//!   one more sector.
//!
//! In contracts a sector is the list of its bytes, and a disk the list of its sectors.
//!
//! # Cost
//!
//! No contract bounds time or memory; this describes the code.
//!
//! - A sector that was made of one byte value takes no memory, and so those of a new disk. A pattern of L bytes makes
//!   L / gcd(L, 512) different sectors, 63 at most, and owners of these for the rest of the range.
//! - Another owner of a sector is a count that goes up: it takes no memory.
//! - A sector of one byte value is known as such from the time it is made. In `runs` it is one step, and a run that
//!   spans sectors is joined without a look at their bytes. Other sectors are read byte by byte.
//! - The 512 bytes of a sector are written once, when it is made, and never copied again.

mod disk;
mod fault;
mod filled;
mod pattern;
mod run;
mod sector;
mod sectors;

pub use disk::{Disk, MAX_SECTORS};
pub use fault::DiskFault;
pub use pattern::{MAX_PATTERN, patterned};
pub use run::{add_sector, runs};
pub use sector::{SECTOR_BYTES, Sector};
pub use sectors::Sectors;
