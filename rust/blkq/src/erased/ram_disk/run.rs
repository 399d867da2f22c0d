// Erased from crates/ram_disk/src/run.rt by tools/erase: edit that file.
//! The maximal runs of equal bytes.

use crate::erased::fallible::{TryRoom, TryVec};
use crate::erased::ram_disk::sector::SECTOR_BYTES;
use crate::erased::ram_disk::{DiskFault, Sector};

// A byte, and how often it is repeated.
type Run = (u8, u64);

// The length of a run of this many sectors fits in 64 bits. No memory holds as many owners of sectors.
const MOST_SECTORS: usize = usize::MAX / SECTOR_BYTES;

/// Returns the maximal runs of equal bytes of these sectors, laid end to end: each byte, and how often it is repeated. There is
/// exactly one such list (`one_list_of_runs`). Returns `Memory` if memory is refused.
pub fn runs(sectors: &[Sector]) -> Result<Vec<(u8, u64)>, DiskFault> {
    if sectors.len() > MOST_SECTORS {
        return Err(DiskFault::Memory);
    }
    let mut runs: Vec<Run> = Vec::new();
    for sector in sectors {
        add_sector(&mut runs, sector)?;
    }
    Ok(runs)
}

/// Adds the runs of one more sector to maximal runs: the last run gets longer if the sector begins with its byte. A caller that has
/// no room for all runs of a long range can take them sector by sector, since a sector that is added later changes only the length
/// of the last run. Returns `Memory` if memory is refused; then the runs are unchanged.
///
/// # Preconditions
///
/// - `IsRuns(runs, bytes_of_runs(runs))`: these are the maximal runs of these bytes.
/// - `bytes_of_runs(runs).len() + SECTOR_BYTES` is less than `2^64`.
pub fn add_sector(runs: &mut Vec<(u8, u64)>, sector: &Sector) -> Result<(), DiskFault> {
    match sector.only_byte() {
        Some(byte) => add_run(runs, byte, SECTOR_BYTES as u64),
        None => add_bytes(runs, sector.bytes()),
    }
}

// Adds one byte, repeated: the last run gets longer if it has that byte, and otherwise a new run begins.
//
// # Preconditions
//
// - `IsRuns(runs, bytes_of_runs(runs))`: these are the maximal runs of these bytes.
// - `count` is at least 1.
// - `bytes_of_runs(runs).len() + count` is less than `2^64`.
fn add_run(runs: &mut Vec<Run>, byte: u8, count: u64) -> Result<(), DiskFault> {
    debug_assert!(0 < count);
    if let Some(last) = runs.last_mut() {
        if last.0 == byte {
            last.1 += count;
            return Ok(());
        }
    }
    runs.try_push((byte, count))?;
    Ok(())
}

// Adds the runs of these bytes. Memory for the worst case is allocated first, so that the loop can't fail.
//
// # Preconditions
//
// - `IsRuns(runs, bytes_of_runs(runs))`: these are the maximal runs of these bytes.
// - `bytes_of_runs(runs).len() + bytes.len()` is less than `2^64`.
fn add_bytes(runs: &mut Vec<Run>, bytes: &[u8]) -> Result<(), DiskFault> {
    let Some((first, rest)) = bytes.split_first() else {
        return Ok(());
    };
    runs.try_make_room(bytes.len())?;
    add_run(runs, *first, 1)?;
    let (mut byte, mut count) = runs.pop().unwrap();
    for next in rest {
        if *next != byte {
            runs.push((byte, count));
            byte = *next;
            count = 0;
        }
        count += 1;
    }
    runs.push((byte, count));
    Ok(())
}
