// Erased from crates/counted_io/src/input.rt by tools/erase: edit that file.
//! An input, read to its end or to a limit.

use crate::erased::counted_io::TRIES;
use crate::erased::counted_io::counted::{Counted, lasts};
use crate::erased::fallible::{AllocError, TryVec};
use std::error::Error;
use std::fmt;
use std::io::Read;

/// Number of bytes asked for in one read.
const PIECE: usize = 65_536;

/// Why an input couldn't be read.
#[derive(Clone, Copy, Debug, PartialEq, Eq)]
pub enum InputFault {
    /// Memory was refused.
    Memory,
    /// The reader failed.
    Read,
}

impl fmt::Display for InputFault {
    fn fmt(&self, f: &mut fmt::Formatter<'_>) -> fmt::Result {
        match self {
            InputFault::Memory => f.write_str("memory"),
            InputFault::Read => f.write_str("read"),
        }
    }
}

impl Error for InputFault {}

impl InputFault {
    /// Returns the fault's number, counted from 1 in order of declaration.
    pub fn number(&self) -> u8 {
        match self {
            InputFault::Memory => 1,
            InputFault::Read => 2,
        }
    }
}

/// Reads once, and tries again if a signal interrupts it. Returns `Err` if the reader fails, or is interrupted `TRIES`
/// times in a row.
fn read_piece<R: Read>(reader: &mut Counted<R>, room: &mut [u8]) -> Result<usize, InputFault> {
    for _ in 0..TRIES {
        match reader.read(room) {
            Ok(n) => return Ok(n),
            Err(e) => {
                if lasts(&e) {
                    return Err(InputFault::Read);
                }
            }
        }
    }
    Err(InputFault::Read)
}

/// Appends to `input` what one read into `room` returns. Returns the number of these bytes, which is 0 at the end.
fn read_more<R: Read>(reader: &mut Counted<R>, room: &mut [u8], input: &mut Vec<u8>) -> Result<usize, InputFault> {
    let count = read_piece(reader, room)?;
    input.try_extend_from_slice(&room[..count])?;
    Ok(count)
}

/// Appends to `input`, which is empty, all bytes of `reader`, or the first `most`.
///
/// # Preconditions
///
/// - `room.len()` is at least 1.
/// - `input` is `[]`.
fn read_all<R: Read>(
    reader: &mut Counted<R>,
    most: usize,
    room: &mut [u8],
    input: &mut Vec<u8>,
) -> Result<(), InputFault> {
    debug_assert!(0 < room.len());
    while input.len() < most {
        let wanted = room.len().min(most - input.len());
        if read_more(reader, &mut room[..wanted], input)? == 0 {
            return Ok(());
        }
    }
    Ok(())
}

// Separate, so that a proof sees the number of bytes and not a list of that length.
fn room_for(size: usize) -> Result<Vec<u8>, AllocError> {
    Vec::try_from_elem(0, size)
}

/// Returns all bytes of `reader`, or the first `most`, and reads no more than these.
///
/// Returns `Read` if the reader fails, which takes precedence: a reader that failed other than by an interruption isn't
/// read again. A read that a signal interrupts is tried again, up to [`TRIES`] times in a row, so that this call
/// returns. Returns `Memory` if memory is refused. What was read by then is lost.
pub fn read_whole<R: Read>(reader: &mut Counted<R>, most: usize) -> Result<Vec<u8>, InputFault> {
    let mut room = room_for(PIECE)?;
    let mut input = Vec::new();
    read_all(reader, most, &mut room, &mut input)?;
    Ok(input)
}

impl From<AllocError> for InputFault {
    fn from(_: AllocError) -> Self {
        InputFault::Memory
    }
}
