// Erased from crates/counted_io/src/output.rt by tools/erase: edit that file.
//! A text, written whole or as far as the writer takes it.

use crate::erased::counted_io::TRIES;
use crate::erased::counted_io::counted::{Counted, lasts};
use std::error::Error;
use std::fmt;
use std::io::Write;

/// The fault of a writer that failed, with how much it had taken.
#[derive(Clone, Copy, Debug, PartialEq, Eq)]
pub struct WriteFault {
    /// The number of bytes written.
    pub written: u64,
}

impl fmt::Display for WriteFault {
    fn fmt(&self, f: &mut fmt::Formatter<'_>) -> fmt::Result {
        f.write_str("write")
    }
}

impl Error for WriteFault {}

/// The writer takes nothing more.
#[derive(Clone, Copy)]
struct Refused;

/// Writes once, and tries again if a signal interrupts it. Returns the number of bytes that were taken: at least 1.
/// Returns `Err` if the writer fails, takes nothing, or is interrupted `TRIES` times in a row.
///
/// # Preconditions
///
/// - `text.len()` is at least 1.
fn write_piece<W: Write>(writer: &mut Counted<W>, text: &[u8]) -> Result<usize, Refused> {
    debug_assert!(0 < text.len());
    for _ in 0..TRIES {
        match writer.write(text) {
            Ok(0) => return Err(Refused),
            Ok(n) => return Ok(n),
            Err(e) => {
                if lasts(&e) {
                    return Err(Refused);
                }
            }
        }
    }
    Err(Refused)
}

/// Writes `text`: each write offers all that is left, so that there are as few writes as the writer allows. It doesn't
/// flush: that is up to the writer's owner.
///
/// Returns `Err` if the writer fails or takes nothing, and writes nothing more: exactly the first `written` bytes went
/// out. A write that a signal interrupts is tried again, up to [`TRIES`] times in a row.
pub fn write_whole<W: Write>(writer: &mut Counted<W>, text: &[u8]) -> Result<(), WriteFault> {
    let mut written = 0;
    while written < text.len() {
        match write_piece(writer, &text[written..]) {
            Ok(count) => written += count,
            Err(Refused) => {
                return Err(WriteFault { written: written as u64 });
            }
        }
    }
    Ok(())
}
