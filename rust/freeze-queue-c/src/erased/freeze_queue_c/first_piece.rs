// Erased from crates/freeze_queue_c/src/first_piece.rt by tools/erase: edit that file.
//! The first piece of a request that is cut by limits.

use crate::erased::c_answers::Misuse;
use crate::erased::freeze_queue_c::plain_limits::PlainLimits;
use crate::erased::freeze_queue_c::refusal::Refusal;

/// Returns the length of the first piece. Refuses with the limits' faults, then with Range.
fn first_piece(limits: &PlainLimits, start: u64, count: u32) -> Result<u32, Refusal> {
    match limits.checked() {
        Err(why) => Err(Refusal::OfLimits(why)),
        Ok(_) if start >= 1 << 33 || count == 0 => Err(Refusal::OfMisuse(Misuse::Range)),
        Ok(limits) => Ok(limits.next_piece(start, count)),
    }
}

/// Writes the length of a piece and returns 0, or returns the number of the refusal.
fn write_piece(answer: Result<u32, Refusal>, piece: &mut u32) -> u32 {
    match answer {
        Ok(length) => {
            *piece = length;
            0
        }
        Err(why) => why.number(),
    }
}

/// Writes the length, in sectors, of the first piece of the `count` sectors (1 or more) that start at `start` (below 2^33), as these
/// limits cut them. Refuses with the limits' faults (25 to 28) or Range. Linux: `get_max_io_size` (block/blk-merge.c).
#[unsafe(no_mangle)]
pub extern "C" fn freeze_queue_first_piece(limits: &PlainLimits, start: u64, count: u32, piece: &mut u32) -> u32 {
    write_piece(first_piece(limits, start, count), piece)
}
