// Erased from crates/blkq_run/src/replay_run.rt by tools/erase: edit that file.
//! From the bytes of a reader to the bytes of a writer, for a schedule.

use crate::erased::blkq_run::fault::Fault;
use crate::erased::blkq_run::run::MOST_READ;
use crate::erased::counted_io::{Counted, read_whole, write_whole};
use crate::erased::gate_replay::{Replayed, replay_text};
use std::io::{Read, Write};

/// Replays the schedule that `reader` has, and writes what it shows and nothing else: a line for each step that was taken, and
/// then the line of the end, or of the step that isn't enabled. Returns which of the two it was.
///
/// The faults, in this order:
///
/// - `Read`: the reader failed.
/// - `Parse`: the input isn't a schedule.
/// - `Write`: the writer failed, after the first `written` bytes of the text. With any other fault nothing was written.
/// - `Memory`: memory was refused.
///
/// Never returns `Thread` or `Overlap`. Reads at most 1,048,577 bytes, one more than the longest schedule has.
pub fn replay_bytes<R: Read, W: Write>(reader: &mut Counted<R>, writer: &mut Counted<W>) -> Result<Replayed, Fault> {
    let input = read_whole(reader, MOST_READ)?;
    let replay = replay_text(&input)?;
    write_whole(writer, replay.text())?;
    Ok(replay.ended())
}
