// Erased from crates/blkq_run/src/replay_report.rt by tools/erase: edit that file.
//! The exit status of a replay.

use crate::erased::blkq_run::replay_run::replay_bytes;
use crate::erased::counted_io::Counted;
use crate::erased::gate_replay::Replayed;
use crate::erased::streams::WriteLine;
use std::io::{Read, Write};

/// Exit status if a step of the schedule wasn't enabled.
const STUCK: u8 = 3;

/// Replays the schedule that `reader` has and returns the exit status; writes a line to `errors` if there was a fault. If a replay
/// ends at a step that isn't enabled, its last line says so; that isn't a fault.
pub(crate) fn replay_reported<R: Read, W: Write, E: Write>(
    reader: &mut Counted<R>,
    writer: &mut Counted<W>,
    errors: &mut E,
) -> u8 {
    match replay_bytes(reader, writer) {
        Ok(Replayed::Whole) => 0,
        Ok(Replayed::Stuck) => STUCK,
        Err(fault) => {
            let _ = errors.writeln(fault);
            fault.status()
        }
    }
}
