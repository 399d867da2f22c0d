// Erased from crates/blkq_run/src/run.rt by tools/erase: edit that file.
//! From the bytes of a reader to the bytes of a writer.

use crate::erased::blk_script::{Checked, parse, push_disk};
use crate::erased::blk_workers::{Config, Ran, Stall, run_checked};
use crate::erased::blkq_run::fault::Fault;
use crate::erased::counted_io::{Counted, read_whole, write_whole};
use crate::erased::line_text::LONGEST_TEXT;
use std::io::{Read, Write};

// Returns the output of a run: its replies, then the line of its disk.
fn text_of(ran: Ran) -> Result<Vec<u8>, Fault> {
    let mut text = ran.replies;
    push_disk(&mut text, &ran.disk).map_err(|_| Fault::Memory)?;
    Ok(text)
}

/// Returns the output for `input`: the text that a run on one thread writes, computed on the configured number of
/// threads.
///
/// Returns `Memory` or `Thread` if memory is refused or a thread can't be started, otherwise the fault for which the input is
/// refused.
fn answer<S: Stall>(input: &[u8], config: Config, stall: &S) -> Result<Vec<u8>, Fault> {
    let script = parse(input)?;
    let checked = Checked::of(&script)?;
    let ran = run_checked(&checked, config, stall)?;
    text_of(ran)
}

/// Maximum number of bytes read: one more than the longest script or schedule, so that a longer input is noticed.
pub const MOST_READ: usize = LONGEST_TEXT + 1;

/// Runs the script that `reader` has, with the workers, slots and tags of `config`, and writes its output and nothing else.
/// `stall` may hold the run at each of its points.
///
/// The faults, in this order:
///
/// - `Read`: the reader failed.
/// - `Parse`: the input isn't a script.
/// - `Overlap`: two requests of the script overlap.
/// - `Write`: the writer failed, after the first `written` bytes of the output. With any other fault nothing was written.
/// - `Memory`, `Thread`: memory was refused, or a thread couldn't be started.
///
/// Reads at most 1,048,577 bytes, one more than the longest script has.
pub fn run_bytes<R: Read, W: Write>(
    reader: &mut Counted<R>,
    writer: &mut Counted<W>,
    config: Config,
    stall: &impl Stall,
) -> Result<(), Fault> {
    let input = read_whole(reader, MOST_READ)?;
    let text = answer(&input, config, stall)?;
    write_whole(writer, &text)?;
    Ok(())
}
