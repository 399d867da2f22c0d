// Erased from crates/blk_script/src/rendering.rt by tools/erase: edit that file.
//! The texts of replies and of the disk.

use crate::erased::fallible::{AllocError, TryVec};
use crate::erased::hex;
use crate::erased::line_text::{ScriptFault, push_hex, push_named, push_number, push_text};
use crate::erased::ram_disk::{Disk, SECTOR_BYTES, Sector, Sectors, add_sector};
use crate::erased::script_meaning::{Mode, Reply, Stat};

// Returns the two digits of a byte.
fn hex_digits(byte: u8) -> [u8; 2] {
    let mut digits = [0; 2];
    let _ = hex::encode_to_slice([byte].as_slice(), &mut digits);
    digits
}

// Appends a run of fewer than ten bytes in one step. If there are many runs, most are that short.
//
// # Preconditions
//
// - `count` is less than 10.
fn push_short_run(out: &mut Vec<u8>, byte: u8, count: u8) -> Result<(), AllocError> {
    debug_assert!(count < 10);
    let [high, low] = hex_digits(byte);
    out.try_extend_from_slice(&[high, low, b'*', b'0' + count])
}

/// Appends a run.
fn push_run(out: &mut Vec<u8>, run: (u8, u64)) -> Result<(), AllocError> {
    let (byte, count) = run;
    if count < 10 {
        return push_short_run(out, byte, count as u8);
    }
    push_hex(out, byte)?;
    push_text(out, "*")?;
    push_number(out, count)
}

fn push_pieces(out: &mut Vec<u8>, pieces: &[u32]) -> Result<(), AllocError> {
    for (index, piece) in pieces.iter().enumerate() {
        if index > 0 {
            push_text(out, "+")?;
        }
        push_number(out, u64::from(*piece))?;
    }
    Ok(())
}

/// Appends runs.
fn push_runs(out: &mut Vec<u8>, runs: &[(u8, u64)]) -> Result<(), AllocError> {
    for (index, run) in runs.iter().enumerate() {
        if index > 0 {
            push_text(out, ",")?;
        }
        push_run(out, *run)?;
    }
    Ok(())
}

fn push_mode(out: &mut Vec<u8>, name: &str, mode: Mode) -> Result<(), AllocError> {
    push_text(out, name)?;
    match mode {
        Mode::Atomic => push_text(out, "atomic"),
        Mode::Slots => push_text(out, "slots"),
    }
}

fn push_physical(out: &mut Vec<u8>, size: Option<u32>) -> Result<(), AllocError> {
    match size {
        None => Ok(()),
        Some(size) => push_named(out, " physical ", u64::from(size)),
    }
}

fn push_counts(out: &mut Vec<u8>, counts: &Stat) -> Result<(), AllocError> {
    push_named(out, "stat reads ", counts.reads)?;
    push_named(out, " writes ", counts.writes)?;
    push_named(out, " again ", counts.again)?;
    push_named(out, " eio ", counts.eio)?;
    push_named(out, " depth ", u64::from(counts.depth))?;
    push_named(out, " max ", u64::from(counts.max))?;
    push_named(out, " chunk ", u64::from(counts.chunk))?;
    push_physical(out, counts.physical)?;
    push_mode(out, " mode ", counts.mode)
}

fn push_reply(out: &mut Vec<u8>, reply: &Reply) -> Result<(), AllocError> {
    match reply {
        Reply::Data { pieces, runs } => {
            push_text(out, "ok ")?;
            push_pieces(out, pieces.as_slice())?;
            push_text(out, " ")?;
            push_runs(out, runs.as_slice())
        }
        Reply::Written { pieces } => {
            push_text(out, "ok ")?;
            push_pieces(out, pieces.as_slice())
        }
        Reply::Done => push_text(out, "ok"),
        Reply::Depth(depth) => push_named(out, "depth ", u64::from(*depth)),
        Reply::NotFrozen => push_text(out, "not frozen"),
        Reply::DepthFull => push_text(out, "depth full"),
        Reply::Again => push_text(out, "EAGAIN"),
        Reply::PastEnd => push_text(out, "EIO"),
        Reply::Invalid => push_text(out, "EINVAL"),
        Reply::Stat(counts) => push_counts(out, counts),
        Reply::Removed => push_text(out, "removed"),
        Reply::Gone => push_text(out, "ENODEV"),
    }
}

/// Appends the line of a reply to the script's line of this number.
pub(crate) fn push_line(out: &mut Vec<u8>, number: u32, reply: &Reply) -> Result<(), AllocError> {
    push_number(out, u64::from(number))?;
    push_text(out, " ")?;
    push_reply(out, reply)?;
    push_text(out, "\n")
}

/// Room for the line of most replies, in bytes. It is taken once, so that the line doesn't grow out of smaller rooms.
const USUAL_LINE: usize = 24;

/// Returns the line of a reply to the script's line of this number, with its line feed. `Memory` is the only fault.
pub fn render(number: u32, reply: &Reply) -> Result<Vec<u8>, ScriptFault> {
    let mut line = Vec::try_with_room(USUAL_LINE)?;
    push_line(&mut line, number, reply)?;
    Ok(line)
}

/// Appends the line of a write's reply to the script's line of this number: the lengths of its pieces.
pub fn push_written(out: &mut Vec<u8>, line: u32, pieces: &[u32]) -> Result<(), AllocError> {
    push_number(out, u64::from(line))?;
    push_text(out, " ")?;
    push_text(out, "ok ")?;
    push_pieces(out, pieces)?;
    push_text(out, "\n")
}

/// Appends the line of a read's reply to the script's line of this number: the lengths of its pieces, and the runs of the sectors
/// that it found. `Memory` is the only fault.
pub fn push_read(out: &mut Vec<u8>, line: u32, pieces: &[u32], found: &Sectors) -> Result<(), ScriptFault> {
    push_number(out, u64::from(line))?;
    push_text(out, " ")?;
    push_text(out, "ok ")?;
    push_pieces(out, pieces)?;
    push_text(out, " ")?;
    push_found(out, found)?;
    push_text(out, "\n")?;
    Ok(())
}

// Appends the run of sectors that have one byte at every place, if there are any.
fn push_filled(out: &mut Vec<u8>, byte: u8, count: u32) -> Result<(), AllocError> {
    if count == 0 {
        return Ok(());
    }
    push_run(out, (byte, u64::from(count) * SECTOR_BYTES as u64))?;
    Ok(())
}

// Appends the maximal runs of the bytes of sectors, or a part of their text if memory is refused. `Memory` is the only fault.
fn push_found(out: &mut Vec<u8>, found: &Sectors) -> Result<(), ScriptFault> {
    match found {
        Sectors::Filled { byte, count } => {
            push_filled(out, *byte, *count)?;
            Ok(())
        }
        Sectors::Listed(sectors) => push_sectors(out, sectors),
    }
}

// Appends the line of a disk, or a part of the line if memory is refused.
fn push_disk_line(out: &mut Vec<u8>, disk: &Disk) -> Result<(), ScriptFault> {
    push_text(out, "disk ")?;
    push_sectors(out, disk.sectors())?;
    push_text(out, "\n")?;
    Ok(())
}

/// Appends the line of a disk, with its line feed. `Memory` is the only fault; then the text is unchanged.
pub fn push_disk(out: &mut Vec<u8>, disk: &Disk) -> Result<(), ScriptFault> {
    let before = out.len();
    let pushed = push_disk_line(out, disk);
    if pushed.is_err() {
        out.truncate(before);
    }
    pushed
}

/// Returns the line of a disk, with its line feed. `Memory` is the only fault.
pub fn render_disk(disk: &Disk) -> Result<Vec<u8>, ScriptFault> {
    let mut line = Vec::new();
    push_disk(&mut line, disk)?;
    Ok(line)
}

// This many sectors have fewer than 2^64 bytes. No memory holds as many owners of sectors.
const MOST_SECTORS: usize = usize::MAX / SECTOR_BYTES;

// Appends runs, each followed by a comma.
fn push_closed(out: &mut Vec<u8>, runs: &[(u8, u64)]) -> Result<(), AllocError> {
    for run in runs {
        push_run(out, *run)?;
        push_text(out, ",")?;
    }
    Ok(())
}

// Appends all runs except the last, which stays, since what follows may make it longer.
fn close(out: &mut Vec<u8>, runs: &mut Vec<(u8, u64)>) -> Result<(), AllocError> {
    let Some(last) = runs.pop() else {
        return Ok(());
    };
    push_closed(out, runs)?;
    runs.clear();
    runs.push(last);
    Ok(())
}

/// Appends the maximal runs of these sectors' bytes, or a part of their text if memory is refused. `Memory` is the only fault.
fn push_sectors(out: &mut Vec<u8>, sectors: &[Sector]) -> Result<(), ScriptFault> {
    if sectors.len() > MOST_SECTORS {
        return Err(ScriptFault::Memory);
    }
    let mut runs = Vec::new();
    for sector in sectors {
        let Ok(()) = add_sector(&mut runs, sector) else {
            return Err(ScriptFault::Memory);
        };
        close(out, &mut runs)?;
    }
    push_runs(out, &runs)?;
    Ok(())
}
