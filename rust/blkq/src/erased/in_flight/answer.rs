// Erased from crates/in_flight/src/answer.rt by tools/erase: edit that file.
//! The answer to a request: the line of its reply, and the sectors that a write leaves.

use crate::erased::blk_script::{push_read, push_written};
use crate::erased::fallible::{AllocError, TryVec};
use crate::erased::in_flight::replies::Text;
use crate::erased::queue_limits::Limits;
use crate::erased::ram_disk::Sectors;
use crate::erased::script_meaning::{Pattern, Script, What};

/// The answer to a request: the line of its reply, and the sectors that it leaves on the disk from its first sector on. A read
/// leaves none. The script has that sector's place, so that a completion fits in one cache line.
pub struct Answer {
    pub text: Text,
    pub sectors: Sectors,
}

/// What a thread that answers requests uses for each, so that it takes no memory for most.
pub struct Workbench {
    line: Vec<u8>,
    pieces: Vec<u32>,
}

impl Workbench {
    /// Takes no memory yet.
    pub fn new() -> Workbench {
        Workbench { line: Vec::new(), pieces: Vec::new() }
    }

    // Cuts a range by these limits.
    fn cut(&mut self, limits: Limits, start: u32, count: u32) -> Result<(), AllocError> {
        self.line.clear();
        self.pieces.clear();
        self.pieces.try_extend(limits.pieces(u64::from(start), count))?;
        Ok(())
    }
}

// Returns the answer to a read that found these sectors.
fn read(
    bench: &mut Workbench,
    number: u32,
    limits: Limits,
    start: u32,
    count: u32,
    found: &Sectors,
) -> Result<Answer, AllocError> {
    bench.cut(limits, start, count)?;
    push_read(&mut bench.line, number, &bench.pieces, found).map_err(|_| AllocError)?;
    Ok(Answer { text: Text::of(&mut bench.line)?, sectors: Sectors::none() })
}

// Returns the answer to a write.
fn write(
    bench: &mut Workbench,
    number: u32,
    limits: Limits,
    start: u32,
    count: u32,
    pattern: &Pattern,
) -> Result<Answer, AllocError> {
    bench.cut(limits, start, count)?;
    push_written(&mut bench.line, number, &bench.pieces)?;
    let sectors = Sectors::patterned(pattern.bytes(), count).map_err(|_| AllocError)?;
    Ok(Answer { text: Text::of(&mut bench.line)?, sectors })
}

/// Returns the answer to the request at a position of the script, from the limits in force there and the sectors that a read finds.
/// Fails only if memory is refused.
///
/// # Preconditions
///
/// - `IsDue(script, position, limits, sectors_of(found))`: the limits in force at a request, and the sectors that
///   it finds.
pub fn answer_to(
    bench: &mut Workbench,
    script: &Script,
    position: usize,
    limits: Limits,
    found: &Sectors,
) -> Result<Answer, AllocError> {
    let line = &script.lines()[position];
    match &line.what {
        What::Read { start, count } => read(bench, line.number, limits, *start, *count, found),
        What::Write { start, count, pattern } => write(bench, line.number, limits, *start, *count, pattern),
        // No other line is an accepted request.
        _ => unreachable!(),
    }
}
