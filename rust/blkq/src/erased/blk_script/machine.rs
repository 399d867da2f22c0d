// Erased from crates/blk_script/src/machine.rt by tools/erase: edit that file.
//! The queue and its disk on one thread.

use crate::erased::fallible::TryCollect;
use crate::erased::line_text::ScriptFault;
use crate::erased::queue_limits::Limits;
use crate::erased::ram_disk::{self, Disk};
use crate::erased::script_meaning::{
    ByteRuns, Outcome, Pattern, PieceLengths, QueueState, Reply, Request, Script, What,
};

/// The queue and its disk, as one thread keeps them while it takes a script line by line.
pub(crate) struct Machine {
    pub(crate) queue: QueueState,
    pub(crate) disk: Disk,
}

// Returns the pieces of a request under the limits in force.
fn pieces(limits: &Limits, request: Request) -> Result<PieceLengths, ScriptFault> {
    let lengths = limits.pieces(u64::from(request.start), request.count).try_collected()?;
    Ok(PieceLengths::new(lengths))
}

impl Machine {
    pub(crate) fn new(script: &Script) -> Result<Self, ScriptFault> {
        let disk = Disk::new(script.disk()).map_err(|_| ScriptFault::Memory)?;
        Ok(Machine { queue: QueueState::new(script), disk })
    }

    /// # Preconditions
    ///
    /// - `request.start + request.count` is at most `self.queue.sectors`.
    fn read(&self, request: Request) -> Result<Reply, ScriptFault> {
        let pieces = pieces(&self.queue.limits(), request)?;
        let sectors = self.disk.share(u64::from(request.start), request.count).map_err(|_| ScriptFault::Memory)?;
        let runs = ram_disk::runs(&sectors).map_err(|_| ScriptFault::Memory)?;
        Ok(Reply::Data { pieces, runs: ByteRuns::new(runs) })
    }

    // Makes the sectors first and installs them last, so that the disk is unchanged if memory is refused.
    //
    // # Preconditions
    //
    // - `request.start + request.count` is at most `self.queue.sectors`.
    fn write(&mut self, request: Request, pattern: &Pattern) -> Result<Reply, ScriptFault> {
        let pieces = pieces(&self.queue.limits(), request)?;
        let sectors = ram_disk::patterned(pattern.bytes(), request.count).map_err(|_| ScriptFault::Memory)?;
        self.disk.install(u64::from(request.start), sectors);
        Ok(Reply::Written { pieces })
    }

    /// Replies to a line. `Memory` is the only fault; then the queue and its disk are unchanged.
    ///
    /// # Preconditions
    ///
    /// - `counted(self.queue) + 1` is less than `2^64`.
    pub(crate) fn reply(&mut self, what: &What) -> Result<Reply, ScriptFault> {
        let mut queue = self.queue;
        let reply = match queue.take(what) {
            Outcome::Accepted(request) => match what {
                What::Write { pattern, .. } => self.write(request, pattern)?,
                _ => self.read(request)?,
            },
            Outcome::Drained(reply) | Outcome::Replied(reply) => reply,
        };
        self.queue = queue;
        Ok(reply)
    }
}
