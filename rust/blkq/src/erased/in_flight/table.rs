// Erased from crates/in_flight/src/table.rt by tools/erase: edit that file.
//! The disk and the replies of the thread that submits and collects.

use crate::erased::fallible::AllocError;
use crate::erased::in_flight::answer::Answer;
use crate::erased::in_flight::replies::Replies;
use crate::erased::ram_disk::{Disk, Sectors};
use crate::erased::script_meaning::{Request, Script, What};

/// The disk and the replies of a run. The thread that submits is their only owner.
pub struct InFlightTable {
    pub disk: Disk,
    pub replies: Replies,
}

// Returns the sectors of a disk that an accepted request finds; none if it writes. The request is within the disk, so this fails
// only if memory is refused.
fn found(disk: &Disk, request: Request) -> Result<Sectors, AllocError> {
    if request.writes {
        return Ok(Sectors::none());
    }
    disk.find(u64::from(request.start), request.count).map_err(|_| AllocError)
}

// Returns the first sector of the request at a position.
//
// # Preconditions
//
// - `position` is less than `script.lines.len()`.
fn first_sector(script: &Script, position: usize) -> u32 {
    match &script.lines()[position].what {
        What::Read { start, .. } | What::Write { start, .. } => *start,
        _ => 0,
    }
}

impl InFlightTable {
    /// Takes the answer to a request whose reply is owed: installs the sectors that it leaves, and keeps the reply.
    ///
    /// # Preconditions
    ///
    /// - `Stands(script, self.replies, self.disk)`: as many lines of the script are taken as there are replies.
    /// - `is_owed(self.replies, position)` is `true`.
    /// - `IsAnswerTo(script, position, answer)`: this is the answer to the request at a position.
    pub fn complete(&mut self, script: &Script, position: usize, answer: Answer) {
        let Answer { text, sectors } = answer;
        let start = first_sector(script, position);
        self.disk.leave(u64::from(start), sectors);
        self.replies.fill(position, text);
    }

    /// Takes the next line, whose reply is there. If the line drains, nothing may be owed. `_script` is used only by the contract.
    ///
    /// # Preconditions
    ///
    /// - `Stands(_script, self.replies, self.disk)`: as many lines of the script are taken as there are replies.
    /// - `MayTakeReply(_script, self.replies, text)`: the next line isn't an accepted request and may be taken, and
    ///   this is the line of its reply.
    pub fn reply(&mut self, _script: &Script, text: Vec<u8>) -> Result<(), AllocError> {
        self.replies.try_push(text)
    }

    /// Takes the next line, an accepted request, which is in flight from now on; it may join those that are. Returns the sectors
    /// that it finds, which are those that a single thread finds there; none if it writes.
    ///
    /// Fails only if memory is refused, and then no line is taken. `_script` is used only by the contract.
    ///
    /// # Preconditions
    ///
    /// - `Stands(_script, self.replies, self.disk)`: as many lines of the script are taken as there are replies.
    /// - `MayTakeRequest(_script, self.replies, request)`: the next line is this accepted request, and may join those
    ///   that are owed.
    pub fn submit(&mut self, _script: &Script, request: Request) -> Result<Sectors, AllocError> {
        let found = found(&self.disk, request)?;
        self.replies.push_owed()?;
        Ok(found)
    }
}
