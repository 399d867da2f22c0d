// Erased from crates/blk_workers/src/job.rt by tools/erase: edit that file.
//! What a worker receives for a request, and what it hands back.

use crate::erased::blk_workers::points::Passed;
use crate::erased::fallible::AllocError;
use crate::erased::freeze_queue::{BlockQueue, Tag};
use crate::erased::in_flight::{Answer, Workbench, answer_to};
use crate::erased::ram_disk::Sectors;
use crate::erased::run_queues::{Acknowledgement, CompletionQueue, CompletionToken, Numbered};
use crate::erased::script_meaning::Script;

/// A request on its way to a worker: the token to report its completion, the position of its line, the tag that entered the queue
/// for it, and the sectors that a read finds.
///
/// Invariant: the token is one of the run's completions, the line is the accepted request of the token's number, the tag is entered
/// in the run's queue and has read the limits in force at the line, and the sectors are those that a single thread finds there. The
/// job carries no limits: the worker reads them under the tag.
pub(crate) struct Job {
    token: CompletionToken<Completion>,
    position: u32,
    tag: Box<Tag>,
    found: Sectors,
}

impl Job {
    /// Makes the job of a request that has passed [`Point::Entered`](crate::erased::blk_workers::Point).
    ///
    /// # Preconditions
    ///
    /// - `IsJob J.script J.queue C.id (record { token = token; position = position; tag = tag.value; found = sectors_of
    ///   found })`.
    /// - `entered` is `at_point(token.number(), Entered)`.
    pub(crate) fn new(
        _entered: Passed,
        token: CompletionToken<Completion>,
        position: u32,
        tag: Box<Tag>,
        found: Sectors,
    ) -> Job {
        Job { token, position, tag, found }
    }

    /// Does the request: reads the limits under its tag, cuts the pieces, and makes the line of its reply and the sectors that a
    /// write leaves.
    ///
    /// The contract repeats that the request is an accepted one of the script, so a worker's list has room for its number.
    ///
    /// # Preconditions
    ///
    /// - `queue` is `run.queue`.
    /// - `script` is `run.script`.
    /// - `drawn` is `at_point(self.token.number, Drawn)`.
    pub(crate) fn done(self, _drawn: Passed, bench: &mut Workbench, queue: &BlockQueue, script: &Script) -> DoneJob {
        let Job { token, position, mut tag, found } = self;
        let limits = queue.limits(&mut tag);
        let answer = answer_to(bench, script, position as usize, limits, &found);
        let completion = Completion::new(token.number(), position, answer);
        DoneJob { tag, token, completion }
    }
}

impl Numbered for Job {
    /// Returns the request's number among the accepted ones.
    fn number(&self) -> u32 {
        self.token.number()
    }
}

/// What comes back for a request: its number, the position of its line, and its answer.
///
/// Invariant: the line at the position is the accepted request of this number, and the answer is a single thread's answer to it,
/// unless the worker was refused memory.
pub(crate) struct Completion {
    number: u32,
    position: u32,
    answer: Result<Answer, AllocError>,
}

impl Numbered for Completion {
    /// Returns the request's number among the accepted ones.
    fn number(&self) -> u32 {
        self.number
    }
}

impl Completion {
    /// # Preconditions
    ///
    /// - `IsAcceptedAt(run.script, number, position)`: the accepted request of this number, counted from 0 in the
    ///   script's order, is the line at this position.
    /// - `IfOk(answer, IsAnswerTo(run.script, position))`.
    fn new(number: u32, position: u32, answer: Result<Answer, AllocError>) -> Completion {
        Completion { number, position, answer }
    }

    /// Returns the position of the request's line, and its answer unless the worker was refused memory.
    pub(crate) fn into_parts(self) -> (usize, Result<Answer, AllocError>) {
        (self.position as usize, self.answer)
    }
}

/// A tag that isn't entered, free for the next request. Invariant: it isn't entered, and it is a tag of the run's queue.
pub(crate) struct FreeTag {
    // Boxed: a tag has 128 unused bytes around its gate's pass, which would be copied through two queues if it were passed by
    // value.
    tag: Box<Tag>,
}

impl FreeTag {
    /// Makes a free tag from a tag of the run's queue that isn't entered.
    ///
    /// # Preconditions
    ///
    /// - `tag` belongs to `run.queue`.
    /// - `tag.entered` is `false`.
    pub(crate) fn new(tag: Box<Tag>) -> FreeTag {
        FreeTag { tag }
    }

    pub(crate) fn into_tag(self) -> Box<Tag> {
        self.tag
    }
}

/// A request that is done: its tag is still entered, and its completion is still to be reported.
///
/// The completion is reported first, since only the `CompletedJob` that this returns gives the tag. So once the queue is drained,
/// each completion is in its queue, and the thread that collects them all waits for no worker.
pub(crate) struct DoneJob {
    tag: Box<Tag>,
    token: CompletionToken<Completion>,
    completion: Completion,
}

impl DoneJob {
    /// Reports the completion.
    ///
    /// # Preconditions
    ///
    /// - `completions.id` is `completions.id`.
    pub(crate) fn tell(self, completions: &CompletionQueue<Completion>) -> CompletedJob {
        let DoneJob { tag, token, completion } = self;
        let acknowledgement = completions.tell(token, completion);
        CompletedJob { tag, acknowledgement }
    }
}

/// A request whose completion is reported, and whose tag is still entered.
pub(crate) struct CompletedJob {
    tag: Box<Tag>,
    acknowledgement: Acknowledgement<Completion>,
}

impl CompletedJob {
    /// Leaves the queue once, on this slot. Returns the tag, and the acknowledgement, which shows that the completion was reported.
    ///
    /// # Preconditions
    ///
    /// - `queue` is `run.queue`.
    /// - `slot` is less than `run.queue.gate.slots`.
    /// - `answered` is `at_point(self.acknowledgement.number, Answered)`.
    pub(crate) fn leave(
        self,
        _answered: Passed,
        queue: &BlockQueue,
        slot: u32,
    ) -> (FreeTag, Acknowledgement<Completion>) {
        let CompletedJob { mut tag, acknowledgement } = self;
        let _last = queue.leave(&mut tag, slot);
        (FreeTag::new(tag), acknowledgement)
    }
}
