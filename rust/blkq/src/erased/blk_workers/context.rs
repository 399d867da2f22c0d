// Erased from crates/blk_workers/src/context.rt by tools/erase: edit that file.
//! What the threads of a run share.

use crate::erased::blk_workers::fault::RunFault;
use crate::erased::blk_workers::job::{Completion, FreeTag, Job};
use crate::erased::blk_workers::points::RunPoints;
use crate::erased::fallible::AllocError;
use crate::erased::freeze_queue::{BlockQueue, Tag};
use crate::erased::pointers::TryBox;
use crate::erased::run_queues::{CompletionQueue, PutCount, RequestQueue, Source, SpareQueue, Taker};
use crate::erased::script_overlap::Checked;

/// The queues of a run: the block queue that requests enter, and the queues through which its threads pass requests, completions
/// and free tags.
pub(crate) struct Queues {
    queue: BlockQueue,
    requests: RequestQueue<Job>,
    completions: CompletionQueue<Completion>,
    free_tags: SpareQueue<FreeTag>,
}

// Puts all of these tags into the queue of free tags, and returns their count.
//
// # Preconditions
//
// - `AreFreeTags(run.queue, tags)`: there is at least one tag; all are this queue's, and none is entered.
fn put_all(free: &SpareQueue<FreeTag>, tags: Vec<Tag>) -> Result<PutCount<FreeTag>, AllocError> {
    let mut count = free.put_count();
    for tag in tags {
        free.put(&mut count, FreeTag::new(Box::try_from_value(tag)?));
    }
    Ok(count)
}

// A run's queues, the right to push requests, and the right to take free tags.
type NewQueues = (Queues, Source<Job>, Taker<FreeTag>);

impl Queues {
    /// Returns a run's queues with all tags free, the right to push requests, and the right to take free tags.
    ///
    /// Allocates the room for requests and free tags, and a place for each worker's list when it comes back. `team::consumers`
    /// allocates the lists themselves.
    ///
    /// # Preconditions
    ///
    /// - `queue` is `run.queue`.
    /// - `AreFreeTags(run.queue, tags)`: there is at least one tag; all are this queue's, and none is entered.
    pub(crate) fn new(
        queue: BlockQueue,
        tags: Vec<Tag>,
        completions: CompletionQueue<Completion>,
        workers: u32,
    ) -> Result<NewQueues, RunFault> {
        let (requests, source) = RequestQueue::new(tags.len(), workers as usize)?;
        let (free_tags, taker) = SpareQueue::new(tags.len())?;
        put_all(&free_tags, tags)?;
        let queues = Queues { queue, requests, completions, free_tags };
        Ok((queues, source, taker))
    }
}

/// What a run's threads share: the runtime, the allocator, the checked script, the run's points, and its queues. The type names the
/// run, `J`, its queue of completions, `C`, and its queues of requests and free tags, `L`.
///
/// Invariant: the script and the queues are those that the type names. There is room for one completion more than there are tags,
/// the queue has a slot and the script's hardware, and the script has few enough lines to number them.
pub(crate) struct RunContext<'a, S> {
    pub(crate) checked: &'a Checked<'a>,
    pub(crate) points: &'a RunPoints<'a, S>,
    pub(crate) queue: &'a BlockQueue,
    pub(crate) requests: &'a RequestQueue<Job>,
    pub(crate) completions: &'a CompletionQueue<Completion>,
    /// The submitter takes free tags from here and workers put them back. There is room for all tags of the run.
    pub(crate) free_tags: &'a SpareQueue<FreeTag>,
}

impl<'a, S> RunContext<'a, S> {
    /// Returns the context of a run with these queues.
    ///
    /// # Preconditions
    ///
    /// - `IsContext(run.script, run.queue, checked, queues.queue)`: these are the script and the queue of a run of that
    ///   script: the queue has the script's hardware and a slot, and the script has few enough lines to number them.
    /// - `HasQueues(requests.requests, completions.id, requests.free_tags, queues.requests, queues.completions,
    ///   queues.free_tags)`: these are the run's queues of requests, completions and free tags, and there is room for
    ///   one completion more than for free tags.
    pub(crate) fn new(checked: &'a Checked<'a>, points: &'a RunPoints<'a, S>, queues: &'a Queues) -> RunContext<'a, S> {
        RunContext {
            checked,
            points,
            queue: &queues.queue,
            requests: &queues.requests,
            completions: &queues.completions,
            free_tags: &queues.free_tags,
        }
    }
}
