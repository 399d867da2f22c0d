// Erased from crates/blk_workers/src/running.rt by tools/erase: edit that file.
//! A script's run on several threads, and its result.

use crate::erased::blk_workers::config::Config;
use crate::erased::blk_workers::context::{Queues, RunContext};
use crate::erased::blk_workers::fault::RunFault;
use crate::erased::blk_workers::handing::Ends;
use crate::erased::blk_workers::job::Completion;
use crate::erased::blk_workers::points::{DrainPoints, RunPoints, Stall};
use crate::erased::blk_workers::submitter::Submitter;
use crate::erased::blk_workers::team::{consumers, with_workers};
use crate::erased::freeze_queue::{BlockQueue, NewQueue, Tag};
use crate::erased::queue_limits::Limits;
use crate::erased::ram_disk::Disk;
use crate::erased::run_queues::{Collector, CompletionQueue};
use crate::erased::script_meaning::Script;
use crate::erased::script_overlap::Checked;

/// The result of a run, and which requests each worker drew.
pub struct Ran {
    /// The lines of the replies, in the script's order.
    pub replies: Vec<u8>,
    /// The disk that the script leaves.
    pub disk: Disk,
    /// One list for each worker, in unspecified order: the numbers of the requests that it drew, counted from 0 among the accepted
    /// ones in the script's order.
    pub drawn: Vec<Vec<u32>>,
}

/// The caller's inputs: the runtime, the allocator, the script, the shape of the run, and its points, which have the stall.
struct Inputs<'a, S> {
    checked: &'a Checked<'a>,
    config: Config,
    points: RunPoints<'a, S>,
}

// Starts the workers and leads them to the end. The types have three names by now, each taken once the thing was made: the run's in
// `run_checked`, those of its queues in `run_as` and `run_on`.
//
// # Preconditions
//
// - `IsContext(run.script, run.queue, inputs.checked, queues.queue)`: these are the script and the queue of a run
//   of that script: the queue has the script's hardware and a slot, and the script has few enough lines to number
//   them.
// - `HasQueues(requests.requests, completions.id, requests.free_tags, queues.requests, queues.completions,
//   queues.free_tags)`: these are the run's queues of requests, completions and free tags, and there is room for
//   one completion more than for free tags.
// - `IsAt(run.script, run.queue, 0, submitter)`: the lines before a position are taken, and the freezer is in step
//   with the script's queue.
// - `submitter.points` is `none_passed`.
// - `AreNewEnds(requests.requests, completions.id, 0, ends.source, ends.collector)`: the ends of both queues
//   before the first request.
// - `ends.taker` is `none_counted(requests.free_tags)`.
// - `inputs.config.workers` is at most `ends.source.room`.
fn run_in<S: Stall>(
    inputs: &Inputs<'_, S>,
    queues: &Queues,
    submitter: Submitter,
    mut ends: Ends,
) -> Result<Ran, RunFault> {
    let workers = inputs.config.workers();
    let context = RunContext::new(inputs.checked, &inputs.points, queues);
    // One place more than there are numbers to draw: a draw reserves a place before it takes an end mark too.
    let numbers_each = inputs.checked.accepted() + 1;
    let consumers = consumers(&context, &mut ends.source, workers, numbers_each)?;
    let (led, source) = with_workers(&context, submitter, ends, consumers, workers as usize);
    led?.into_ran(context.requests.finish(source))
}

// Makes the queues of requests and of free tags, and goes on. The types name the run's queue of completions by now.
//
// # Preconditions
//
// - `inputs.checked` is `run.script`.
// - `queue` is `run.queue`.
// - `Suits(run.script, inputs.config.slots, run.queue)`: the queue has this many slots and the script's hardware,
//   and the script has few enough lines to number them.
// - `AreNewCompletions(tags.len(), completions.id, completions.room, completions.id, collector)`: the queue of
//   completions, with room for one more than there are tags, and the right to collect them, before the first one.
// - `IsAt(run.script, run.queue, 0, submitter)`: the lines before a position are taken, and the freezer is in step
//   with the script's queue.
// - `submitter.points` is `none_passed`.
// - `AreFreeTags(run.queue, tags)`: there is at least one tag; all are this queue's, and none is entered.
fn run_on<S: Stall>(
    inputs: &Inputs<'_, S>,
    queue: BlockQueue,
    tags: Vec<Tag>,
    completions: CompletionQueue<Completion>,
    collector: Collector<Completion>,
    submitter: Submitter,
) -> Result<Ran, RunFault> {
    let workers = inputs.config.workers();
    let (queues, source, taker) = Queues::new(queue, tags, completions, workers)?;
    let ends = Ends { source, collector, taker };
    run_in(inputs, &queues, submitter, ends)
}

// Makes the queue of completions and the submitter, and goes on: `parts` are the new queue, its freezer and its tags, and no drain
// has been passed. The types name the run's script and its queue by now.
//
// # Preconditions
//
// - `inputs.checked` is `run.script`.
// - `parts.0` is `run.queue`.
// - `IsNewQueue(run.script, inputs.config, run.queue, parts.1, parts.2)`: a new queue for a script and these
//   sizes: it suits the script, its freezer follows it, in step with the start of the script's queue, and its tags
//   are free and as many as the sizes say.
// - `points` is `none_passed`.
fn run_as<S: Stall>(inputs: &Inputs<'_, S>, parts: NewQueue, points: DrainPoints) -> Result<Ran, RunFault> {
    let (queue, freezer, tags) = parts;
    // No more completions than this are to come at a time (`hand_over`), so no thread waits to report one.
    let room = tags.len() + 1;
    let (completions, collector) = CompletionQueue::new(room)?;
    let submitter = Submitter::new(inputs.checked.script(), freezer, points)?;
    run_on(inputs, queue, tags, completions, collector, submitter)
}

/// Runs a checked script on the config's number of workers, with the replies and the disk of a single thread.
///
/// The calling thread submits the requests and collects their answers, and the workers do them. When this returns, the workers that
/// were started have ended.
///
/// Returns `Memory` if memory was refused. If a worker is refused memory, requests are submitted until its completion is collected.
/// A script of 2^32 lines or more is refused as `Memory` too, because its requests couldn't be numbered. Returns `Thread` if a
/// thread couldn't be started, before any request is submitted.
pub fn run_checked<S: Stall>(checked: &Checked<'_>, config: Config, stall: &S) -> Result<Ran, RunFault> {
    let script = checked.script();
    if script.lines().len() >= 1 << 32 {
        return Err(RunFault::Memory);
    }
    // A script's hardware is in range. These are the limits that the script's queue starts with.
    let Ok(limits) = Limits::start(script.hw()) else { unreachable!() };
    let parts = BlockQueue::new(limits, config.slots(), config.tags())?;
    let inputs = Inputs { checked, config, points: RunPoints::new(stall) };
    run_as(&inputs, parts, DrainPoints::new())
}

/// Runs a script in which no two requests overlap, as [`check`](script_overlap::check) reports. Checks the script, and returns what
/// [`run_checked`] returns.
///
/// # Preconditions
///
/// - `HasNoOverlap(script)`: no two requests overlap.
pub fn run<S: Stall>(script: &Script, config: Config, stall: &S) -> Result<Ran, RunFault> {
    match Checked::of(script) {
        Ok(checked) => run_checked(&checked, config, stall),
        // No two requests overlap, so the check fails only if memory is refused.
        Err(_) => Err(RunFault::Memory),
    }
}
