// Erased from crates/blk_workers/src/team.rt by tools/erase: edit that file.
//! The workers of a run: what each does, and how they are started, led, ended and joined.

use crate::erased::blk_workers::context::RunContext;
use crate::erased::blk_workers::fault::RunFault;
use crate::erased::blk_workers::handing::Ends;
use crate::erased::blk_workers::job::{Completion, FreeTag, Job};
use crate::erased::blk_workers::points::Stall;
use crate::erased::blk_workers::submitter::Submitter;
use crate::erased::fallible::{AllocError, TryVec};
use crate::erased::in_flight::Workbench;
use crate::erased::run_queues::{Acknowledgement, Consumer, Numbered, PutCount, Source};
use crate::erased::thread::{self, JoinHandle, TrySpawn};

/// The number of acknowledgements that a worker has, all of completions of this run. Only the number is kept, and contracts see it.
/// An acknowledgement is taken by value and can't be copied, so none counts twice. `FinishedWorker::new` requires as many as the
/// worker drew, so `work` leaves no completion unreported. Nothing else reads the number.
struct AcknowledgementCount {
    count: usize,
}

impl AcknowledgementCount {
    /// No acknowledgements yet.
    fn new() -> AcknowledgementCount {
        AcknowledgementCount { count: 0 }
    }

    /// Takes one more acknowledgement.
    ///
    /// # Preconditions
    ///
    /// - `acknowledgement` belongs to `completions.id`.
    /// - `self + 1` is less than `2^64`.
    fn add(&mut self, acknowledgement: Acknowledgement<Completion>) {
        drop(acknowledgement);
        self.count += 1;
    }
}

/// What a worker hands back: the right to draw, once it has taken an end mark, reported as many completions as it drew requests,
/// and put back as many tags.
struct FinishedWorker {
    consumer: Consumer<Job>,
    #[allow(dead_code)] // only proofs read it
    acknowledgements: AcknowledgementCount,
    #[allow(dead_code)] // only proofs read it
    tags: PutCount<FreeTag>,
}

impl FinishedWorker {
    /// # Preconditions
    ///
    /// - `consumer` belongs to `requests.requests`.
    /// - `consumer.drained` is `true`.
    /// - `acknowledgements` is `consumer.drawn.len()`.
    /// - `HasCounted(requests.free_tags, consumer.drawn.len(), tags)`: this many spares of this queue were taken, or
    ///   put back.
    fn new(consumer: Consumer<Job>, acknowledgements: AcknowledgementCount, tags: PutCount<FreeTag>) -> FinishedWorker {
        FinishedWorker { consumer, acknowledgements, tags }
    }

    /// Returns the right to draw, with the list of what was drawn.
    fn into_consumer(self) -> Consumer<Job> {
        self.consumer
    }
}

// Does a request. Once its completion is reported, the tag leaves on this worker's slot and goes back to the submitter, which is
// counted. The contract repeats that the request is an accepted one, so `work` knows that the list has room for its number.
//
// # Preconditions
//
// - `slot` is less than `run.queue.gate.slots`.
// - `tags` belongs to `requests.free_tags`.
// - `tags.count + 1` is less than `2^64`.
fn serve<S: Stall>(
    context: &RunContext<'_, S>,
    slot: u32,
    tags: &mut PutCount<FreeTag>,
    bench: &mut Workbench,
    job: Job,
) -> Acknowledgement<Completion> {
    let number = job.number();
    let drawn = context.points.pass_drawn(number, &job);
    let done = job.done(drawn, bench, context.queue, context.checked.script());
    let completed = done.tell(context.completions);
    let answered = context.points.pass_answered(number, &completed);
    let (tag, acknowledgement) = completed.leave(answered, context.queue, slot);
    context.free_tags.put(tags, tag);
    acknowledgement
}

/// Does requests until it takes an end mark. The list has room for the number of each accepted request and one place more, since
/// the draw of the end mark reserves one too. So no draw asks for memory.
///
/// # Preconditions
///
/// - `slot` is less than `run.queue.gate.slots`.
/// - `IsNewConsumer(requests.requests, accepted_in_all(run.script) + 1, consumer)`: the right to draw, before the
///   first request, with room for at least `room` numbers.
fn work<S: Stall>(context: &RunContext<'_, S>, slot: u32, mut consumer: Consumer<Job>) -> FinishedWorker {
    let mut acknowledgements = AcknowledgementCount::new();
    let mut tags = context.free_tags.put_count();
    let mut bench = Workbench::new();
    loop {
        // No tag comes soon if all requests are drawn.
        if context.requests.is_empty(&mut consumer) {
            context.free_tags.wake_taker();
        }
        let Ok(drawn) = context.requests.draw(&mut consumer) else { unreachable!() };
        let Some(job) = drawn else {
            return FinishedWorker::new(consumer, acknowledgements, tags);
        };
        acknowledgements.add(serve(context, slot, &mut tags, &mut bench, job));
    }
}

/// Returns the right to draw for each worker, with room for `numbers_each` numbers in the list of what it draws. Each takes one
/// part of the source's.
///
/// # Preconditions
///
/// - `source` belongs to `requests.requests`.
/// - `source.parts` is `all_parts`.
pub(crate) fn consumers<S>(
    context: &RunContext<'_, S>,
    source: &mut Source<Job>,
    workers: u32,
    numbers_each: usize,
) -> Result<Vec<Consumer<Job>>, AllocError> {
    let mut consumers = Vec::try_with_room(workers as usize)?;
    for _worker in 0..workers {
        consumers.try_push(context.requests.consumer(source, numbers_each)?)?;
    }
    Ok(consumers)
}

// Pushes an end mark for each worker that was started, and wakes them all.
//
// # Preconditions
//
// - `source` belongs to `requests.requests`.
fn push_end_marks<S>(context: &RunContext<'_, S>, source: &mut Source<Job>, started: usize) {
    for _worker in 0..started {
        context.requests.end(source);
    }
    context.requests.wake_all();
}

// Submits and collects while `workers` workers run, and pushes an end mark for each, even if submitting fails.
//
// # Preconditions
//
// - `AreNewEnds(requests.requests, completions.id, workers, ends.source, ends.collector)`: the ends of both queues
//   before the first request.
// - `IsAt(run.script, run.queue, 0, submitter)`: the lines before a position are taken, and the freezer is in step
//   with the script's queue.
// - `ends.taker` is `none_counted(requests.free_tags)`.
fn lead<S: Stall>(
    context: &RunContext<'_, S>,
    mut submitter: Submitter,
    ends: &mut Ends,
    workers: usize,
) -> Result<Submitter, RunFault> {
    let submitted = submitter.submit_all(context, ends);
    push_end_marks(context, &mut ends.source, workers);
    submitted?;
    Ok(submitter)
}

// Joins a worker, for which there is an end mark, and takes back its right to draw with what it drew. There is a place for its
// list.
//
// # Preconditions
//
// - `source` belongs to `requests.requests`.
// - `source.parts` is at least 1.
// - `source.lists.len()` is less than `source.room`.
fn join<S>(context: &RunContext<'_, S>, source: &mut Source<Job>, worker: JoinHandle<FinishedWorker>) {
    let finished = worker.join();
    let taken_back = context.requests.gather(source, finished.into_consumer());
    debug_assert!(taken_back.is_ok());
}

// How a run ended, and the right to push, with the lists of the workers that are back.
type Led = (Result<Submitter, RunFault>, Source<Job>);

/// Starts a worker for each of these rights to draw, one per level of recursion. The levels above have started the rest of the
/// `workers`. The innermost level submits and collects, and ends the workers. Each level joins its worker and takes back what it
/// drew, even if the run fails. Returns `Thread` if a worker couldn't be started; then those that were started are ended at once.
///
/// 32 is `MOST_WORKERS`. Any number below `all_parts`, which is 2^32, would do: the source has to keep a part.
///
/// # Preconditions
///
/// - `IsAt(run.script, run.queue, 0, submitter)`: the lines before a position are taken, and the freezer is in step
///   with the script's queue.
/// - `AreNewEnds(requests.requests, completions.id, workers, ends.source, ends.collector)`: the ends of both queues
///   before the first request.
/// - `ends.taker` is `none_counted(requests.free_tags)`.
/// - `All(IsNewConsumer(requests.requests, accepted_in_all(run.script) + 1), consumers)`.
/// - `consumers.len()` is at most `workers`.
/// - `workers` is at most 32.
pub(crate) fn with_workers<S: Stall>(
    context: &RunContext<'_, S>,
    submitter: Submitter,
    mut ends: Ends,
    mut consumers: Vec<Consumer<Job>>,
    workers: usize,
) -> Led {
    debug_assert!(consumers.len() <= workers);
    debug_assert!(workers <= 32);
    thread::scope(move |scope| -> Led {
        let started = workers - consumers.len();
        let Some(consumer) = consumers.pop() else {
            let led = lead(context, submitter, &mut ends, workers);
            return (led, ends.source);
        };
        // The submitter's slot is 0. No worker has it if there are more slots than workers.
        let slot = (started as u32 + 1) % context.queue.slots();
        let Ok(worker) = scope.try_spawn(move || -> FinishedWorker { work(context, slot, consumer) }) else {
            push_end_marks(context, &mut ends.source, started);
            return (Err(RunFault::Thread), ends.source);
        };
        let (led, mut source) = with_workers(context, submitter, ends, consumers, workers);
        join(context, &mut source, worker);
        (led, source)
    })
}
