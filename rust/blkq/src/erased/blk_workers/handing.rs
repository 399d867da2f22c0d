// Erased from crates/blk_workers/src/handing.rt by tools/erase: edit that file.
//! How accepted requests are handed to the workers, and how their completions are collected.

use crate::erased::blk_workers::context::RunContext;
use crate::erased::blk_workers::fault::RunFault;
use crate::erased::blk_workers::job::{Completion, FreeTag, Job};
use crate::erased::blk_workers::points::Stall;
use crate::erased::freeze_queue::Tag;
use crate::erased::in_flight::InFlightTable;
use crate::erased::queue_limits::Limits;
use crate::erased::run_queues::{Collector, Source, Taker};
use crate::erased::script_meaning::Request;

// The slot on which the submitter enters. Workers leave on other slots (`with_workers`), unless there are too few.
const SUBMITTER_SLOT: u32 = 0;

/// The submitter's ends of the run's queues: the right to push requests, the right to collect completions, and the right to take
/// free tags.
pub(crate) struct Ends {
    pub(crate) source: Source<Job>,
    pub(crate) collector: Collector<Completion>,
    pub(crate) taker: Taker<FreeTag>,
}

/// The accepted request of the next line, its number among the accepted ones, and the limits in force.
#[derive(Clone, Copy)]
pub(crate) struct Accepted {
    pub(crate) request: Request,
    pub(crate) number: u32,
    pub(crate) limits: Limits,
}

// Waits for a free tag. If all workers sleep, one is woken first, and one more after each look for a tag that is in vain.
//
// # Preconditions
//
// - `source` belongs to `requests.requests`.
// - `taker` belongs to `requests.free_tags`.
// - `taker.count + 1` is less than `2^64`.
fn free_tag<S>(context: &RunContext<'_, S>, source: &mut Source<Job>, taker: &mut Taker<FreeTag>) -> FreeTag {
    if let Some(tag) = context.free_tags.try_take(taker) {
        return tag;
    }
    context.requests.wake_if_all_sleep();
    for _look in 0..context.free_tags.looks() {
        if let Some(tag) = context.free_tags.look(taker) {
            return tag;
        }
        context.requests.wake_one_more(source);
    }
    context.free_tags.take(taker)
}

// Waits for a free tag, and enters the queue with it under these limits. A tag always reads these limits, since only this thread
// sets them, but no proof says so. So this compares them, and if they differ, the tag leaves and enters again.
//
// # Preconditions
//
// - `source` belongs to `requests.requests`.
// - `taker` belongs to `requests.free_tags`.
// - `taker.count + 1` is less than `2^64`.
fn entered<S>(
    context: &RunContext<'_, S>,
    source: &mut Source<Job>,
    taker: &mut Taker<FreeTag>,
    limits: Limits,
) -> Box<Tag> {
    let mut tag = free_tag(context, source, taker).into_tag();
    loop {
        context.queue.enter(&mut tag, SUBMITTER_SLOT);
        if context.queue.limits(&mut tag) == limits {
            return tag;
        }
        let _last = context.queue.leave(&mut tag, SUBMITTER_SLOT);
    }
}

/// Hands an accepted request to the workers. The request enters the queue with one free tag, under the limits in force, and its
/// reply is owed. No other call gives a token.
///
/// Afterwards the queue of completions has room for each completion that is to come (`room` of the `ensures`).
///
/// # Preconditions
///
/// - `AreHandedOver(run.script, requests.requests, completions.id, table.replies.len(), table.replies, ends.source,
///   ends.collector)`: the requests accepted before a position are pushed to their queue, each with the token to
///   report its completion, and the replies to those whose completions weren't collected are owed.
/// - `Stands(run.script, table.replies, table.disk)`: as many lines of the script are taken as there are replies.
/// - `IsReady(run.script, table.replies, accepted)`: the next line is this accepted request, with this number and
///   these limits; it may join those that are owed, and few lines come before it.
/// - `owed_count(table.replies)` is at most `context`.
/// - `ends.taker.queue` is `requests.free_tags`.
/// - `ends.taker.count + 1` is less than `2^64`.
pub(crate) fn hand_over<S: Stall>(
    context: &RunContext<'_, S>,
    table: &mut InFlightTable,
    ends: &mut Ends,
    accepted: Accepted,
) -> Result<(), RunFault> {
    let Accepted { request, number, limits } = accepted;
    let position = table.replies.len() as u32;
    let found = table.submit(context.checked.script(), request)?;
    let tag = entered(context, &mut ends.source, &mut ends.taker, limits);
    let passed = context.points.pass_entered(number, &tag);
    let token = context.completions.token(&mut ends.collector, number);
    let job = Job::new(passed, token, position, tag, found);
    context.requests.push(&mut ends.source, job);
    Ok(())
}

// Takes a completion. If it brought an answer, the reply to its request was owed until now, and one fewer is owed afterwards.
//
// Returns `Memory` if the worker was refused memory. Then the reply stays owed with no completion to come, and every caller ends
// the run. `taken` holds in this case too, so that callers have one clause for both; nothing reads it once the run fails.
//
// # Preconditions
//
// - `Stands(run.script, table.replies, table.disk)`: as many lines of the script are taken as there are replies.
// - `is_owed(table.replies, completion.position)` is `true`.
fn take_completion<S>(
    context: &RunContext<'_, S>,
    table: &mut InFlightTable,
    completion: Completion,
) -> Result<(), RunFault> {
    let (position, answer) = completion.into_parts();
    let answer = answer?;
    table.complete(context.checked.script(), position, answer);
    Ok(())
}

/// Collects the completions that have arrived, if at least as many replies are owed as there are tags. A look after each request
/// would take the queue's cache lines from the workers each time.
///
/// Afterwards no more replies are owed than there are tags. By `collector`, the number of tokens given doesn't change; the next
/// token is numbered by it.
///
/// # Preconditions
///
/// - `IsCollecting(run.script, completions.id, table, collector)`: the table is right, and a reply is owed to each
///   request whose completion this right to collect may still bring.
pub(crate) fn collect_some<S>(
    context: &RunContext<'_, S>,
    collector: &mut Collector<Completion>,
    table: &mut InFlightTable,
) -> Result<(), RunFault> {
    if table.replies.owed() < context.free_tags.room() {
        return Ok(());
    }
    for _ in 0..table.replies.owed() {
        let Some(completion) = context.completions.try_collect(collector) else {
            break;
        };
        take_completion(context, table, completion)?;
    }
    // Each request whose completion hadn't arrived holds its tag, so this waits for none.
    collect_until(context, collector, table, context.free_tags.room())
}

/// Collects completions, and waits for them, until at most `most` replies are owed. `collector` is as at `collect_some`.
///
/// # Preconditions
///
/// - `IsCollecting(run.script, completions.id, table, collector)`: the table is right, and a reply is owed to each
///   request whose completion this right to collect may still bring.
pub(crate) fn collect_until<S>(
    context: &RunContext<'_, S>,
    collector: &mut Collector<Completion>,
    table: &mut InFlightTable,
    most: usize,
) -> Result<(), RunFault> {
    loop {
        if table.replies.owed() <= most {
            return Ok(());
        }
        // Each owed reply has a completion to come: if one had brought no answer, `take_completion` would have ended the run.
        let completion = context.completions.collect(collector);
        take_completion(context, table, completion)?;
    }
}
