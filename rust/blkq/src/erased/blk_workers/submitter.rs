// Erased from crates/blk_workers/src/submitter.rt by tools/erase: edit that file.
//! The thread that submits and collects.

use crate::erased::blk_script::render;
use crate::erased::blk_workers::context::RunContext;
use crate::erased::blk_workers::fault::RunFault;
use crate::erased::blk_workers::following::{follow, freeze};
use crate::erased::blk_workers::handing::{Accepted, Ends, collect_some, collect_until, hand_over};
use crate::erased::blk_workers::job::Completion;
use crate::erased::blk_workers::points::{DrainPoints, Stall};
use crate::erased::blk_workers::running::Ran;
use crate::erased::freeze_queue::Freezer;
use crate::erased::in_flight::{InFlightTable, Replies};
use crate::erased::ram_disk::Disk;
use crate::erased::run_queues::Collector;
use crate::erased::script_meaning::{Outcome, QueueState, Reply, Request, Script};

/// What only the thread that submits and collects has, beside its ends: the disk and the replies, the script's queue without its
/// disk, and the freezer of the queue that requests enter.
pub(crate) struct Submitter {
    pub(crate) table: InFlightTable,
    pub(crate) state: QueueState,
    pub(crate) freezer: Freezer,
    /// The number of requests accepted so far.
    pub(crate) accepted: u32,
    /// The drains whose points were passed so far.
    pub(crate) points: DrainPoints,
}

// Makes the line of a reply, and takes the script's next line with it.
//
// # Preconditions
//
// - `Stands(script, table.replies, table.disk)`: as many lines of the script are taken as there are replies.
// - `MayTakeReply script table.replies (reply_line (line_number, reply))`.
fn reply_now(script: &Script, table: &mut InFlightTable, line_number: u32, reply: &Reply) -> Result<(), RunFault> {
    // `render` fails only if memory is refused.
    let text = render(line_number, reply).map_err(|_| RunFault::Memory)?;
    table.reply(script, text)?;
    Ok(())
}

impl Submitter {
    /// Makes a run's submitter, before the first line.
    ///
    /// # Preconditions
    ///
    /// - `script` is `run.script`.
    /// - `IsFollowing(run.queue, 0, freezer)`: the freezer is the queue's, knows that the queue is drained if it is
    ///   frozen, and killed its gate at most `most` times.
    /// - `IsInStep(start_queue(run.script), freezer)`: the freezer has the depth, the limits and the mode of the
    ///   script's queue: so the gate is live exactly if the script's depth is 0 and the queue isn't removed.
    pub(crate) fn new(script: &Script, freezer: Freezer, points: DrainPoints) -> Result<Submitter, RunFault> {
        // `Disk::new` fails only if memory is refused (`only_memory`).
        let disk = Disk::new(script.disk()).map_err(|_| RunFault::Memory)?;
        let replies = Replies::new(script.lines().len())?;
        Ok(Submitter {
            table: InFlightTable { disk, replies },
            state: QueueState::new(script),
            freezer,
            accepted: 0,
            points,
        })
    }

    /// Returns the result of the run, once every line is taken, nothing is owed, and the point of each drain is passed. `drawn` is
    /// what the workers drew.
    ///
    /// # Preconditions
    ///
    /// - `IsEnd(run.script, self)`: every line is taken, nothing is owed, and the queue is frozen and drained.
    /// - `PassesAll(run.script, self.accepted, none_passed, self.points)`: each line passed its point, and then the end
    ///   passed one, after this many requests.
    pub(crate) fn into_ran(self, drawn: Vec<Vec<u32>>) -> Result<Ran, RunFault> {
        let InFlightTable { disk, replies } = self.table;
        let replies = replies.into_text()?;
        Ok(Ran { replies, disk, drawn })
    }

    // Collects the completions that have arrived, if at least as many replies are owed as there are tags. Before an ordered request
    // it drains the queue, and thaws it again.
    //
    // # Preconditions
    //
    // - `IsAt(run.script, run.queue, self.table.replies.len(), self)`: the lines before a position are taken, and the
    //   freezer is in step with the script's queue.
    // - `IsCollecting(run.script, completions.id, self.table, collector)`: the table is right, and a reply is owed to
    //   each request whose completion this right to collect may still bring.
    fn make_way<S: Stall>(
        &mut self,
        context: &RunContext<'_, S>,
        collector: &mut Collector<Completion>,
    ) -> Result<(), RunFault> {
        collect_some(context, collector, &mut self.table)?;
        if !context.checked.is_ordered(self.table.replies.len()) {
            return Ok(());
        }
        self.drain(context, collector)?;
        follow(&mut self.freezer, context.queue, &self.state);
        Ok(())
    }

    // Hands over the accepted request of the next line, and takes one tag for it (`tags`). Even if this fails, the right to push
    // changes only in how many requests were pushed (`source`), so `lead` can still push end marks.
    //
    // # Preconditions
    //
    // - `HasTaken(run.script, run.queue, requests.requests, completions.id, self.table.replies.len(), self,
    //   ends.source, ends.collector)`: the lines before a position are taken, and the accepted requests among them are
    //   handed over.
    // - `IsRequestNext(run.script, self.table.replies.len(), request)`: the next line is this accepted request, and
    //   few lines come before it.
    // - `HasCounted(requests.free_tags, self.accepted, ends.taker)`: this many spares of this queue were taken, or put
    //   back.
    fn submit<S: Stall>(
        &mut self,
        context: &RunContext<'_, S>,
        ends: &mut Ends,
        request: Request,
    ) -> Result<(), RunFault> {
        let accepted = Accepted { request, number: self.accepted, limits: self.state.limits() };
        self.make_way(context, &mut ends.collector)?;
        hand_over(context, &mut self.table, ends, accepted)?;
        self.accepted += 1;
        self.state.count(&request);
        Ok(())
    }

    // Drains the queue, which it freezes if it isn't frozen, and collects all completions. The queue is frozen even if memory is
    // refused.
    //
    // # Preconditions
    //
    // - `IsAt(run.script, run.queue, self.table.replies.len(), self)`: the lines before a position are taken, and the
    //   freezer is in step with the script's queue.
    // - `IsCollecting(run.script, completions.id, self.table, collector)`: the table is right, and a reply is owed to
    //   each request whose completion this right to collect may still bring.
    fn drain<S: Stall>(
        &mut self,
        context: &RunContext<'_, S>,
        collector: &mut Collector<Completion>,
    ) -> Result<(), RunFault> {
        let accepted = self.accepted;
        context.requests.wake_if_all_sleep();
        freeze(&mut self.freezer, context.queue);
        self.points.pass(context.points, &self.freezer, accepted);
        collect_until(context, collector, &mut self.table, 0)
    }

    // Takes the next line, which has this reply and leaves the script's queue as `next`.
    //
    // # Preconditions
    //
    // - `IsBeforeLine(run.script, run.queue, self, next)`: the lines before the next are taken, except that the
    //   freezer may have killed its gate once more; one step at most brings it into step with the queue that the next
    //   line leaves.
    // - `MayPass(run.script, self.table.replies)`: the next line may be taken: it doesn't drain, or nothing is owed.
    // - `IsReplyNext(run.script, self.table.replies, line_number, reply, next)`: the next line isn't an accepted
    //   request; it has this reply, and leaves the script's queue as `next`.
    fn reply_and_follow<S>(
        &mut self,
        context: &RunContext<'_, S>,
        next: QueueState,
        line_number: u32,
        reply: &Reply,
    ) -> Result<(), RunFault> {
        reply_now(context.checked.script(), &mut self.table, line_number, reply)?;
        follow(&mut self.freezer, context.queue, &next);
        self.state = next;
        Ok(())
    }

    // Takes the next line, which isn't a request that the queue accepts.
    //
    // # Preconditions
    //
    // - `HasTaken(run.script, run.queue, requests.requests, completions.id, self.table.replies.len(), self,
    //   ends.source, ends.collector)`: the lines before a position are taken, and the accepted requests among them are
    //   handed over.
    // - `self.table.replies.len()` is less than `run.script.lines.len()`.
    // - `accepted_at(run.script, self.table.replies.len())` is `None`.
    // - `HasCounted(requests.free_tags, self.accepted, ends.taker)`: this many spares of this queue were taken, or put
    //   back.
    fn reply_to<S: Stall>(&mut self, context: &RunContext<'_, S>, ends: &mut Ends) -> Result<(), RunFault> {
        let line = &context.checked.script().lines()[self.table.replies.len()];
        let mut next = self.state;
        match next.take(&line.what) {
            Outcome::Drained(reply) => {
                self.drain(context, &mut ends.collector)?;
                self.reply_and_follow(context, next, line.number, &reply)
            }
            Outcome::Replied(reply) => self.reply_and_follow(context, next, line.number, &reply),
            // The check found that the queue accepts no request here.
            Outcome::Accepted(_) => unreachable!(),
        }
    }

    // Takes the next line. By `source`, the right to push changes only in how many requests were pushed. So `lead` can push end
    // marks even if this fails, and if it doesn't, `gather` finds the parts, the lists and their room unchanged.
    //
    // # Preconditions
    //
    // - `HasTaken(run.script, run.queue, requests.requests, completions.id, self.table.replies.len(), self,
    //   ends.source, ends.collector)`: the lines before a position are taken, and the accepted requests among them are
    //   handed over.
    // - `self.table.replies.len()` is less than `run.script.lines.len()`.
    // - `HasCounted(requests.free_tags, self.accepted, ends.taker)`: this many spares of this queue were taken, or put
    //   back.
    fn take_next<S: Stall>(&mut self, context: &RunContext<'_, S>, ends: &mut Ends) -> Result<(), RunFault> {
        match context.checked.request(self.table.replies.len()) {
            Some(request) => self.submit(context, ends, request),
            None => self.reply_to(context, ends),
        }
    }

    /// Takes all lines, and drains the queue at the end. If a line fails, it takes no more lines and drains the queue too. `source`
    /// is as at `submit`.
    ///
    /// # Preconditions
    ///
    /// - `HasTaken(run.script, run.queue, requests.requests, completions.id, 0, self, ends.source, ends.collector)`:
    ///   the lines before a position are taken, and the accepted requests among them are handed over.
    /// - `HasCounted(requests.free_tags, self.accepted, ends.taker)`: this many spares of this queue were taken, or put
    ///   back.
    pub(crate) fn submit_all<S: Stall>(
        &mut self,
        context: &RunContext<'_, S>,
        ends: &mut Ends,
    ) -> Result<(), RunFault> {
        for _position in 0..context.checked.script().lines().len() {
            if let Err(why) = self.take_next(context, ends) {
                // Requests in flight end: every tag leaves. Completions aren't awaited, since a reply stays owed if its completion
                // brings no answer.
                context.requests.wake_if_all_sleep();
                freeze(&mut self.freezer, context.queue);
                self.points.pass(context.points, &self.freezer, self.accepted);
                return Err(why);
            }
        }
        self.drain(context, &mut ends.collector)
    }
}
