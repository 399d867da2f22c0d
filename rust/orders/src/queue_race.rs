//! Races of the queue that doesn't wait.

use crate::actor::{at_once, join};
use crate::erased::percpu_words::Mode;
use crate::erased::queue_core::{BlockQueue, Entry, Final, FreezeFault, Freezer, Limits, Put, Stay, Tag};
use crate::orders::Race;

/// A call of the freezer.
#[derive(Clone, Copy, Debug, PartialEq, Eq)]
pub enum Freezing {
    /// Begins a freeze.
    Freeze,
    /// Sets limits with this maximum number of sectors.
    Set(u32),
    /// Ends a freeze.
    Thaw,
    /// Counts in this mode.
    Count(Mode),
}

/// A visit of a tag. If the tag enters, it reads the limits twice and leaves. A visit that stays asks to stay between the two reads.
#[derive(Clone, Copy, Debug, PartialEq, Eq)]
pub enum Visit {
    /// It enters unless the queue is frozen.
    Enter,
    /// It enters unless the queue is drained.
    Look,
    /// It enters unless the queue is frozen, and stays for another request unless a freeze has begun.
    Stay,
}

/// Tags that visit a queue, each on a slot, and a freezer, which removes the queue once all visits are over.
#[derive(Clone, Debug)]
pub struct QueueRace {
    /// The visits of each tag.
    pub tags: Vec<Vec<Visit>>,
    /// The calls of the freezer before the removal.
    pub freezer: Vec<Freezing>,
}

/// An answer.
#[derive(Clone, Copy, Debug, PartialEq, Eq, PartialOrd, Ord)]
pub enum QueueAnswer {
    /// A visit: the largest request at both reads, and whether the tag was the last to leave.
    Visited(u32, u32, bool),
    /// A visit of a tag that didn't stay: the largest request at its one read, and whether it was the last to leave.
    Left(u32, bool),
    /// A tag was refused; whether the count that it dropped was the last.
    Refused(bool),
    /// The depth; whether the kill's own count was the last.
    Frozen(u32, bool),
    /// Limits were set.
    Set,
    /// Limits weren't set, since the queue isn't drained.
    NotDrained,
    /// Another refusal.
    Fault(u8),
    /// The depth; whether the queue is live.
    Thawed(u32, bool),
    /// Nothing.
    Counts,
    /// The queue is removed: kills, releases of the freezer, and the largest request.
    Removed(u64, u64, u64),
}

/// The largest request at the start.
pub const FIRST_MOST: u32 = 8;

fn visit(queue: &BlockQueue, tag: &mut Tag, slot: u32, visit: Visit) -> QueueAnswer {
    let entry = match visit {
        Visit::Enter | Visit::Stay => queue.try_enter(tag, slot),
        Visit::Look => queue.try_enter_frozen(tag, slot),
    };
    if let Entry::Refused(put) = entry {
        return QueueAnswer::Refused(put == Put::Last);
    }
    let one = queue.limits(tag).max();
    if visit == Visit::Stay {
        if let Stay::Left(put) = queue.stay(tag, slot) {
            return QueueAnswer::Left(one, put == Put::Last);
        }
    }
    let other = queue.limits(tag).max();
    QueueAnswer::Visited(one, other, queue.leave(tag, slot) == Put::Last)
}

fn freezing(queue: &BlockQueue, freezer: &mut Freezer, call: Freezing) -> Result<QueueAnswer, FreezeFault> {
    Ok(match call {
        Freezing::Freeze => {
            let frozen = freezer.start_freeze(queue)?;
            QueueAnswer::Frozen(frozen.depth, frozen.put == Put::Last)
        }
        Freezing::Set(most) => {
            freezer.set(queue, Limits::new(FIRST_MOST, most, 0).expect("limits"))?;
            QueueAnswer::Set
        }
        Freezing::Thaw => {
            let thawed = freezer.thaw(queue)?;
            QueueAnswer::Thawed(thawed.depth, thawed.live)
        }
        Freezing::Count(mode) => {
            freezer.mode(queue, mode);
            QueueAnswer::Counts
        }
    })
}

fn removed(freezer: Freezer, queue: BlockQueue, tags: Vec<Tag>) -> QueueAnswer {
    match freezer.remove(queue, tags) {
        Ok(Final { kills, releases, words, .. }) => QueueAnswer::Removed(kills, releases, words[0]),
        Err(fault) => QueueAnswer::Fault(fault.why.number()),
    }
}

impl Race for QueueRace {
    type Answer = Vec<QueueAnswer>;

    fn actors(&self) -> usize {
        self.tags.len() + 1
    }

    fn act(&self, actor: usize) -> Vec<QueueAnswer> {
        let tags = u32::try_from(self.tags.len()).expect("few tags");
        let made = at_once(|| BlockQueue::new(Limits::start(FIRST_MOST).expect("limits"), tags, tags));
        let (queue, mut freezer, mut tags) = made.expect("memory");
        if let Some(visits) = self.tags.get(actor) {
            let slot = u32::try_from(actor).expect("few tags");
            return visits.iter().map(|it| visit(&queue, &mut tags[actor], slot, *it)).collect();
        }
        let answer = |fault: FreezeFault| match fault {
            FreezeFault::NotDrained => QueueAnswer::NotDrained,
            other => QueueAnswer::Fault(other.number()),
        };
        let calls = self.freezer.iter();
        let mut answered: Vec<QueueAnswer> =
            calls.map(|call| freezing(&queue, &mut freezer, *call).unwrap_or_else(answer)).collect();
        join();
        answered.push(removed(freezer, queue, tags));
        answered
    }
}
