//! Races of the queue that waits.

use crate::actor::{at_once, join};
use crate::erased::freeze_queue::{BlockQueue, FreezeFault, Freezer, Limits, NewQueue, SharedFreezer, Tag};
use crate::erased::wait_queue::WaitQueue;
use crate::orders::Race;

/// Tags that wait to enter; and threads that freeze with one shared freezer, wait for the drain, set limits and thaw.
#[derive(Clone, Copy, Debug)]
pub struct WaitRace {
    /// The number of tags that enter.
    pub tags: usize,
    /// The number of threads that freeze.
    pub freezers: usize,
    /// How often each tag enters.
    pub rounds: usize,
    /// Whether each tag's thread reads the depth before it leaves, and so takes the freezer's lock.
    pub reads_depth: bool,
    /// Whether each tag could be biased. None is, so that it enters and leaves by the gate: the words of lanes are each actor's own here, and
    /// `tests/biased` goes through the orders of tags with a bias.
    pub by_lanes: bool,
}

/// An answer.
#[derive(Clone, Debug, PartialEq, Eq, PartialOrd, Ord)]
pub enum Waited {
    /// The largest request at both reads of each visit, and the releases of the tag.
    Entered(Vec<(u32, u32)>, u64),
    /// The depths that were seen, and whether others thawed the queue before its drain was seen.
    Froze(Vec<u32>, bool),
    /// At the end: depth, kills and releases of the freezer.
    End(u32, u64, u64),
}

/// The largest request at the start. Freezers set this minus one, minus two and so on.
pub const FIRST: u32 = 8;

/// Lets one thread wait and another wake it, so that each lock gets its name.
fn use_once(waits: &WaitQueue) {
    let mut tries = waits.announced_tries();
    tries.next();
    waits.wake_all();
}

pub(crate) fn queue_of(tags: usize) -> NewQueue {
    let tags = u32::try_from(tags).expect("few tags");
    let made = BlockQueue::new(Limits::start(FIRST).expect("limits"), 1, tags).expect("memory");
    use_once(&made.0.drained);
    use_once(&made.0.thawed);
    made.0.freezer.unpark();
    made.1.parker.park();
    made
}

/// A shared freezer, whose lock is named.
pub(crate) fn share(freezer: Freezer, queue: &BlockQueue) -> SharedFreezer<'_> {
    at_once(|| {
        let shared = SharedFreezer::new(freezer, queue);
        drop(shared.lock());
        shared
    })
}

fn enters(race: &WaitRace, queue: &BlockQueue, shared: &SharedFreezer<'_>, mut tag: Tag) -> Waited {
    let mut seen = Vec::new();
    for _ in 0..race.rounds {
        queue.enter(&mut tag, 0);
        let first = queue.limits(&mut tag).max();
        if race.reads_depth {
            shared.lock().freezer.depth();
        }
        seen.push((first, queue.limits(&mut tag).max()));
        let _put = queue.leave(&mut tag, 0);
    }
    Waited::Entered(seen, tag.into_pass().into_parts().1)
}

/// The same by the calls of a tag that could be biased, which reads its limits as it enters.
fn enters_by_lanes(race: &WaitRace, queue: &BlockQueue, tag: Tag) -> Waited {
    let mut tag = tag.into_biased(Limits::start(FIRST).expect("limits"));
    let mut seen = Vec::new();
    for _ in 0..race.rounds {
        queue.enter_by_lane(&mut tag, 0);
        let first = tag.limits().max();
        seen.push((first, tag.limits().max()));
        let _put = queue.leave_by_lane(&mut tag, 0, false);
    }
    let Ok(tag) = tag.into_tag() else { panic!("it has a bias") };
    Waited::Entered(seen, tag.into_pass().into_parts().1)
}

/// Freezes, sets the limits and thaws. A thaw by another thread meanwhile isn't a fault.
fn freezes(shared: &SharedFreezer<'_>, most: u32) -> Waited {
    let mut guard = match shared.freeze() {
        Ok(guard) => guard,
        Err(FreezeFault::NotFrozen) => return Waited::Froze(Vec::new(), true),
        Err(other) => panic!("{other}"),
    };
    let queue = guard.queue;
    let before = guard.freezer.depth();
    guard.freezer.set(queue, Limits::new(FIRST, most, 0).expect("limits")).expect("a drained queue");
    let after = guard.freezer.thaw(queue).expect("a frozen queue");
    Waited::Froze(vec![before, after], false)
}

/// Returns depth, kills and releases of a freezer, once all other actors have ended.
fn ended(shared: SharedFreezer<'_>) -> Waited {
    join();
    let freezer = shared.into_inner().freezer;
    let depth = freezer.depth();
    let control = freezer.core.into_control();
    Waited::End(depth, control.kills(), control.releases())
}

impl Race for WaitRace {
    type Answer = Waited;

    fn actors(&self) -> usize {
        self.tags + self.freezers + 1
    }

    fn act(&self, actor: usize) -> Waited {
        let (queue, freezer, mut tags) = at_once(|| queue_of(self.tags));
        let shared = share(freezer, &queue);
        if actor < self.tags {
            let tag = tags.swap_remove(actor);
            return if self.by_lanes { enters_by_lanes(self, &queue, tag) } else { enters(self, &queue, &shared, tag) };
        }
        if actor < self.tags + self.freezers {
            return freezes(&shared, FIRST - 1 - u32::try_from(actor - self.tags).expect("few freezers"));
        }
        ended(shared)
    }
}
