//! Races of threads that wait for the drain of a queue.

use crate::actor::{at_once, join};
use crate::erased::freeze_queue::{BlockQueue, Enter, Freezer, Mode, NewQueue, SharedFreezer, Tag};
use crate::orders::Race;
use crate::wait_race::{queue_of, share};

/// How the wait for a drain ends.
#[derive(Clone, Copy, Debug, PartialEq, Eq)]
pub enum Finish {
    /// The tag leaves.
    Leave,
    /// The last freeze is thawed.
    Thaw,
    /// The last freeze is thawed, the tag leaves, and a freeze finds the queue empty.
    Refreeze,
}

/// A frozen queue with an entered tag. Threads wait for the drain with the shared freezer, other threads freeze once more with it and
/// wait too, and another thread ends the wait.
#[derive(Clone, Copy, Debug)]
pub struct DrainRace {
    /// The number of earlier freezes.
    pub depth: u32,
    /// The number of threads that wait.
    pub waiting: usize,
    /// The number of threads that freeze and wait.
    pub freezing: usize,
    /// How the wait ends.
    pub finish: Finish,
}

/// An answer.
#[derive(Clone, Debug, PartialEq, Eq, PartialOrd, Ord)]
pub enum Drained {
    /// The depth under the lock of the drained queue, or the number of the refusal.
    Waited(Result<u32, u8>),
    /// The wait was ended.
    Finished,
    /// At the end.
    Left {
        /// The number of freezes that aren't thawed.
        depth: u32,
        /// The number of kills.
        kills: u64,
        /// Whether a live queue counts on slots.
        on_slots: bool,
        /// The largest request.
        most: u32,
    },
}

/// Makes a queue with its one tag entered, frozen this often.
fn frozen_with_a_tag_in(depth: u32) -> (BlockQueue, Freezer, Tag) {
    let (queue, mut freezer, mut tags) = queue_of(1);
    let mut tag = tags.swap_remove(0);
    assert_eq!(queue.try_enter(&mut tag, 0), Enter::Entered);
    for _ in 0..depth {
        freezer.start_freeze(&queue).expect("a freeze");
    }
    (queue, freezer, tag)
}

fn leaves(queue: &BlockQueue, tag: &mut Tag) {
    let _put = queue.leave(tag, 0);
}

fn thaws(shared: &SharedFreezer<'_>) {
    let mut guard = shared.lock();
    let queue = guard.queue;
    guard.freezer.thaw(queue).expect("a frozen queue");
}

fn left(freezer: Freezer) -> Drained {
    let (depth, most) = (freezer.depth(), freezer.limits().max());
    let control = freezer.core.into_control();
    Drained::Left { depth, kills: control.kills(), on_slots: control.wants() == Mode::Slots, most }
}

impl Race for DrainRace {
    type Answer = Drained;

    fn actors(&self) -> usize {
        self.waiting + self.freezing + 2
    }

    fn act(&self, actor: usize) -> Drained {
        let (queue, freezer, mut tag) = at_once(|| frozen_with_a_tag_in(self.depth));
        let shared = share(freezer, &queue);
        if actor < self.waiting + self.freezing {
            let guard = if actor < self.waiting { shared.wait_drained() } else { shared.freeze() };
            return Drained::Waited(guard.map(|it| it.freezer.depth()).map_err(|why| why.number()));
        }
        if actor == self.waiting + self.freezing {
            match self.finish {
                Finish::Leave => leaves(&queue, &mut tag),
                Finish::Thaw => thaws(&shared),
                Finish::Refreeze => {
                    thaws(&shared);
                    leaves(&queue, &mut tag);
                    shared.lock().freezer.start_freeze(&queue).expect("a freeze");
                }
            }
            return Drained::Finished;
        }
        join();
        left(shared.into_inner().freezer)
    }
}

/// Tags that leave, or are refused, beside the thread that has the freezer alone: it freezes, waits for the drain and thaws.
#[derive(Clone, Copy, Debug)]
pub struct AloneRace {
    /// How many tags are in, and leave.
    pub leaving: usize,
    /// How many tags try to enter, and leave if they are let in.
    pub entering: usize,
    /// How often the thread freezes.
    pub freezes: usize,
}

impl AloneRace {
    /// The queue with the tags in that will leave.
    fn parts(&self) -> NewQueue {
        let (queue, freezer, mut tags) = queue_of(self.leaving + self.entering);
        for tag in &mut tags[..self.leaving] {
            assert_eq!(queue.try_enter(tag, 0), Enter::Entered);
        }
        (queue, freezer, tags)
    }
}

impl Race for AloneRace {
    /// How often the queue was drained, or whether the tag was let in.
    type Answer = usize;

    fn actors(&self) -> usize {
        self.leaving + self.entering + 1
    }

    fn act(&self, actor: usize) -> usize {
        let (queue, mut freezer, mut tags) = at_once(|| self.parts());
        let Some(tag) = tags.get_mut(actor) else {
            let drains =
                || freezer.freeze(&queue).is_ok() && freezer.poll_drained(&queue) && freezer.thaw(&queue).is_ok();
            return std::iter::repeat_with(drains).take(self.freezes).filter(|is_drained| *is_drained).count();
        };
        let is_in = tag.entered() || queue.try_enter(tag, 0) == Enter::Entered;
        if is_in {
            leaves(&queue, tag);
        }
        usize::from(is_in)
    }
}

/// A tag that enters a frozen queue, beside a thread that freezes with the shared freezer, waits for the drain and thaws.
#[derive(Clone, Copy, Debug)]
pub struct LookRace {
    /// The number of freezes by the thread.
    pub freezes: usize,
}

fn freezes_and_thaws(shared: &SharedFreezer<'_>) {
    drop(shared.freeze().expect("the only freeze"));
    thaws(shared);
}

impl Race for LookRace {
    /// Whether the tag entered.
    type Answer = bool;

    fn actors(&self) -> usize {
        2
    }

    fn act(&self, actor: usize) -> bool {
        let (queue, freezer, mut tags) = at_once(|| queue_of(1));
        let shared = share(freezer, &queue);
        if actor == 1 {
            (0..self.freezes).for_each(|_| freezes_and_thaws(&shared));
            return true;
        }
        let is_in = queue.try_enter_frozen(&mut tags[0], 0) == Enter::Entered;
        if is_in {
            leaves(&queue, &mut tags[0]);
        }
        is_in
    }
}
