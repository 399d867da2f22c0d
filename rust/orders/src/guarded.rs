//! The shared freezer's lock guards a freezer, which can't be copied. It is written down, and made again by its own calls.

use crate::actor::apart;
use crate::erased::crossbeam_utils::sync::Parker;
use crate::erased::freeze_queue::{BlockQueue, Freezer, Pair};
use crate::erased::percpu_words::Mode;
use crate::erased::queue_core;
use crate::erased::queue_limits::Limits;
use crate::erased::sync::Guarded;

/// All that a freezer is, between two of its calls.
#[derive(Clone, Debug, PartialEq, Eq)]
pub struct Saved {
    limits: Limits,
    tags: u32,
    depth: u32,
    kills: u64,
    releases: u64,
    wants: Mode,
}

impl<'q> Guarded for Pair<'q> {
    type Saved = Saved;
    type Beside = &'q BlockQueue;

    fn save(self) -> (Saved, &'q BlockQueue) {
        let Pair { freezer, queue } = self;
        let (limits, depth, tags) = (freezer.limits(), freezer.depth(), freezer.core.tags());
        let control = freezer.core.into_control();
        let (kills, releases, wants) = (control.kills(), control.releases(), control.wants());
        (Saved { limits, tags, depth, kills, releases, wants }, queue)
    }

    fn restore(saved: Saved, queue: &'q BlockQueue) -> Pair<'q> {
        // A shared freezer never parks, so any parker does.
        let parker = apart(Parker::try_new).expect("memory");
        Pair { freezer: Freezer { core: apart(|| freezer_of(&saved)), parker }, queue }
    }
}

/// A freezer with the same life behind it, at a queue of its own. A kill that isn't to be answered `Last` has a tag entered.
fn freezer_of(saved: &Saved) -> queue_core::Freezer {
    let made = queue_core::BlockQueue::new(saved.limits, 1, saved.tags).expect("memory");
    let (queue, mut freezer, mut tags) = made;
    freezer.mode(&queue, saved.wants);
    for kill in 1..=saved.kills {
        let held = kill > saved.releases;
        if held {
            let _entered = queue.try_enter(&mut tags[0], 0);
        }
        let _frozen = freezer.start_freeze(&queue);
        if kill < saved.kills || saved.depth == 0 {
            let _thawed = freezer.thaw(&queue);
        }
        if held && tags[0].entered() {
            let _put = queue.leave(&mut tags[0], 0);
        }
    }
    while freezer.depth() < saved.depth {
        let _frozen = freezer.start_freeze(&queue);
    }
    freezer
}

#[cfg(test)]
mod tests {
    use super::{Guarded, Pair};
    use crate::erased::freeze_queue::BlockQueue;
    use crate::erased::percpu_words::Mode;
    use crate::erased::queue_limits::Limits;

    /// A freezer that is made again is written down as before.
    #[test]
    fn it_is_the_same_again() {
        let (queue, freezer, mut tags) = BlockQueue::new(Limits::start(8).unwrap(), 1, 2).unwrap();
        let mut pair = Pair { freezer, queue: &queue };
        for call in 0..40 {
            match call % 8 {
                0 | 5 | 6 => drop(pair.freezer.start_freeze(&queue)),
                1 if tags[0].entered() => drop(queue.leave(&mut tags[0], 0)),
                2 => drop(pair.freezer.set(&queue, Limits::new(8, 4 + call % 3, 2).unwrap())),
                3 | 7 => drop(pair.freezer.thaw(&queue)),
                4 if call > 20 => drop(queue.try_enter(&mut tags[0], 0)),
                _ => pair.freezer.mode(&queue, if call % 3 == 0 { Mode::Atomic } else { Mode::Slots }),
            }
            let (saved, _) = pair.save();
            let (twice, _) = Pair::restore(saved.clone(), &queue).save();
            assert_eq!(twice, saved, "after call {call}");
            pair = Pair::restore(saved, &queue);
        }
    }
}
