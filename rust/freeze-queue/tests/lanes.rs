//! The steps of a lane and of its freezer, one by one: what the freezer knows of an owner, and what a bias that is over leaves. Also the freezes
//! of a queue with any number of biased tags.
use freeze_queue::erased::bias_lanes::{Freezer, Lane, Lanes, Stage};
use freeze_queue::erased::queue_core::{self, BiasedEntry, BiasedTag, BlockQueue, Frozen, Limits, Put};

mod shared;
use shared::Chance;

/// So many lanes, their freezer, and an owner that has parked its number in each.
fn parked(lanes: usize) -> (Lanes<usize>, Freezer<usize>, Vec<Lane<usize>>) {
    let (made, freezer) = Lanes::new(lanes).expect("memory");
    let mut owners: Vec<Lane<usize>> = (0..lanes).map(|number| made.owner(number).expect("an owner")).collect();
    for owner in &mut owners {
        assert_eq!(owner.park(&made, owner.number()), Ok(true));
    }
    (made, freezer, owners)
}

/// There is memory for far more lanes than a queue has tags, and the last of them has an owner.
#[test]
fn lanes_of_each_magnitude() {
    for count in (0..=20).flat_map(|bits| [(1 << bits) - 1, 1 << bits, (1 << bits) + 1]) {
        let (lanes, mut freezer) = Lanes::new(count).expect("memory");
        assert_eq!(lanes.count(), count);
        if let Some(last) = count.checked_sub(1) {
            let mut owner = lanes.owner(last).expect("an owner");
            assert_eq!(owner.park(&lanes, last), Ok(true), "{count} lanes");
            freezer.freeze(&lanes);
            assert!(!freezer.look(&lanes, last, &freezer.fence()));
            assert_eq!(freezer.reclaim(&lanes, last), Some(last), "{count} lanes");
        }
    }
}

#[test]
fn a_lane_has_one_owner() {
    let (lanes, _freezer, _owners) = parked(1);
    assert!(lanes.owner(0).is_none());
}

#[test]
fn a_request_enters_and_leaves_while_the_epoch_is_its_own() {
    let (lanes, mut freezer, mut owners) = parked(1);
    for _ in 0..3 {
        assert!(owners[0].enter(&lanes));
        assert_eq!(owners[0].stage(), Stage::Entered);
        assert!(owners[0].leave(&lanes));
        assert_eq!(owners[0].stage(), Stage::Idle);
    }
    freezer.freeze(&lanes);
    freezer.thaw(&lanes);
    assert!(!owners[0].enter(&lanes), "a later even epoch isn't its own either");
    assert_eq!(owners[0].stage(), Stage::Over);
}

#[test]
fn a_busy_lane_is_watched_and_its_owner_finds_out() {
    let (lanes, mut freezer, mut owners) = parked(2);
    assert!(owners[0].enter(&lanes));
    freezer.freeze(&lanes);
    let fenced = freezer.fence();
    assert!(freezer.look(&lanes, 0, &fenced), "the lane is busy");
    assert!(!freezer.look(&lanes, 1, &fenced));
    assert!(!owners[0].leave(&lanes), "the bias is over");
    assert!(!freezer.look(&lanes, 0, &fenced));
    assert_eq!(owners[0].take_back(&lanes), Some(0));
}

#[test]
fn an_owner_that_is_out_enters_in_vain() {
    let (lanes, mut freezer, mut owners) = parked(1);
    freezer.freeze(&lanes);
    assert!(!freezer.look(&lanes, 0, &freezer.fence()));
    assert!(!owners[0].enter(&lanes), "its lane says busy still");
    assert_eq!(owners[0].take_back(&lanes), Some(0));
    freezer.thaw(&lanes);
    freezer.freeze(&lanes);
    assert!(!freezer.look(&lanes, 0, &freezer.fence()), "a lane without a bias isn't busy");
}

#[test]
fn a_freeze_looks_again_at_an_owner_that_the_last_one_found_out() {
    let (lanes, mut freezer, mut owners) = parked(1);
    freezer.freeze(&lanes);
    assert!(!freezer.look(&lanes, 0, &freezer.fence()));
    freezer.thaw(&lanes);
    assert_eq!(owners[0].take_back(&lanes), Some(0));
    assert_eq!(owners[0].park(&lanes, 7), Ok(true));
    assert!(owners[0].enter(&lanes));
    freezer.freeze(&lanes);
    assert!(freezer.look(&lanes, 0, &freezer.fence()), "it is in by the lane, in its second life");
}

#[test]
fn what_is_reclaimed_is_out_of_reach_until_it_is_restored() {
    let (lanes, mut freezer, mut owners) = parked(2);
    freezer.freeze(&lanes);
    assert!(!freezer.look(&lanes, 1, &freezer.fence()));
    assert_eq!(freezer.reclaim(&lanes, 1), Some(1));
    assert_eq!(owners[1].take_back(&lanes), None, "the freezer has it in hand");
    freezer.restore(&lanes, 1, 9);
    assert_eq!(owners[1].take_back(&lanes), Some(9));
    assert_eq!(freezer.reclaim(&lanes, 1), None, "its owner has it");
    assert_eq!(owners[1].park(&lanes, 1), Err(1), "nobody parks in an odd epoch");
    assert_eq!((owners[0].stage(), owners[1].stage()), (Stage::Idle, Stage::Unbiased));
}

/// Where a tag is when a freeze begins.
#[derive(Clone, Copy, Debug, PartialEq, Eq)]
enum Place {
    Out,
    Parked,
    InByLane,
    InByGate,
}

/// So many parked tags among these, up to three others that are in, and the rest out, in any order.
fn places(chance: &mut Chance, tags: usize, parked: usize) -> Vec<Place> {
    let mut places = vec![Place::Parked; parked];
    for _ in 0..chance.below(4) {
        places.push(if chance.one_in(2) { Place::InByLane } else { Place::InByGate });
    }
    places.resize(tags, Place::Out);
    for last in (1..tags).rev() {
        places.swap(last, chance.below(u32::try_from(last).unwrap() + 1) as usize);
    }
    places
}

/// A biased queue, with its freezer and its tags, and the limits in force.
struct Whole {
    queue: BlockQueue,
    freezer: queue_core::Freezer,
    tags: Vec<BiasedTag>,
    limits: Limits,
}

/// The last put of a freeze: its own, or that of a tag that it found biased and idle.
fn last(frozen: Frozen) -> Put {
    if frozen.reclaimed == Put::Last { Put::Last } else { frozen.put }
}

/// The result of a put that leaves so many requests in.
fn put_before(left: usize) -> Put {
    if left == 0 { Put::Last } else { Put::NotLast }
}

impl Whole {
    fn new(slots: u32, tags: u32) -> Whole {
        let limits = Limits::new(64, 64, 0).expect("limits");
        let (queue, freezer, made) = BlockQueue::new(limits, slots, tags).unwrap_or_else(|_| panic!("memory"));
        assert_eq!((made.len(), queue.slots()), (tags as usize, slots));
        Whole { queue, freezer, tags: made.into_iter().map(|tag| tag.into_biased(limits)).collect(), limits }
    }

    /// Takes a tag that is out to its place.
    fn takes(&mut self, tag: usize, place: Place, chance: &mut Chance) {
        let (queue, tag) = (&self.queue, &mut self.tags[tag]);
        let mut slot = || chance.below(queue.slots());
        if place != Place::Out {
            assert_eq!(tag.try_enter(queue, slot()), BiasedEntry::Entered);
            assert_eq!(tag.limits(), self.limits);
        }
        if place == Place::Parked || place == Place::InByLane {
            assert_eq!(tag.leave(queue, slot(), true), Put::NotLast);
            assert!(tag.is_biased(), "lane {}", tag.lane());
        }
        if place == Place::InByLane {
            assert_eq!(tag.try_enter(queue, slot()), BiasedEntry::Entered);
            assert_eq!(tag.limits(), self.limits);
        }
    }

    /// A freeze of the queue with its tags in these places is drained by the last request that is in, or at once if none is. No idle tag
    /// holds it up. Then other limits are set.
    fn life(&mut self, places: &[Place], chance: &mut Chance) {
        for (tag, place) in places.iter().enumerate() {
            self.takes(tag, *place, chance);
        }
        let is_in = |place: &Place| matches!(place, Place::InByLane | Place::InByGate);
        let mut inside: Vec<usize> = (0..places.len()).filter(|tag| is_in(&places[*tag])).collect();
        let frozen = self.freezer.start_freeze(&self.queue).map(|frozen| (frozen.depth, last(frozen)));
        assert_eq!(frozen, Ok((1, put_before(inside.len()))));
        while !inside.is_empty() {
            assert!(!self.freezer.poll_drained(&self.queue));
            let next = inside.swap_remove(chance.below(u32::try_from(inside.len()).unwrap()) as usize);
            let put = self.tags[next].leave(&self.queue, chance.below(self.queue.slots()), chance.one_in(2));
            assert_eq!(put, put_before(inside.len()));
        }
        assert!(self.freezer.poll_drained(&self.queue));
        self.limits = Limits::new(64, 1 + chance.below(64), chance.below(100)).expect("limits");
        assert_eq!(self.freezer.set(&self.queue, self.limits), Ok(()));
        assert_eq!(self.freezer.thaw(&self.queue).map(|thawed| thawed.depth), Ok(0));
    }
}

/// Each number of idle tags, up to the most, wherever they are and beside requests that are in, holds up no freeze.
#[test]
fn any_number_of_idle_tags_holds_up_no_freeze() {
    let mut chance = Chance(1);
    for (slots, tags) in [(1, 1), (3, 2), (2, 65), (512, 300), (64, 1_023)] {
        let mut whole = Whole::new(slots, tags);
        for parked in 0..=tags as usize {
            let places = places(&mut chance, tags as usize, parked);
            whole.life(&places, &mut chance);
        }
    }
}
