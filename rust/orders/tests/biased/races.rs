//! The races.

use crate::erased::queue_core::{BiasedEntry, BiasedTag, BlockQueue, Freezer, Limits, Mode, Put};
use orders::turns::{AtomicU64, Condvar, Failed, Mutex, Noted, Play, Turns};
use std::cell::Cell;
use std::sync::Mutex as StdMutex;
use std::sync::atomic::{AtomicU32, Ordering::Relaxed, Ordering::SeqCst};

/// A call of an owner.
#[derive(Clone, Copy, Debug, PartialEq, Eq)]
enum Call {
    /// A request, if it is let in. Its tag is parked.
    Enter,
    /// The same, and its tag isn't parked.
    EnterOnce,
    /// A request that is let in unless the queue is drained.
    Look,
    /// The bias ends, as before a tag is removed.
    End,
}

/// A call of the freezer.
#[derive(Clone, Copy, Debug, PartialEq, Eq)]
enum Freezing {
    /// Freezes, waits for the drain, sets other limits and thaws.
    Change,
    /// Freezes, and thaws at once.
    GiveUp,
    /// Freezes twice, and else as a change.
    Nested,
}

use Call::{End, Enter, EnterOnce, Look};
use Freezing::{Change, GiveUp, Nested};

/// Owners with a tag each, which is parked at the start, and a freezer.
struct Race {
    owners: Vec<Vec<Call>>,
    /// Whether the owners hand one tag round instead.
    hands_round: bool,
    freezer: Vec<Freezing>,
    mode: Mode,
}

struct Parts {
    queue: BlockQueue,
    desk: Mutex<Freezer>,
    drained: Condvar,
    tags: Vec<StdMutex<Option<BiasedTag>>>,
    /// The tag that is handed round: whoever has the lock has the tag.
    handed: Option<Mutex<BiasedTag>>,
    /// What each owner's requests store, in no order with anything else.
    stored: Vec<AtomicU64>,
    seen: Seen,
}

/// What is true at each moment.
#[derive(Default)]
struct Seen {
    /// Whether a request of each owner is in, and how many were.
    inside: Vec<Noted>,
    requests: Vec<Noted>,
    /// The largest request by the limits in force.
    most: Noted,
    is_drained: Noted,
    /// The last puts.
    lasts: AtomicU32,
}

const FIRST_MOST: u32 = 64;

thread_local!(static BEGUN: Cell<u32> = const { Cell::new(0) });

impl Parts {
    /// Whoever waits for the drain looks again after the last put.
    fn tell(&self, put: Put) {
        self.seen.lasts.fetch_add(u32::from(put == Put::Last), SeqCst);
        if put == Put::Last {
            let desk = self.desk.lock().unwrap();
            self.drained.notify_all();
            drop(desk);
        }
    }

    /// A call of a tag, and once more under the lock if the freezer had the tag's reference in hand.
    fn again<T>(&self, mut call: impl FnMut() -> Option<T>) -> T {
        call().unwrap_or_else(|| {
            let _desk = self.desk.lock().unwrap();
            call().expect("no reference is in hand under the lock")
        })
    }

    fn enters(&self, owner: usize, tag: &mut BiasedTag, call: Call) {
        let entry = self.again(|| {
            let entry = if call == Look { tag.try_enter_frozen(&self.queue, 0) } else { tag.try_enter(&self.queue, 0) };
            (entry != BiasedEntry::InHand).then_some(entry)
        });
        if let BiasedEntry::Refused(put) = entry {
            return self.tell(put);
        }
        let most = tag.limits().max();
        self.seen.inside[owner].set(1);
        self.seen.check_inside(most);
        let requests = self.seen.requests[owner].get() + 1;
        self.stored[owner].store(requests, Relaxed);
        self.seen.requests[owner].set(requests);
        self.seen.check_inside(most);
        self.seen.inside[owner].set(0);
        self.tell(tag.leave(&self.queue, 0, call == Enter));
    }

    fn makes(&self, owner: usize, tag: &mut BiasedTag, call: Call) {
        match call {
            End => self.tell(self.again(|| tag.end_bias(&self.queue, 0))),
            _ => self.enters(owner, tag, call),
        }
    }

    fn owns(&self, owner: usize, calls: &[Call]) {
        if let Some(handed) = &self.handed {
            return calls.iter().for_each(|call| self.makes(owner, &mut handed.lock().unwrap(), *call));
        }
        let mut tag = self.tags[owner].lock().unwrap().take().expect("a tag");
        calls.iter().for_each(|call| self.makes(owner, &mut tag, *call));
        *self.tags[owner].lock().unwrap() = Some(tag);
    }

    fn freezes(&self, freezing: Freezing, most: u32) {
        let mut desk = self.desk.lock().unwrap();
        for _ in 0..1 + usize::from(freezing == Nested) {
            let frozen = desk.start_freeze(&self.queue).unwrap();
            let lasts = [frozen.put, frozen.reclaimed].into_iter().filter(|put| *put == Put::Last).count();
            self.seen.lasts.fetch_add(lasts as u32, SeqCst);
        }
        if freezing != GiveUp {
            while !desk.poll_drained(&self.queue) {
                desk = self.drained.wait(desk).unwrap();
            }
            self.seen.drained();
            let is_seen = |owner: usize| self.stored[owner].load(Relaxed) == self.seen.requests[owner].get();
            assert!((0..self.stored.len()).all(is_seen), "a change doesn't see what a request stored");
            desk.set(&self.queue, Limits::new(FIRST_MOST, most, 0).unwrap()).expect("a drained queue");
            self.seen.most.set(most.into());
            drop(desk);
            desk = self.desk.lock().unwrap();
            self.seen.is_drained.set(0);
        }
        while desk.depth() > 0 {
            desk.thaw(&self.queue).unwrap();
        }
    }
}

impl Seen {
    fn check_inside(&self, most: u32) {
        assert_eq!(self.is_drained.get(), 0, "a request is in while the queue is drained");
        assert_eq!(self.most.get(), most.into(), "other limits are in force under a request");
    }

    fn drained(&self) {
        assert!(self.inside.iter().all(|it| it.get() == 0), "the queue is drained with a request in");
        self.is_drained.set(1);
    }
}

impl Play for Race {
    type Parts = Parts;

    fn actors(&self) -> usize {
        self.owners.len() + 1
    }

    fn parts(&self) -> Parts {
        let owners = self.owners.len();
        let tags = if self.hands_round { 1 } else { u32::try_from(owners).unwrap() };
        let limits = Limits::start(FIRST_MOST).unwrap();
        let (queue, mut freezer, tags) = BlockQueue::new(limits, 1, tags).expect("memory");
        let mut tags: Vec<_> = tags.into_iter().map(|tag| tag.into_biased(limits)).collect();
        freezer.mode(&queue, self.mode);
        for tag in &mut tags {
            assert_eq!(tag.try_enter(&queue, 0), BiasedEntry::Entered);
            assert_eq!(tag.leave(&queue, 0, true), Put::NotLast);
            assert!(tag.is_biased());
        }
        let noted = || (0..owners).map(|_| Noted::default()).collect();
        let seen = Seen { inside: noted(), requests: noted(), ..Seen::default() };
        seen.most.set(FIRST_MOST.into());
        let stored = (0..owners).map(|_| AtomicU64::new(0)).collect();
        let handed = self.hands_round.then(|| Mutex::new(tags.pop().expect("a tag")));
        let tags = tags.into_iter().map(|tag| StdMutex::new(Some(tag))).collect();
        BEGUN.set(BEGUN.get() + 1);
        Parts { queue, desk: Mutex::new(freezer), drained: Condvar::new(), tags, handed, stored, seen }
    }

    fn act(&self, parts: &Parts, actor: usize) {
        if let Some(calls) = self.owners.get(actor) {
            return parts.owns(actor, calls);
        }
        for (freezing, most) in self.freezer.iter().zip(1..) {
            parts.freezes(*freezing, FIRST_MOST - most);
        }
    }

    /// Each tag is back, none is entered or counted as parked, and each freeze that was waited for had one last put.
    fn end(&self, parts: Parts) {
        let Parts { queue, desk, tags, handed, seen, .. } = parts;
        let mut lasts = seen.lasts.load(SeqCst);
        let mut back = Vec::new();
        let given = tags.into_iter().map(|tag| tag.into_inner().unwrap().expect("a tag that its owner gave back"));
        for mut tag in given.chain(handed.map(|tag| tag.into_inner().unwrap())) {
            lasts += u32::from(tag.end_bias(&queue, 0).expect("a reference that no freezer has in hand") == Put::Last);
            back.push(tag.into_tag().unwrap_or_else(|_| panic!("a tag that is parked")));
        }
        assert_eq!(queue.biased.load(SeqCst), 0, "tags are counted that aren't parked, or not counted that were");
        let waited = self.freezer.iter().filter(|it| **it != GiveUp).count() as u32;
        assert!((waited..=self.freezer.len() as u32).contains(&lasts), "{lasts} last puts of {:?}", self.freezer);
        let removed = desk.into_inner().unwrap().remove(queue, back);
        assert!(removed.is_ok(), "a tag is still entered");
    }
}

/// Goes through the orders of a race, in which each owner has a tag of its own.
fn race(name: &str, switches: usize, mode: Mode, owners: &[&[Call]], freezer: &[Freezing]) {
    let owners = owners.iter().map(|it| it.to_vec()).collect();
    play(name, switches, Race { owners, hands_round: false, freezer: freezer.to_vec(), mode });
}

/// Goes through the orders of a race. ORDERS_DEEPER is how many switches more.
fn play(name: &str, switches: usize, race: Race) {
    let deeper = std::env::var("ORDERS_DEEPER").map_or(0, |it| it.parse::<usize>().expect("a number of switches"));
    let switches = switches + deeper;
    BEGUN.set(0);
    let (why, schedule) = match Turns::switches(switches).skip_equal().play(race) {
        Ok(played) => {
            return println!("orders of {name}, {switches} switches: {} orders, {} steps", played.orders, played.steps);
        }
        Err(Failed::Stuck(schedule)) => ("a wake is lost".to_owned(), schedule),
        Err(Failed::Panicked(why, schedule)) => (why, schedule),
        Err(Failed::Endless(schedule)) => ("no end".to_owned(), schedule[..200].to_vec()),
    };
    panic!("{name}, order {}: {why}:\n{}", BEGUN.get(), schedule.join("\n"));
}

#[test]
fn one_enters_twice_beside_two_changes() {
    race("a biased tag, twice, beside two changes", 4, Mode::Slots, &[&[Enter, Enter]], &[Change, Change]);
}

#[test]
fn two_enter_beside_a_change() {
    race("two biased tags beside a change", 3, Mode::Atomic, &[&[Enter], &[Enter]], &[Change]);
}

#[test]
fn two_enter_twice_beside_two_changes() {
    let twice = &[Enter, Enter];
    race("two biased tags, twice, beside two changes", 2, Mode::Slots, &[twice, twice], &[Change, Change]);
}

/// A tag that isn't kept biased, and one that looks in while the queue is frozen.
#[test]
fn the_slow_way_on_both_sides() {
    let (once, look) = (&[EnterOnce, Enter], &[Look]);
    race("tags on the slow way beside a change", 2, Mode::Slots, &[once, look], &[Change]);
    race("tags on the slow way beside nested freezes", 2, Mode::Atomic, &[once, look], &[Nested]);
}

#[test]
fn two_enter_beside_a_freeze_that_is_given_up() {
    race("a biased tag beside a freeze that is given up", 4, Mode::Atomic, &[&[Enter, Enter]], &[GiveUp, Change]);
    race("two biased tags beside a freeze that is given up", 2, Mode::Atomic, &[&[Enter], &[Enter]], &[GiveUp, Change]);
}

/// Tags that are to be removed end their biases.
#[test]
fn two_end_beside_a_freeze() {
    race("biased tags that end beside a freeze", 3, Mode::Atomic, &[&[Enter, End], &[End]], &[Change]);
}

/// The freezer takes the bias of an owner away that never comes back.
#[test]
fn an_owner_never_comes_back() {
    race("an owner that never comes back", 3, Mode::Atomic, &[&[], &[Enter, Enter]], &[Change, Change]);
}

/// A tag passes from thread to thread between its requests.
#[test]
fn a_tag_is_handed_over() {
    let owners = vec![vec![Enter, Enter], vec![Enter]];
    play("a tag that is handed over", 3, Race { owners, hands_round: true, freezer: vec![Change], mode: Mode::Slots });
}
