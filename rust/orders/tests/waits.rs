//! Races of the queue that waits. Each wait ends: no state is stuck. They are gone through with up to two, three or four context switches
//! more than the waits need.

use orders::erased::atomic_table::Table;
use orders::erased::wait_queue::WaitQueue;
use orders::{
    AloneRace, DrainRace, Drained, FIRST, Fault, Finish, Found, LookRace, Orders, Race, WaitRace, Waited, at_once,
};

/// Goes through the orders of a race, in which no thread may wait for ever.
fn found<R: Race>(orders: &mut Orders<'_, R>) -> Found<R::Answer> {
    match orders.find() {
        Ok(found) => found,
        Err(Fault::Stuck(schedule)) => {
            panic!("a wake is lost, or threads wait for one another:\n{}", schedule.join("\n"))
        }
        Err(fault) => panic!("{fault:#?}"),
    }
}

fn check_outcome(answers: &[Waited]) {
    let mut releases = 0;
    for answer in answers {
        match answer {
            Waited::Entered(visits, won) => {
                assert!(visits.iter().all(|(one, other)| one == other && *one <= FIRST), "limits changed under a tag");
                releases += won;
            }
            Waited::Froze(depths, thawed) => assert!(*thawed || depths[0] == depths[1] + 1),
            Waited::End(depth, kills, of_freezer) => {
                assert!(*depth == 0 || answers.contains(&Waited::Froze(Vec::new(), true)), "depth {depth}");
                assert_eq!(releases + of_freezer, *kills, "one release for each drain");
                let freezers = answers.iter().filter(|it| matches!(it, Waited::Froze(..))).count() as u64;
                assert!(*kills <= freezers, "{kills} kills by {freezers} freezes");
            }
        }
    }
}

/// Goes through the orders of a race: all outcomes, each of which is right.
fn check(race: WaitRace, switches: u8) -> Vec<Vec<Waited>> {
    let mut orders = Orders::of(&race).switches(switches);
    let found = found(&mut orders);
    let (outcomes, states, ways) = (found.outcomes.len(), found.states, found.interleavings);
    let WaitRace { tags, freezers, rounds, reads_depth, by_lanes } = race;
    let reads = if reads_depth { " and read the depth" } else { "" };
    let lanes = if by_lanes { " by lanes" } else { "" };
    println!(
        "orders of {tags} tags that wait to enter{lanes}{reads}, {rounds} times, beside {freezers} threads that freeze, {switches} switches: \
         {outcomes} outcomes, {states} states, {ways} interleavings"
    );
    for (answers, ending) in &found.outcomes {
        let is_right = std::panic::catch_unwind(|| check_outcome(answers)).is_ok();
        assert!(is_right, "{answers:?} by\n{}", orders.schedule(ending).join("\n"));
    }
    found.outcomes.into_keys().collect()
}

#[test]
fn one_enters_and_one_freezes() {
    check(WaitRace { tags: 1, freezers: 1, rounds: 1, reads_depth: false, by_lanes: false }, 4);
}

#[test]
fn two_enter_and_one_freezes() {
    check(WaitRace { tags: 2, freezers: 1, rounds: 1, reads_depth: false, by_lanes: false }, 2);
}

#[test]
fn one_enters_and_two_freeze() {
    check(WaitRace { tags: 1, freezers: 2, rounds: 1, reads_depth: false, by_lanes: false }, 2);
}

/// Tags that could be biased beside a freeze: no wake is lost, no visit sees two limits, and the drain is released once.
#[test]
fn two_enter_by_lanes_and_one_freezes() {
    let outcomes = check(WaitRace { tags: 2, freezers: 1, rounds: 1, reads_depth: false, by_lanes: true }, 2);
    let visits = |most: u32, won: u64| Waited::Entered(vec![(most, most)], won);
    for seen in [visits(FIRST, 0), visits(FIRST, 1), visits(FIRST - 1, 0)] {
        assert!(outcomes.iter().any(|it| it[0] == seen), "no {seen:?}");
    }
}

#[test]
fn one_enters_by_its_lane_and_one_freezes() {
    let outcomes = check(WaitRace { tags: 1, freezers: 1, rounds: 1, reads_depth: false, by_lanes: true }, 4);
    assert_eq!(outcomes.len(), 4, "the freeze comes first or not, and this tag is the last or not");
}

/// A thread that waits for the drain has let the freezer's lock go: the tag that holds the drain off takes it before it leaves.
#[test]
fn one_enters_and_reads_the_depth_beside_a_freeze() {
    check(WaitRace { tags: 1, freezers: 1, rounds: 1, reads_depth: true, by_lanes: false }, 4);
}

/// Goes through the orders of a race for a drain: the answers of the threads that wait, in each outcome.
fn drained(race: DrainRace, switches: u8) -> Vec<Vec<Drained>> {
    let found = found(&mut Orders::of(&race).switches(switches));
    println!("orders of {race:?}, {switches} switches: {} states, {} interleavings", found.states, found.interleavings);
    let mut all = Vec::new();
    for mut answers in found.outcomes.into_keys() {
        let kills = 1 + u64::from(race.finish == Finish::Refreeze);
        let left = Drained::Left { depth: final_depth(race), kills, on_slots: true, most: FIRST };
        assert_eq!(answers.split_off(race.waiting + race.freezing), [Drained::Finished, left]);
        all.push(answers);
    }
    all
}

/// Each freeze is one more; a thaw is one less.
fn final_depth(race: DrainRace) -> u32 {
    let freezing = u32::try_from(race.freezing).expect("few threads");
    race.depth + freezing - u32::from(race.finish == Finish::Thaw)
}

/// Two threads that wait for the drain of so many freezes: their answers, in each outcome.
fn both_drained(depth: u32, finish: Finish) -> Vec<Vec<Drained>> {
    drained(DrainRace { depth, waiting: 2, freezing: 0, finish }, 2)
}

/// Each of several waits for one drain ends, and leaves the queue frozen as it was.
#[test]
fn a_leave_ends_both_waits_for_the_drain() {
    assert_eq!(both_drained(2, Finish::Leave), [[Drained::Waited(Ok(2)), Drained::Waited(Ok(2))]]);
}

/// A nested freeze waits for the same drain: it is one freeze more, the gate is killed once, and its mode and limits stay.
#[test]
fn a_nested_freeze_waits_for_the_same_drain() {
    let race = DrainRace { depth: 2, waiting: 1, freezing: 1, finish: Finish::Leave };
    for answers in drained(race, 2) {
        assert!(matches!(answers[0], Drained::Waited(Ok(2 | 3))), "{answers:?}");
        assert_eq!(answers[1], Drained::Waited(Ok(3)));
    }
}

/// Each of several waits for the drain of a freeze that is thawed ends.
#[test]
fn a_thaw_ends_both_waits_for_the_drain() {
    assert_eq!(both_drained(1, Finish::Thaw), [[Drained::Waited(Err(2)), Drained::Waited(Err(2))]]);
}

/// A freeze that finds a thawed queue empty needs no wake: each thread that waits was woken by the thaw.
#[test]
fn a_freeze_of_an_empty_queue_ends_both_waits_for_the_drain() {
    let outcomes = both_drained(1, Finish::Refreeze);
    assert!(outcomes.iter().flatten().all(|it| matches!(it, Drained::Waited(Ok(1) | Err(2)))), "{outcomes:?}");
}

/// The freezer alone parks until the last drop of each drain wakes it, by a leave or by a refused try.
#[test]
fn the_freezer_parks_until_each_drain() {
    for (leaving, entering, freezes, switches) in [(1, 0, 2, 4), (2, 0, 1, 3), (1, 1, 2, 3), (0, 2, 2, 3)] {
        let found = found(&mut Orders::of(&AloneRace { leaving, entering, freezes }).switches(switches));
        println!(
            "orders of {leaving} that leave and {entering} that enter beside the one freezer, {switches} switches: {} states, {} interleavings",
            found.states, found.interleavings
        );
        for answers in found.outcomes.keys() {
            assert_eq!(answers.last(), Some(&freezes), "{answers:?}");
        }
    }
}

/// A look in that found the queue drained may drop the last count of a later freeze.
#[test]
fn one_looks_in_beside_two_freezes() {
    let found = found(&mut Orders::of(&LookRace { freezes: 2 }).switches(4));
    println!(
        "orders of a look in beside two freezes, 4 switches: {} states, {} interleavings",
        found.states, found.interleavings
    );
    assert_eq!(found.outcomes.into_keys().collect::<Vec<_>>(), [[false, true], [true, true]]);
}

/// Threads that wait for a token each, and one that puts tokens down and wakes one thread after each.
struct Tokens {
    waiters: usize,
}

impl Race for Tokens {
    type Answer = ();

    fn actors(&self) -> usize {
        self.waiters + 1
    }

    fn act(&self, actor: usize) {
        let (waits, (tokens, mut seat)) = at_once(|| {
            let waits = WaitQueue::new();
            waits.announced_tries().next();
            let mut tries = waits.announced_tries();
            tries.next();
            waits.wake_one();
            drop(tries);
            (waits, Table::of_words(&[0]).unwrap())
        });
        let tokens = &tokens.shared;
        if actor == self.waiters {
            for _ in 0..self.waiters {
                tokens.fetch_add(&mut seat, 0, 1);
                waits.wake_one();
            }
            return;
        }
        for () in waits.announced_tries() {
            let mut there = tokens.load(&mut seat, 0);
            while there > 0 {
                let found = tokens.compare_exchange(&mut seat, 0, there, there - 1);
                if found == there {
                    return;
                }
                there = found;
            }
        }
    }
}

/// A thread whose try succeeds before it sleeps hands the wake on that it would have used.
#[test]
fn two_wait_for_a_token_each() {
    let found = found(&mut Orders::of(&Tokens { waiters: 2 }).switches(3));
    println!(
        "orders of two that wait for a token each, 3 switches: {} states, {} interleavings",
        found.states, found.interleavings
    );
}
