//! Races of the queue that doesn't wait, in all interleavings.

use orders::erased::percpu_words::Mode;
use orders::{FIRST_MOST, Freezing, Orders, QueueAnswer, QueueRace, Visit};

use Freezing::{Count, Freeze, Set, Thaw};
use Visit::{Enter, Look, Stay};

fn is_last(answered: &QueueAnswer) -> bool {
    matches!(
        answered,
        QueueAnswer::Visited(_, _, true)
            | QueueAnswer::Left(_, true)
            | QueueAnswer::Refused(true)
            | QueueAnswer::Frozen(_, true)
    )
}

/// The freezer's calls are answered as their contracts say, where that doesn't depend on the drain.
fn check_freezer(race: &QueueRace, answered: &[QueueAnswer]) {
    let mut depth = 0;
    for (call, answer) in race.freezer.iter().zip(answered) {
        let as_it_must = match call {
            Freeze => {
                depth += 1;
                matches!(answer, QueueAnswer::Frozen(is, last) if *is == depth && (depth == 1 || !last))
            }
            Set(_) => {
                if depth == 0 {
                    *answer == QueueAnswer::Fault(2)
                } else {
                    matches!(answer, QueueAnswer::Set | QueueAnswer::NotDrained)
                }
            }
            Thaw if depth == 0 => *answer == QueueAnswer::Fault(2),
            Thaw => {
                depth -= 1;
                *answer == QueueAnswer::Thawed(depth, depth == 0)
            }
            Count(_) => *answer == QueueAnswer::Counts,
        };
        assert!(as_it_must, "{call:?} was answered {answer:?}");
    }
}

/// The limits that were in force, in order; each freeze has at most one release, and one in which limits were set has it.
fn check_outcome(race: &QueueRace, answers: &[Vec<QueueAnswer>]) {
    let (freezer, tags) = answers.split_last().unwrap();
    check_freezer(race, freezer);
    let set = race.freezer.iter().zip(freezer).filter_map(|(call, answer)| match call {
        Set(most) if *answer == QueueAnswer::Set => Some(*most),
        _ => None,
    });
    let in_force: Vec<u32> = [FIRST_MOST].into_iter().chain(set).collect();
    let lasts = answers.iter().flatten().filter(|answered| is_last(answered)).count() as u64;
    for (visit, answered) in race.tags.iter().flatten().zip(tags.iter().flatten()) {
        if let QueueAnswer::Visited(one, other, _) = answered {
            assert_eq!(one, other, "limits changed under a tag");
            assert!(in_force.contains(one), "{one} of {in_force:?}");
        } else if let QueueAnswer::Left(one, _) = answered {
            assert_eq!(*visit, Stay);
            assert!(in_force.contains(one), "{one} of {in_force:?}");
        } else {
            assert!(*visit != Look || lasts > 0, "a look in is refused by a drained queue alone");
        }
    }
    let begun = |answered: &&QueueAnswer| matches!(answered, QueueAnswer::Frozen(1, _));
    let kills = freezer.iter().filter(begun).count() as u64;
    let drained = freezer.contains(&QueueAnswer::Set);
    assert!(lasts <= kills && (lasts == kills || !drained || kills > 1), "{lasts} were last, of {kills} freezes");
    // A queue that is frozen to the end isn't killed again. Else the removal kills it, and is the last of that freeze.
    let live = freezer.iter().rev().find_map(|answered| match answered {
        QueueAnswer::Thawed(depth, _) => Some(*depth == 0),
        QueueAnswer::Frozen(..) => Some(false),
        _ => None,
    });
    let more = u64::from(live.unwrap_or(true));
    let of_freezer = freezer.iter().filter(|answered| matches!(answered, QueueAnswer::Frozen(_, true))).count() as u64;
    let most = u64::from(*in_force.last().unwrap());
    assert_eq!(*freezer.last().unwrap(), QueueAnswer::Removed(kills + more, of_freezer + more, most), "{answers:?}");
    if more == 0 {
        assert_eq!(lasts, kills, "a queue that ends frozen is drained");
    }
}

fn check(name: &str, tags: &[&[Visit]], freezer: &[Freezing]) -> Vec<Vec<Vec<QueueAnswer>>> {
    let race = QueueRace { tags: tags.iter().map(|it| it.to_vec()).collect(), freezer: freezer.to_vec() };
    check_orders(name, &race, Orders::of(&race))
}

/// Checks each outcome of a race, and returns all of them.
fn check_orders(name: &str, race: &QueueRace, mut orders: Orders<'_, QueueRace>) -> Vec<Vec<Vec<QueueAnswer>>> {
    let found = orders.find().unwrap_or_else(|fault| panic!("{name}: {fault:#?}"));
    println!(
        "orders of {name}: {} outcomes, {} states, {} interleavings",
        found.outcomes.len(),
        found.states,
        found.interleavings
    );
    for (answers, ending) in &found.outcomes {
        let is_right = std::panic::catch_unwind(|| check_outcome(race, answers)).is_ok();
        assert!(is_right, "{name}: {answers:?} by\n{}", orders.schedule(ending).join("\n"));
    }
    found.outcomes.into_keys().collect()
}

#[test]
fn two_enter_beside_a_change_of_limits() {
    check("two tags beside a change of limits", &[&[Enter], &[Enter]], &[Freeze, Set(4), Thaw]);
}

#[test]
fn one_enters_and_one_looks_in_beside_nested_freezes() {
    check(
        "a tag and a look in beside nested freezes",
        &[&[Enter], &[Look]],
        &[Freeze, Freeze, Set(4), Thaw, Set(2), Thaw],
    );
}

#[test]
fn two_look_in_beside_a_change_of_limits() {
    check("two looks in beside a change of limits", &[&[Look], &[Look]], &[Freeze, Set(4), Thaw]);
}

#[test]
fn one_enters_twice_beside_two_freezes() {
    let (tags, freezer) = (vec![vec![Enter, Look, Enter]], vec![Freeze, Set(4), Thaw, Freeze, Set(2), Thaw]);
    let race = QueueRace { tags, freezer };
    check_orders("a tag beside two freezes, at most 4 switches", &race, Orders::of(&race).switches(4));
}

#[test]
fn one_enters_while_the_mode_changes() {
    check(
        "a tag beside changes of the mode",
        &[&[Enter, Enter]],
        &[Count(Mode::Atomic), Freeze, Set(4), Count(Mode::Slots), Thaw, Count(Mode::Atomic)],
    );
}

#[test]
fn two_enter_a_queue_that_stays_frozen() {
    let outcomes =
        check("two tags and a queue that stays frozen", &[&[Enter], &[Enter, Look]], &[Thaw, Freeze, Set(4)]);
    // While the one is in, the other can't enter any more, and can look in.
    let looks = |it: &Vec<Vec<QueueAnswer>>| matches!(it[1][..], [QueueAnswer::Refused(_), QueueAnswer::Visited(..)]);
    assert!(outcomes.iter().any(looks), "{outcomes:?}");
}

/// A live queue lets each tag stay. Beside a freeze each stays or leaves, and either may be the last to go.
#[test]
fn two_stay_beside_a_change_of_limits() {
    let outcomes = check("two tags that stay beside a change of limits", &[&[Stay], &[Stay]], &[Freeze, Set(4), Thaw]);
    let answers =
        |answered: QueueAnswer| outcomes.iter().filter(|it| it[0][0] == answered && it[1][0] != answered).count();
    assert!(answers(QueueAnswer::Visited(FIRST_MOST, FIRST_MOST, false)) > 0, "none stays");
    assert!(answers(QueueAnswer::Left(FIRST_MOST, true)) > 0, "none leaves as the last");
    assert!(answers(QueueAnswer::Left(FIRST_MOST, false)) > 0, "none leaves before another");
    assert!(outcomes.iter().any(|it| it[0][0] == QueueAnswer::Visited(4, 4, false)), "none stays after the thaw");
    let outcomes = check("two tags that stay in a live queue", &[&[Stay], &[Stay]], &[Thaw]);
    let stayed = vec![QueueAnswer::Visited(FIRST_MOST, FIRST_MOST, false)];
    assert!(outcomes.iter().all(|it| it[..2] == [stayed.clone(), stayed.clone()]), "one left: {outcomes:?}");
}

/// In a second life each stays and leaves as in the first: what it found then is no answer now.
#[test]
fn one_stays_beside_two_freezes() {
    let (tags, freezer) = (vec![vec![Stay, Stay]], vec![Freeze, Set(4), Thaw, Freeze, Set(2), Thaw]);
    let race = QueueRace { tags, freezer };
    let outcomes =
        check_orders("a tag that stays beside two freezes, at most 6 switches", &race, Orders::of(&race).switches(6));
    let is_found = |answered: [QueueAnswer; 2]| outcomes.iter().any(|it| it[0] == answered);
    assert!(
        is_found([QueueAnswer::Left(FIRST_MOST, true), QueueAnswer::Visited(4, 4, false)]),
        "none stays in the second life"
    );
    assert!(is_found([QueueAnswer::Left(FIRST_MOST, true), QueueAnswer::Left(4, true)]), "none leaves in both lives");
    assert!(
        is_found([QueueAnswer::Visited(FIRST_MOST, FIRST_MOST, false), QueueAnswer::Left(4, true)]),
        "none leaves in the second life alone"
    );
}

/// While a tag holds a freeze up, it stays no more; and it holds up the freeze until then.
#[test]
fn one_stays_in_a_queue_that_stays_frozen() {
    let outcomes = check("a tag that stays, and a look in, beside a freeze that stays", &[&[Stay], &[Look]], &[Freeze]);
    assert!(
        outcomes
            .iter()
            .any(|it| matches!(it[0][0], QueueAnswer::Left(..)) && matches!(it[1][0], QueueAnswer::Visited(..)))
    );
}
