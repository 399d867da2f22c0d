//! Tests the calls that a text gives, and long lists of answers.

use gate_races::erased::percpu_core::Start;
use gate_races::erased::race_world::{Answer, Answers, Asked, Awaited, ControlCall, Count, Flag, Mode, PassCall};
use gate_races::erased::races_run::parse_race;

const EVERY_CALL: &str = "# A race of every call.\n\nraces 1\nworld 2 4 slots 5 7 8\n\
    2 try 1 / live 0 / get 1 65535 / put 4294967295 1\n\
    c kill / mark_dead / close_next / collect / confirm / drop_base\n\
    0\tfront / dying /  zero / word 4294967295\r\n\
    c reinit / resurrect / store 1 18446744073709551615 / slots / atomic / zero\n\
    02 put 0 0\n\
    1 await zero / await dead / await a / await z / set z\n\
    c await zero / await dead / await z / set a\n";

#[test]
fn calls_of_every_kind() {
    let race = parse_race(EVERY_CALL.as_bytes()).unwrap();
    assert_eq!((race.slots(), race.start(), race.kills(), race.words()), (2, Start::Slots, 5, &[7, 8][..]));
    let questions = [Asked::Front, Asked::Dying, Asked::Zero, Asked::Word(u32::MAX)].map(PassCall::Asks);
    let counts =
        [(1, Count::Try), (0, Count::TryLive), (1, Count::Get(65535)), (u32::MAX, Count::Put(1)), (0, Count::Put(0))]
            .map(|(slot, count)| PassCall::Counts { slot, count });
    let [a, z] = [Flag { letter: b'a' }, Flag { letter: b'z' }];
    let [first, second, third, fourth] = race.passes() else { panic!("four passes") };
    assert!(first.as_slice() == questions);
    let awaits = [Awaited::Zero, Awaited::Dead, Awaited::Flagged(a), Awaited::Flagged(z)].map(PassCall::Awaits);
    assert!(second.as_slice() == [&awaits[..], &[PassCall::Sets(z)]].concat());
    assert!(fourth.as_slice().is_empty());
    assert!(third.as_slice() == counts);
    let control = [
        ControlCall::Kill,
        ControlCall::MarkDead,
        ControlCall::CloseNext,
        ControlCall::Collect,
        ControlCall::Confirm,
        ControlCall::DropBase,
        ControlCall::Reinit,
        ControlCall::Resurrect,
        ControlCall::StoreWord { k: 1, v: u64::MAX },
        ControlCall::SwitchTo(Mode::Slots),
        ControlCall::SwitchTo(Mode::Atomic),
        ControlCall::IsZero,
        ControlCall::Awaits(Awaited::Zero),
        ControlCall::Awaits(Awaited::Dead),
        ControlCall::Awaits(Awaited::Flagged(z)),
        ControlCall::Sets(a),
    ];
    assert!(race.control() == control);
}

// A list is as deep as it is long. Recursion over its answers would overflow a thread's stack of some megabytes.
const MANY: u64 = 1_000_000;

/// The numbers from 0 on.
fn numbers(count: u64) -> Answers {
    (0..count).fold(Answers::new(), |answers, number| answers.with(Answer::Number(number)).unwrap())
}

#[test]
fn a_long_list_is_made_read_and_freed() {
    let read = numbers(MANY).try_to_vec().unwrap();
    assert_eq!(read.len(), 1_000_000);
    for (at, answer) in read.iter().enumerate() {
        assert_eq!(*answer, Answer::Number(at as u64));
    }
}

#[test]
fn long_lists_are_compared() {
    let answers = numbers(MANY);
    assert!(answers.is_same(&numbers(MANY)));
    assert!(!answers.is_same(&numbers(MANY - 1)));
}

/// Two lists share their first answers, which outlive the list that is dropped first.
#[test]
fn a_copy_goes_its_own_way() {
    let answers = numbers(MANY);
    let other = answers.copy().unwrap().with(Answer::Yes).unwrap();
    let answers = answers.with(Answer::No).unwrap();
    assert!(!answers.is_same(&other));
    drop(answers);
    let read = other.try_to_vec().unwrap();
    assert_eq!((read.len(), read.first(), read.last()), (1_000_001, Some(&Answer::Number(0)), Some(&Answer::Yes)));
}

/// An answer that feeds the hasher the same bytes again. Without their lengths its lists would have equal hashes, and a search would
/// compare every pair.
#[test]
fn repeated_answers_have_other_numbers() {
    let mut answers = Answers::new();
    for _ in 0..1_000 {
        let before = answers.number();
        answers = answers.with(Answer::Number(1_722_786_858_469_902_748)).unwrap();
        assert_ne!(answers.number(), before);
    }
}

/// One list that very many lists share.
#[test]
fn many_lists_share_one() {
    let answers = numbers(1_000);
    let mut copies: Vec<Answers> = (0..200_000).map(|_| answers.copy().unwrap()).collect();
    drop(answers);
    let last = copies.pop().unwrap();
    drop(copies);
    assert_eq!(last.try_to_vec().unwrap().len(), 1_000);
}
