//! Races of the gate: what the erased code answers in all interleavings is what `gate_races` says that it may answer, by the
//! gate's machine. Each outcome is the same, with the same marks and counts, and as few steps lead to it.
//!
//! `ORDERS_GATE_RACES` names another program to ask too, as the proved one; `ORDERS_RACES` how many random races there are.

use orders::{Call, GateRace, Orders};
use std::collections::BTreeMap;
use std::env;
use std::fs;
use std::io::Write;
use std::process::{Command, Stdio};

/// Each outcome: a line for each actor, and the figures of the end; and the fewest steps that lead to it.
type Outcomes = BTreeMap<Vec<String>, usize>;

/// By all interleavings of the erased code.
fn found(race: &GateRace, most: u64) -> Option<(Outcomes, u64, u128)> {
    let found = Orders::of(race).states(most).find().ok()?;
    let mut outcomes = Outcomes::new();
    for (answers, ending) in &found.outcomes {
        let steps = outcomes.entry(outcome_of(race, answers)).or_insert(usize::MAX);
        *steps = (*steps).min(ending.steps - race.last_steps());
    }
    Some((outcomes, found.states, found.interleavings))
}

fn outcome_of(race: &GateRace, answers: &[(Vec<String>, Vec<u64>)]) -> Vec<String> {
    let (control, passes) = (race.passes.len(), &answers[..race.passes.len()]);
    let name = |at| if at == control { "c".to_owned() } else { format!("{at}") };
    let calls = answers[..=control].iter().enumerate();
    let mut lines: Vec<String> =
        calls.map(|(at, it)| format!("{} {}", name(at), it.0.join(" / ")).trim_end().to_owned()).collect();
    let releases = answers.iter().flat_map(|it| &it.0).filter(|it| *it == "last" || *it == "refused last").count();
    let held: u64 = passes.iter().map(|it| it.1[0]).sum();
    let (kills, shared, front) = (answers[control].1[0], answers[control + 1].1[0], answers[control + 1].1[1]);
    let marks = ["live", "dead", "zero", "zero"][(shared >> 62) as usize];
    lines.push(format!("# end {marks} front {front} kills {kills} releases {releases} held {held}"));
    lines
}

/// The line of an end without the value of the shared word: two ends that differ in it alone have one outcome.
fn without_value(end: &str) -> String {
    let words = end.split(' ').enumerate().filter(|(at, _)| *at != 3);
    words.map(|(_, word)| word).collect::<Vec<_>>().join(" ")
}

/// By an answer of `gate_races`.
fn printed(answer: &str) -> Outcomes {
    let mut outcomes = Outcomes::new();
    for part in answer.split("\noutcome ").skip(1) {
        let lines: Vec<&str> = part.lines().filter(|line| !line.starts_with("outcomes ")).collect();
        let head: Vec<&str> = lines[0].split(' ').collect();
        let answers = lines[1..].iter().take_while(|line| **line != "gate 1").map(ToString::to_string);
        let outcome = answers.chain(lines.last().map(|end| without_value(end)));
        outcomes.insert(outcome.collect(), head[2].parse().unwrap());
    }
    outcomes
}

fn by_the_library(text: &str) -> Outcomes {
    printed(std::str::from_utf8(&gate_races::outcomes(text.as_bytes()).unwrap()).unwrap())
}

/// By another program, if one is named.
fn by_a_program(text: &str) -> Option<Outcomes> {
    let program = env::var("ORDERS_GATE_RACES").ok()?;
    let mut run = Command::new(program).stdin(Stdio::piped()).stdout(Stdio::piped()).spawn().unwrap();
    run.stdin.take().unwrap().write_all(text.as_bytes()).unwrap();
    Some(printed(&String::from_utf8(run.wait_with_output().unwrap().stdout).unwrap()))
}

/// Compares the outcomes of a race, unless it has more states than this: its states and interleavings.
fn compare(race: &GateRace, most: u64) -> Option<(u64, u128)> {
    let text = race.to_string();
    let (ours, states, interleavings) = found(race, most)?;
    assert_eq!(ours, by_the_library(&text), "{text}");
    if let Some(theirs) = by_a_program(&text) {
        assert_eq!(ours, theirs, "{text}");
    }
    Some((states, interleavings))
}

/// Whether the erased gate can run a race: it has one gate, which isn't Linux's, and no call that waits. The search of
/// `gate_races` has such calls, and no gate has them.
fn is_of_one_gate(text: &str) -> bool {
    let lines = || text.lines().filter(|line| !line.starts_with('#'));
    let mut worlds = lines().filter(|line| line.starts_with("world "));
    let is_ours = worlds.next().is_some_and(|world| !world.ends_with(" linux"));
    is_ours && worlds.next().is_none() && !lines().any(|line| line.contains(" await "))
}

#[test]
fn the_races_of_the_examples() {
    let folder = concat!(env!("CARGO_MANIFEST_DIR"), "/../../examples/races");
    let mut races: Vec<_> = fs::read_dir(folder).unwrap().map(|entry| entry.unwrap().path()).collect();
    races.retain(|path| path.extension().is_some_and(|it| it == "races"));
    races.sort();
    let mut tried = 0;
    for path in races {
        let text = fs::read_to_string(&path).unwrap();
        if !is_of_one_gate(&text) {
            continue;
        }
        let (states, interleavings) = compare(&GateRace::parse(&text), u64::MAX).unwrap();
        println!(
            "orders of {}: {states} states, {interleavings} interleavings",
            path.file_name().unwrap().to_string_lossy()
        );
        tried += 1;
    }
    assert!(tried >= 4, "the examples are in {folder}");
}

/// Races that random ones seldom are.
const RARE: [&str; 3] = [
    // Without the bias, references that are taken on a slot and dropped on the shared word would bring that below zero.
    "world 2 2 atomic 0\n0 live 0 / get 0 1 / put 1 2\n1 try 1\nc slots",
    // The same while a gate is revived.
    "world 2 2 dead 0\n0 live 0 / get 0 1 / put 1 2\n1 try 1 / dying\nc slots / resurrect",
    // Two requests, a kill, a revival before zero, and a kill.
    "world 1 2 slots 0\n0 live 0 / put 0 1\n1 try 0 / put 0 1\nc kill / resurrect / kill",
];

#[test]
fn rare_races() {
    for text in RARE {
        let (states, interleavings) = compare(&GateRace::parse(&format!("races 1\n{text}\n")), u64::MAX).unwrap();
        println!("orders of {}: {states} states, {interleavings} interleavings", text.replace('\n', "; "));
    }
}

/// Numbers that look random, by Marsaglia's xorshift.
struct Draw(u64);

impl Draw {
    fn below(&mut self, end: u64) -> u64 {
        self.0 ^= self.0 << 13;
        self.0 ^= self.0 >> 7;
        self.0 ^= self.0 << 17;
        self.0 % end
    }

    fn of<T: Copy>(&mut self, items: &[T]) -> T {
        items[usize::try_from(self.below(items.len() as u64)).unwrap()]
    }

    /// As often as so many times of a hundred.
    fn happens(&mut self, percent: u64) -> bool {
        self.below(100) < percent
    }
}

fn pass_calls(draw: &mut Draw, slots: u64, words: u64) -> Vec<Call> {
    let mut calls = Vec::new();
    if draw.happens(90) {
        calls.push(Call::of(draw.of(&["try", "live"]), &[draw.below(slots)]));
    }
    for _ in 0..draw.below(4) {
        let slot = draw.below(slots);
        calls.push(match draw.below(100) {
            0..20 => Call::of(draw.of(&["try", "live"]), &[slot]),
            20..60 => Call::of("put", &[slot, draw.of(&[1, 1, 1, 2])]),
            60..70 => Call::of("get", &[slot, draw.of(&[1, 2])]),
            // Calls that can't be made, or fill a pass.
            70..75 => match draw.below(5) {
                0 => Call::of("get", &[slot, 65_534]),
                1 => Call::of("put", &[slot, 0]),
                2 => Call::of("try", &[slots]),
                3 => Call::of("put", &[slots, 1]),
                _ => Call::of("word", &[words]),
            },
            75..95 => Call::of(draw.of(&["front", "dying", "zero"]), &[]),
            _ => Call::of("word", &[draw.below(2)]),
        });
    }
    calls
}

const PARTS: [&str; 5] = ["mark_dead", "close_next", "collect", "confirm", "drop_base"];

fn control_calls(draw: &mut Draw, slots: u64) -> Vec<Call> {
    let mut names = Vec::new();
    if draw.happens(25) {
        for part in PARTS {
            let times = if part == "close_next" { slots } else { 1 };
            names.extend((0..times).filter_map(|_| draw.happens(90).then_some(part)));
        }
        names.push(draw.of(&["reinit", "resurrect", "kill", "zero"]));
    } else {
        let whole = ["kill", "kill", "kill", "reinit", "resurrect", "atomic", "slots", "zero", "store", "store"];
        let all: Vec<&str> = whole.into_iter().chain(PARTS).collect();
        names.extend((0..=draw.below(4)).map(|_| draw.of(&all)));
    }
    let mut store = || vec![draw.below(2), draw.of(&[0, 7, u64::MAX])];
    names.into_iter().map(|name| Call::of(name, &if name == "store" { store() } else { Vec::new() })).collect()
}

fn random_race(draw: &mut Draw) -> GateRace {
    let slots = draw.of(&[1, 1, 2, 3]);
    let words: Vec<u64> = (0..draw.below(3)).map(|_| draw.of(&[0, 5, u64::MAX])).collect();
    let passes = (0..draw.of(&[1, 2, 2, 3])).map(|_| pass_calls(draw, slots, words.len() as u64)).collect();
    GateRace {
        start: draw.of(&["slots", "slots", "atomic", "dead"]).to_owned(),
        slots: u32::try_from(slots).unwrap(),
        kills: draw.of(&[0, 0, 0, 0, 1, 3]),
        words,
        passes,
        control: control_calls(draw, slots),
    }
}

#[test]
fn random_races() {
    let races = env::var("ORDERS_RACES").map_or(500, |it| it.parse().unwrap());
    let mut draw = Draw(0x9e37_79b9_7f4a_7c15);
    let (mut compared, mut all, mut ways) = (0, 0, 0);
    while compared < races {
        if let Some((states, interleavings)) = compare(&random_race(&mut draw), 20_000) {
            (compared, all, ways) = (compared + 1, all + states, ways + interleavings);
        }
    }
    println!("orders of {races} random races: {all} states, {ways} interleavings");
}
