//! Races of the gate: docs/races/README.md has their text, and each call.

use crate::actor::{at_once, join};
use crate::erased::percpu_gate::{
    Control, ControlFault, Gate, HELD_LIMIT, NewGate, Pass, Phase, Put, Revived, Start, Tried,
};
use crate::orders::Race;
use std::fmt::{self, Display};

/// The number of guarded words of the gate. A race may name fewer.
const WORDS: usize = 8;

/// The words of a gate's table.
const SHARED: usize = 16;
const FRONT: usize = 32;
const FIRST_WORD: usize = 33;
const FIRST_SLOT: usize = 64;
const WORDS_OF_A_SLOT: usize = 16;

/// A call of an actor: its name, and its numbers.
#[derive(Clone, Debug)]
pub struct Call {
    /// The name in the text of a race.
    pub name: String,
    /// The slot, the count, the word or its value.
    pub numbers: Vec<u64>,
}

impl Call {
    /// Makes a call from its name and numbers.
    #[must_use]
    pub fn of(name: &str, numbers: &[u64]) -> Call {
        Call { name: name.to_owned(), numbers: numbers.to_vec() }
    }

    fn parse(text: &str) -> Call {
        let (name, rest) = text.split_once(' ').unwrap_or((text, ""));
        Call::of(name, &rest.split_whitespace().map(|it| it.parse().expect("a number")).collect::<Vec<_>>())
    }
}

impl Display for Call {
    fn fmt(&self, f: &mut fmt::Formatter<'_>) -> fmt::Result {
        f.write_str(&self.name)?;
        self.numbers.iter().try_for_each(|number| write!(f, " {number}"))
    }
}

/// A gate, and the calls of its passes and of its control.
#[derive(Clone, Debug)]
pub struct GateRace {
    /// `slots`, `atomic` or `dead`.
    pub start: String,
    /// The number of slots.
    pub slots: u32,
    /// The number of earlier kills.
    pub kills: u64,
    /// Its guarded words.
    pub words: Vec<u64>,
    /// The calls of each pass.
    pub passes: Vec<Vec<Call>>,
    /// The calls of the control.
    pub control: Vec<Call>,
}

impl GateRace {
    /// Parses a race.
    ///
    /// # Panics
    ///
    /// If the text isn't a race.
    #[must_use]
    pub fn parse(text: &str) -> GateRace {
        let mut lines = text.lines().map(str::trim).filter(|line| !line.is_empty() && !line.starts_with('#')).skip(1);
        let world = lines.next().and_then(|line| line.strip_prefix("world ")).expect("a world");
        let words: Vec<&str> = world.split(' ').collect();
        let number = |at: usize| words[at].parse::<u64>().expect("a number");
        let slots = small(number(0));
        let mut calls = vec![Vec::new(); small(number(1)) as usize + 1];
        for line in lines {
            let (actor, rest) = line.split_once(' ').expect("an actor's calls");
            let at = if actor == "c" { calls.len() - 1 } else { actor.parse().expect("a pass") };
            calls[at].extend(rest.split(" / ").map(Call::parse));
        }
        let control = calls.pop().expect("the control's");
        let guarded = (4..words.len()).map(number).collect();
        GateRace { start: words[2].to_owned(), slots, kills: number(3), words: guarded, passes: calls, control }
    }

    fn start(&self) -> Start {
        match self.start.as_str() {
            "slots" => Start::Slots,
            "atomic" => Start::Atomic,
            _ => Start::Dead,
        }
    }

    /// Makes the gate at the start, with its earlier kills. Each is over at once, since nothing is held.
    fn make(&self) -> NewGate<WORDS> {
        let mut words = [0; WORDS];
        words[..self.words.len()].copy_from_slice(&self.words);
        let made = Gate::new(self.slots, small(self.passes.len() as u64), self.start(), words);
        let (gate, mut control, passes) = made.expect("memory");
        for _ in 0..self.kills {
            // A dead gate lives for a moment between two kills.
            if control.phase() == Phase::Dead {
                control.reinit(&gate).expect("a gate at zero");
                control.kill(&gate).expect("a live gate");
            } else {
                control.kill(&gate).expect("a live gate");
                control.reinit(&gate).expect("a gate at zero");
            }
        }
        (gate, control, passes)
    }

    /// The steps of the actor that reads the words once the others have ended.
    #[must_use]
    pub fn last_steps(&self) -> usize {
        3 + self.slots as usize + self.words.len()
    }
}

impl Display for GateRace {
    fn fmt(&self, f: &mut fmt::Formatter<'_>) -> fmt::Result {
        write!(f, "races 1\nworld {} {} {} {}", self.slots, self.passes.len(), self.start, self.kills)?;
        self.words.iter().try_for_each(|word| write!(f, " {word}"))?;
        writeln!(f)?;
        let passes = self.passes.iter().enumerate().map(|(at, calls)| (at.to_string(), calls));
        for (actor, calls) in passes.chain([("c".to_owned(), &self.control)]) {
            if !calls.is_empty() {
                let calls: Vec<String> = calls.iter().map(Call::to_string).collect();
                writeln!(f, "{actor} {}", calls.join(" / "))?;
            }
        }
        Ok(())
    }
}

/// The answer of a pass is the results of its calls and the references that it holds at the end; that of the control is its results and
/// its kills. One more actor waits for all of them; its answer is the shared word, the front, the slots and the guarded words.
impl Race for GateRace {
    type Answer = (Vec<String>, Vec<u64>);

    fn actors(&self) -> usize {
        self.passes.len() + 2
    }

    fn act(&self, actor: usize) -> Self::Answer {
        let (gate, mut control, mut passes) = at_once(|| self.make());
        if let (Some(pass), Some(calls)) = (passes.get_mut(actor), self.passes.get(actor)) {
            let answered = calls.iter().map(|call| pass_call(self, &gate, pass, call)).collect();
            return (answered, vec![u64::from(pass.held())]);
        }
        if actor == self.passes.len() {
            let answered = self.control.iter().map(|call| control_call(self, &gate, &mut control, call)).collect();
            return (answered, vec![control.kills()]);
        }
        join();
        let shared = &gate.table.table.shared;
        let mut seat = shared.split_seat(&mut control.into_seat().into_seat());
        let slots = (0..self.slots as usize).map(|slot| FIRST_SLOT + WORDS_OF_A_SLOT * slot);
        let words = (0..self.words.len()).map(|word| FIRST_WORD + word);
        let places = [SHARED, FRONT].into_iter().chain(slots).chain(words);
        (Vec::new(), places.map(|place| shared.load(&mut seat, place)).collect())
    }
}

/// Parses a number in its range.
fn small(number: u64) -> u32 {
    u32::try_from(number).expect("a number in range")
}

fn put(put: Put) -> String {
    if put == Put::Last { "last" } else { "not last" }.to_owned()
}

fn tried(tried: Tried) -> String {
    match tried {
        Tried::Given => "given",
        Tried::Refused(Put::NotLast) => "refused",
        Tried::Refused(Put::Last) => "refused last",
    }
    .to_owned()
}

fn is_so(is_so: bool) -> String {
    if is_so { "yes" } else { "no" }.to_owned()
}

/// Makes a call if its condition is met.
fn pass_call(race: &GateRace, gate: &Gate<WORDS>, pass: &mut Pass<WORDS>, call: &Call) -> String {
    let held = u64::from(pass.held());
    let most = u64::from(HELD_LIMIT);
    let is_slot = |slot: u64| slot < u64::from(race.slots);
    match (call.name.as_str(), call.numbers.as_slice()) {
        ("try", &[slot]) if is_slot(slot) && held < most => tried(pass.try_get(gate, small(slot))),
        ("live", &[slot]) if is_slot(slot) && held < most => tried(pass.try_get_live(gate, small(slot))),
        ("get", &[slot, n]) if is_slot(slot) && held > 0 && n > 0 && held + n <= most => {
            pass.get(gate, small(slot), small(n));
            "ok".to_owned()
        }
        ("put", &[slot, n]) if is_slot(slot) && n > 0 && n <= held => put(pass.put(gate, small(slot), small(n))),
        ("front", []) => pass.front(gate).to_string(),
        ("dying", []) => is_so(pass.is_dying(gate)),
        ("zero", []) => is_so(pass.is_zero(gate)),
        ("word", &[word]) if word < race.words.len() as u64 && held > 0 => pass.word(gate, small(word)).to_string(),
        _ => "passed over".to_owned(),
    }
}

fn done<T>(done: Result<T, ControlFault>, answered: impl FnOnce(T) -> String) -> String {
    done.map_or_else(|why| why.to_string(), answered)
}

fn ok((): ()) -> String {
    "ok".to_owned()
}

fn revived(revived: Revived) -> String {
    if revived == Revived::AtZero { "at zero" } else { "held" }.to_owned()
}

fn control_call(race: &GateRace, gate: &Gate<WORDS>, control: &mut Control<WORDS>, call: &Call) -> String {
    match (call.name.as_str(), call.numbers.as_slice(), control.phase()) {
        ("kill", ..) => done(control.kill(gate), put),
        ("mark_dead", ..) => done(control.mark_dead(gate), |slots| slots.to_string()),
        ("close_next", _, Phase::Closing(slot)) if slot < race.slots => format!("closed {}", control.close_next(gate)),
        ("collect", _, Phase::Closing(slot)) if slot == race.slots => {
            control.collect(gate);
            ok(())
        }
        ("confirm", _, Phase::Collected) => control.confirm(gate).to_string(),
        ("drop_base", _, Phase::Confirmed) => put(control.drop_base(gate)),
        ("reinit", ..) => done(control.reinit(gate), ok),
        ("resurrect", ..) => done(control.resurrect(gate), revived),
        ("store", &[word, value], _) if word < race.words.len() as u64 => {
            done(control.store_word(gate, small(word), value), ok)
        }
        ("slots", ..) => done(control.switch_to_slots(gate), ok),
        ("atomic", ..) => done(control.switch_to_atomic(gate), ok),
        ("zero", ..) => is_so(control.is_zero(gate)),
        _ => "passed over".to_owned(),
    }
}
