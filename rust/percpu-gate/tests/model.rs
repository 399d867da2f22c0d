//! Makes random calls on one thread, on a few gates, and compares each result and each call of `on_last` with a model of plain numbers:
//! the plain counter of docs/GATE.md, its front and its guarded words. `PERCPU_GATE_CALLS` is the number of calls, and
//! `PERCPU_GATE_SEED` their seed.
use percpu_gate::{
    ExitError, Final, Gate, GetError, HandedBack, NewError, NextPassError, OwnedReference, Pass, Reference,
    RetireError, SlotError, Start, TryGetError,
};
use std::env;
use std::mem;
use std::sync::Arc;
use std::sync::atomic::{AtomicU64, Ordering};

#[path = "model/controls.rs"]
mod controls;
#[path = "model/counter.rs"]
mod counter;

use counter::Counter;

const CONTROLS: usize = 3;
const SEATS: usize = 12;

/// A gate with its model, and the count of its `on_last`.
struct Made {
    counter: Counter,
    releases: Arc<AtomicU64>,
    number: u64,
}

/// The forms of a counting pass that the crate has.
enum Counting {
    Free(Pass),
    Owned(OwnedReference),
    /// A pass that is never moved again, with its references.
    Many(&'static Pass, Vec<Reference<'static>>),
}

struct Seat {
    gate: usize,
    /// Leaked references, and releases that this pass made.
    forgotten: u64,
    releases: u64,
    counting: Counting,
}

impl Seat {
    fn pass(&self) -> &Pass {
        match &self.counting {
            Counting::Free(pass) => pass,
            Counting::Many(pass, _) => pass,
            Counting::Owned(request) => request.pass(),
        }
    }

    /// Notes a release that this pass made in the model.
    fn notes(&mut self, releases: bool) {
        self.releases += u64::from(releases);
    }
}

struct Run {
    seed: u64,
    made: Vec<Made>,
    controls: [Option<(usize, Gate)>; CONTROLS],
    seats: [Option<Seat>; SEATS],
}

impl Run {
    fn below(&mut self, n: u32) -> u32 {
        self.seed = self.seed.wrapping_mul(6_364_136_223_846_793_005).wrapping_add(1_442_695_040_888_963_407);
        u32::try_from(self.seed >> 33).unwrap() % n
    }

    fn chance(&mut self, of: u32) -> bool {
        self.below(of) == 0
    }

    fn some_slot(&mut self, slots: u32) -> u32 {
        if self.chance(8) { self.below(70) } else { self.below(slots) }
    }

    fn make(&mut self, c: usize) {
        let slots = if self.chance(6) { self.below(600) } else { 1 + self.below(4) };
        let passes = if self.chance(6) { self.below(1_200) } else { 1 + self.below(4) };
        let start = [Start::Slots, Start::Atomic, Start::Dead][self.below(3) as usize];
        let words = [(); 8].map(|()| u64::from(self.below(1000)));
        let releases = Arc::new(AtomicU64::new(0));
        let tells = Arc::clone(&releases);
        let on_last = Arc::new(move || {
            tells.fetch_add(1, Ordering::SeqCst);
        });
        let fits = (1..=512).contains(&slots) && (1..=1_024).contains(&passes);
        match Gate::new(slots, passes, start, words, on_last) {
            Ok(control) => {
                assert!(fits);
                let number = control.id();
                assert!(self.made.iter().all(|other| other.number != number));
                self.made.push(Made { counter: Counter::new(slots, passes, start, words), releases, number });
                self.controls[c] = Some((self.made.len() - 1, control));
            }
            Err(why) => assert!(!fits && why == NewError::Size),
        }
    }

    fn give(&mut self, c: usize, s: usize) {
        let Some((gate, mut control)) = self.controls[c].take() else { return };
        let slot = self.some_slot(self.made[gate].counter.slots);
        let counter = &mut self.made[gate].counter;
        let given = control.next_pass(slot);
        if slot >= counter.slots {
            assert_eq!(given.unwrap_err(), NextPassError::NoSlot);
        } else if counter.waiting == 0 {
            assert_eq!(given.unwrap_err(), NextPassError::NoPass);
        } else {
            (counter.waiting, counter.out) = (counter.waiting - 1, counter.out + 1);
            self.let_go(s);
            self.seats[s] = Some(Seat { gate, forgotten: 0, releases: 0, counting: Counting::Free(given.unwrap()) });
        }
        self.controls[c] = Some((gate, control));
    }

    /// Drops the pass or reference of a seat, which puts everything it held except leaked references.
    fn let_go(&mut self, s: usize) {
        let Some(seat) = self.seats[s].take() else { return };
        let counter = &mut self.made[seat.gate].counter;
        let references = match &seat.counting {
            Counting::Free(_) => 0,
            Counting::Owned(_) => 1,
            Counting::Many(_, references) => references.len(),
        };
        for _ in 0..references {
            counter.drops();
        }
    }

    fn retire(&mut self, c: usize, s: usize) {
        let Some((gate, control)) = &mut self.controls[c] else { return };
        let Some(seat) = self.seats[s].take() else { return };
        let Counting::Free(pass) = seat.counting else {
            self.seats[s] = Some(seat);
            return;
        };
        let refusal = match control.retire(pass) {
            Ok(()) => {
                assert_eq!((seat.gate, seat.forgotten), (*gate, 0));
                let counter = &mut self.made[*gate].counter;
                (counter.out, counter.waiting) = (counter.out - 1, counter.waiting + 1);
                counter.known += seat.releases;
                return;
            }
            Err(refusal) => refusal,
        };
        let want = if seat.gate == *gate { RetireError::StillHeld } else { RetireError::OtherGate };
        assert!(refusal.reason == want && (seat.gate != *gate || seat.forgotten > 0));
        self.seats[s] = Some(Seat { counting: Counting::Free(refusal.value), ..seat });
    }

    fn exit(&mut self, c: usize) {
        let Some((gate, control)) = self.controls[c].take() else { return };
        let Counter { out, killed, kills, known, words, .. } = self.made[gate].counter;
        match control.exit() {
            Ok(last) => {
                assert_eq!((last, out), (Final { dead: killed, kills, releases: known, words }, 0));
            }
            Err(HandedBack { value, reason }) => {
                assert!(reason == ExitError::PassesOut && out > 0);
                self.controls[c] = Some((gate, value));
            }
        }
    }

    /// Makes a try, live or not, and keeps, drops or leaks the reference.
    fn take(&mut self, s: usize) {
        let (live, kept, slot) = (self.chance(2), self.below(8), self.below(70));
        let Some(seat) = &mut self.seats[s] else { return };
        let counter = &mut self.made[seat.gate].counter;
        let used = seat.pass().use_slot(slot);
        assert_eq!(used, if slot < counter.slots { Ok(()) } else { Err(SlotError::NoSlot) });
        let want = if live { !counter.killed } else { !counter.released };
        let pass = seat.pass();
        let forgotten = match if live { pass.try_get_live() } else { pass.try_get() } {
            Ok(reference) => {
                assert!(want);
                assert_eq!(reference.words(), counter.words);
                // A reference that is dropped here is put before the match is over.
                if kept == 0 {
                    mem::forget(reference);
                }
                kept == 0
            }
            Err(why) => {
                assert!(!want && why == TryGetError::NotGiven);
                return;
            }
        };
        counter.held += 1;
        if forgotten {
            seat.forgotten += 1;
        } else {
            let releases = counter.drops();
            seat.notes(releases);
        }
    }

    /// A seat of many references takes, clones or drops one.
    fn take_many(&mut self, s: usize) {
        let (what, which) = (self.below(4), self.below(1000) as usize);
        let Some(seat) = &mut self.seats[s] else { return };
        let counter = &mut self.made[seat.gate].counter;
        let Counting::Many(pass, references) = &mut seat.counting else { return };
        let at = which % references.len().max(1);
        if what < 2 {
            let want = if what == 0 { !counter.killed } else { !counter.released };
            match if what == 0 { pass.try_get_live() } else { pass.try_get() } {
                Ok(reference) => references.push(reference),
                Err(why) => assert!(!want && why == TryGetError::NotGiven),
            }
            counter.held += u64::from(want);
        } else if references.is_empty() {
        } else if what == 2 {
            let another = references[at].try_clone();
            assert!(!matches!(another, Err(GetError::HeldFull)));
            references.push(another.unwrap());
            counter.held += 1;
        } else {
            assert_eq!(references[at].words(), counter.words);
            drop(references.swap_remove(at));
            let releases = counter.drops();
            seat.notes(releases);
        }
    }

    /// A seat changes its form: a pass to one with an owned reference, to one of many, or back.
    fn change(&mut self, s: usize) {
        let (how, live) = (self.below(8), self.chance(2));
        let Some(mut seat) = self.seats[s].take() else { return };
        let counter = &mut self.made[seat.gate].counter;
        seat.counting = match seat.counting {
            Counting::Free(pass) if how == 0 => Counting::Many(Box::leak(Box::new(pass)), Vec::new()),
            Counting::Free(pass) => {
                let want = if live { !counter.killed } else { !counter.released };
                match if live { pass.into_reference_live() } else { pass.into_reference() } {
                    Ok(request) => {
                        assert!(want);
                        counter.held += 1;
                        Counting::Owned(request)
                    }
                    Err(HandedBack { value, reason }) => {
                        assert!(!want && reason == TryGetError::NotGiven);
                        Counting::Free(value)
                    }
                }
            }
            Counting::Owned(request) => {
                assert_eq!(request.words(), counter.words);
                let releases = counter.drops();
                seat.releases += u64::from(releases);
                Counting::Free(request.put())
            }
            many @ Counting::Many(..) => many,
        };
        self.seats[s] = Some(seat);
    }

    fn look(&self, s: usize) {
        let Some(seat) = &self.seats[s] else { return };
        let (Made { counter, number, .. }, pass) = (&self.made[seat.gate], seat.pass());
        assert_eq!((pass.is_dying(), pass.is_zero()), (counter.killed, counter.released));
        assert_eq!((pass.front(), pass.gate_id()), (counter.front, *number));
        assert!(pass.slot() < counter.slots);
    }

    fn call(&mut self) {
        let (c, s) = (self.below(3) as usize, self.below(12) as usize);
        match self.below(32) {
            0 if self.controls[c].is_none() || self.chance(30) => self.make(c),
            0..=3 => self.give(c, s),
            4 | 5 => self.retire(c, s),
            6 => self.exit(c),
            7..=10 => self.take(s),
            11..=14 => self.take_many(s),
            15..=18 => self.change(s),
            19 | 20 => self.look(s),
            21 | 22 => self.kill(c),
            23..=25 => self.revive(c),
            26 => self.switch(c),
            27 | 28 => self.store(c),
            29 | 30 => self.ask(c),
            _ if self.chance(20) => self.let_go(s),
            _ => {}
        }
        for made in self.made.iter().rev().take(10) {
            assert_eq!(made.releases.load(Ordering::SeqCst), made.counter.releases);
        }
    }
}

fn number_of(name: &str, otherwise: u64) -> u64 {
    env::var(name).ok().and_then(|text| text.parse().ok()).unwrap_or(otherwise)
}

#[test]
fn random_calls() {
    let mut run = Run {
        seed: number_of("PERCPU_GATE_SEED", 1),
        made: vec![],
        controls: Default::default(),
        seats: Default::default(),
    };
    for _ in 0..number_of("PERCPU_GATE_CALLS", 2_000_000) {
        run.call();
    }
    assert!(run.made.len() > 100, "{} gates", run.made.len());
    let releases: u64 = run.made.iter().map(|made| made.counter.releases).sum();
    assert!(releases > 1000, "{releases} releases");
    for made in &run.made {
        assert_eq!(made.releases.load(Ordering::SeqCst), made.counter.releases);
    }
}
