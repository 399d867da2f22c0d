//! The actor that goes on: where all actors are, and the choices of an order.

use super::buffers::{Buffer, Store, Word, address};
use super::meetings::Meetings;
use std::collections::HashSet;
use std::panic::Location;
use std::sync::atomic::Ordering::SeqCst;

/// Until when an actor sleeps that isn't notified.
#[derive(Clone, Copy, Debug, PartialEq, Eq)]
pub(super) enum Until {
    /// For ever.
    Notified,
    /// Until a deadline, which may pass at each moment.
    AnyMoment,
    /// Until a deadline, which passes once no other actor can go on.
    Standstill,
}

/// Where an actor is.
#[derive(Clone, Copy, Debug, PartialEq, Eq)]
pub(super) enum Place {
    Ready,
    /// Waits for a lock, by its address.
    Locks(usize),
    /// Sleeps on a condition until it is notified, or until a deadline if it has one.
    Sleeps {
        on: usize,
        lock: usize,
        until: Until,
    },
    Parked,
    Ended,
}

/// How an order ended.
#[derive(Debug)]
pub(crate) enum End {
    Ended,
    Stuck,
    Endless,
    Panicked(String),
}

/// A choice: which of how many.
type Choice = (usize, usize);

pub(super) struct State {
    /// The actor whose turn it is; the director's number is behind all.
    pub(super) turn: usize,
    pub(super) places: Vec<Place>,
    /// Whether an actor was unparked, and hasn't parked since.
    pub(super) tokens: Vec<bool>,
    /// Whether an actor has taken no step yet: it was chosen for its first one when it began.
    pub(super) fresh: Vec<bool>,
    pub(super) locked: HashSet<usize>,
    pub(super) buffers: Vec<Buffer>,
    pub(super) meetings: Meetings,
    skips_equal: bool,
    /// Whether an actor was switched away from while it could go on.
    left: Vec<bool>,
    /// Another order differs from this one in nothing, and no more choices are made.
    is_redundant: bool,
    plan: Vec<Choice>,
    made: usize,
    pub(super) switches: usize,
    pub(super) steps: Vec<(usize, &'static str, &'static Location<'static>)>,
    pub(super) end: Option<End>,
    pub(super) is_closed: bool,
}

impl State {
    pub(super) fn new(actors: usize, switches: usize, skips_equal: bool) -> State {
        State {
            turn: actors,
            places: vec![Place::Ready; actors],
            tokens: vec![false; actors],
            fresh: vec![true; actors],
            locked: HashSet::new(),
            buffers: (0..actors).map(|_| Buffer::default()).collect(),
            meetings: Meetings::default(),
            skips_equal,
            left: vec![false; actors],
            is_redundant: false,
            plan: Vec::new(),
            made: 0,
            switches,
            steps: Vec::new(),
            end: None,
            is_closed: false,
        }
    }

    /// No actor has stepped.
    pub(super) fn restart(&mut self, switches: usize) {
        self.places.fill(Place::Ready);
        self.tokens.fill(false);
        self.fresh.fill(true);
        self.buffers.fill_with(Buffer::default);
        self.meetings.clear();
        self.left.fill(false);
        self.is_redundant = false;
        (self.made, self.switches) = (0, switches);
        self.steps.clear();
    }

    /// Plans the next order; false if there is none.
    pub(super) fn next_order(&mut self) -> bool {
        while let Some((chosen, options)) = self.plan.pop() {
            if chosen + 1 < options {
                self.plan.push((chosen + 1, options));
                return true;
            }
        }
        false
    }

    pub(super) fn is_free(&self, lock: usize) -> bool {
        !self.locked.contains(&lock)
    }

    pub(super) fn may_go_on(&self, actor: usize) -> bool {
        match self.places[actor] {
            Place::Ready => true,
            Place::Locks(lock) => self.is_free(lock),
            Place::Sleeps { lock, until, .. } => self.is_free(lock) && self.is_over(until),
            Place::Parked => self.tokens[actor],
            Place::Ended => false,
        }
    }

    /// Whether a deadline may pass now.
    fn is_over(&self, until: Until) -> bool {
        let waits_for_others = |place: &Place| matches!(place, Place::Sleeps { until: Until::Standstill, .. });
        match until {
            Until::Notified => false,
            Until::AnyMoment => true,
            Until::Standstill => {
                (0..self.places.len()).all(|it| waits_for_others(&self.places[it]) || !self.may_go_on(it))
            }
        }
    }

    /// The next choice of so many: as planned, or the first.
    pub(super) fn choose(&mut self, options: usize) -> usize {
        if options < 2 || (self.is_redundant && self.made == self.plan.len()) {
            return 0;
        }
        if self.made == self.plan.len() {
            self.plan.push((0, options));
        }
        let (chosen, of) = self.plan[self.made];
        assert_eq!(of, options, "a play isn't the same in each run of an order");
        self.made += 1;
        chosen
    }

    /// The actor that goes on, after this one; none if no actor may.
    pub(super) fn next(&mut self, actor: Option<usize>) -> Option<usize> {
        let goes_on = actor.filter(|it| self.may_go_on(*it));
        if goes_on.is_some() && self.switches == 0 {
            return goes_on;
        }
        let others = (0..self.places.len()).filter(|it| Some(*it) != goes_on && self.may_go_on(*it));
        let mut options: Vec<usize> = goes_on.into_iter().chain(others).collect();
        if self.skips_equal {
            self.leave_out_equal(goes_on, &mut options);
        }
        let chosen = self.choose(options.len());
        self.switches -= usize::from(goes_on.is_some() && chosen > 0);
        if let Some(actor) = goes_on {
            self.left[actor] = true;
        }
        let next = options.get(chosen).copied();
        if let Some(next) = next {
            self.left[next] = false;
        }
        next
    }

    /// Leaves those out that were switched away from after a step that has met no other. If no one else may go on, the order is redundant.
    fn leave_out_equal(&mut self, goes_on: Option<usize>, options: &mut Vec<usize>) {
        let may = |it: &usize| Some(*it) == goes_on || !self.left[*it] || self.meetings.has_met(*it);
        if options.iter().any(may) {
            options.retain(may);
        } else if !options.is_empty() {
            (self.is_redundant, self.switches) = (true, 0);
        }
    }

    /// Stores of an actor reach memory.
    fn reach(&mut self, actor: usize, stores: Vec<Store>) {
        for Store { word, value, at, .. } in stores {
            word.store(value, SeqCst);
            self.meetings.touch(address(&word), true);
            self.steps.push((actor, "store reaches memory", at));
        }
    }

    pub(super) fn empty_buffer(&mut self, actor: usize) {
        let stores = self.buffers[actor].all();
        self.reach(actor, stores);
    }

    /// Stores of another actor to a word reach memory before a step on it, one after another: a choice.
    pub(super) fn let_stores_reach(&mut self, word: &Word) {
        while let Some((other, place)) =
            (0..self.buffers.len()).find_map(|it| Some((it, self.buffers[it].oldest(word)?)))
        {
            if self.choose(2) == 0 {
                return;
            }
            let stores = self.buffers[other].through(place);
            self.reach(other, stores);
        }
    }
}
