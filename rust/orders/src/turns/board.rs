//! The steps of actors, of which one at a time has its turn.

use super::buffers::{Buffer, Store, Word, address};
use super::meetings::{buffer_of, token_of};
use super::state::{End, Place, State, Until};
use std::panic::Location;
use std::sync::atomic::Ordering::SeqCst;
use std::sync::{Condvar, Mutex, MutexGuard, PoisonError};

/// More steps than any order has that ends.
const MOST_STEPS: usize = 20_000;

pub(crate) struct Board {
    actors: usize,
    switches: usize,
    state: Mutex<State>,
    turns: Vec<Condvar>,
}

impl Board {
    pub(crate) fn new(actors: usize, switches: usize, skips_equal: bool) -> Board {
        let state = State::new(actors, switches, skips_equal);
        let turns = (0..=actors).map(|_| Condvar::new()).collect();
        Board { actors, switches, state: Mutex::new(state), turns }
    }

    fn state(&self) -> MutexGuard<'_, State> {
        self.state.lock().unwrap_or_else(PoisonError::into_inner)
    }

    /// Gives the turn to an actor, or to the director.
    fn give(&self, state: &mut State, to: usize) {
        state.turn = to;
        self.turns[to].notify_one();
    }

    fn waits<'b>(&'b self, state: MutexGuard<'b, State>, actor: usize) -> MutexGuard<'b, State> {
        let turn = self.turns[actor].wait_while(state, |state| state.turn != actor);
        turn.unwrap_or_else(PoisonError::into_inner)
    }

    /// Has another actor go on if this one can't, or if it is chosen, until it is this one's turn.
    fn turn<'b>(&'b self, mut state: MutexGuard<'b, State>, actor: usize) -> MutexGuard<'b, State> {
        match state.next(Some(actor)) {
            Some(next) if next == actor => return state,
            Some(next) => self.give(&mut state, next),
            None => {
                state.end = Some(End::Stuck);
                self.give(&mut state, self.actors);
            }
        }
        self.waits(state, actor)
    }

    /// An actor is about to step, before which another may go on.
    pub(crate) fn step(&self, actor: usize, name: &'static str, at: &'static Location<'static>) {
        drop(self.before_step(actor, Place::Ready, name, at));
    }

    /// An actor is about to take a step, which it can take where it may go on from this place: under its turn for it.
    fn before_step(
        &self,
        actor: usize,
        place: Place,
        name: &'static str,
        at: &'static Location<'static>,
    ) -> MutexGuard<'_, State> {
        let mut state = self.state();
        state.places[actor] = place;
        if !(std::mem::take(&mut state.fresh[actor]) && state.may_go_on(actor)) {
            state = self.turn(state, actor);
        }
        state.places[actor] = Place::Ready;
        state.meetings.begin(actor);
        state.steps.push((actor, name, at));
        if state.steps.len() > MOST_STEPS {
            state.end = Some(End::Endless);
            self.give(&mut state, self.actors);
            state = self.waits(state, actor);
        }
        state
    }

    /// A step that no store of the actor stays behind.
    fn before_full_step(
        &self,
        actor: usize,
        place: Place,
        name: &'static str,
        at: &'static Location<'static>,
    ) -> MutexGuard<'_, State> {
        let mut state = self.before_step(actor, place, name, at);
        state.empty_buffer(actor);
        state
    }

    /// What a word has, to this actor.
    pub(crate) fn loads(&self, actor: usize, word: &Word, at: &'static Location<'static>) -> u64 {
        let mut state = self.before_step(actor, Place::Ready, "load", at);
        state.meetings.touch(address(word), false);
        state.buffers[actor].newest(word).unwrap_or_else(|| {
            state.let_stores_reach(word);
            word.load(SeqCst)
        })
    }

    /// Changes a word, and returns what was there.
    pub(crate) fn changes(
        &self,
        actor: usize,
        word: &Word,
        (name, at): (&'static str, &'static Location<'static>),
        by: impl FnOnce(u64) -> u64,
    ) -> u64 {
        let mut state = self.before_full_step(actor, Place::Ready, name, at);
        state.let_stores_reach(word);
        state.meetings.touch(address(word), true);
        let found = word.load(SeqCst);
        word.store(by(found), SeqCst);
        found
    }

    /// A store that waits in the actor's buffer.
    pub(crate) fn stores_later(&self, actor: usize, store: Store) {
        let name = if store.is_release { "release store" } else { "relaxed store" };
        let mut state = self.before_step(actor, Place::Ready, name, store.at);
        state.meetings.touch(address(&store.word), true);
        state.meetings.touch(buffer_of(actor), true);
        Buffer::push(&mut state.buffers, actor, store);
    }

    /// All stores before reach memory: those of the actors one after another, and each has a moment of its own.
    pub(crate) fn fences(&self, actor: usize, at: &'static Location<'static>) {
        for other in (0..self.actors).filter(|it| *it != actor) {
            let mut state = self.before_full_step(actor, Place::Ready, "heavy_fence", at);
            state.meetings.touch(buffer_of(other), true);
            state.empty_buffer(other);
        }
    }

    pub(crate) fn locks(&self, actor: usize, lock: usize, at: &'static Location<'static>) {
        let mut state = self.before_full_step(actor, Place::Locks(lock), "lock", at);
        state.meetings.touch(lock, true);
        state.locked.insert(lock);
    }

    /// Whether it has the lock.
    pub(crate) fn tries_lock(&self, actor: usize, lock: usize, at: &'static Location<'static>) -> bool {
        let mut state = self.before_full_step(actor, Place::Ready, "try_lock", at);
        state.meetings.touch(lock, true);
        state.locked.insert(lock)
    }

    pub(crate) fn unlocks(&self, actor: usize, lock: usize) {
        let mut state = self.state();
        state.empty_buffer(actor);
        state.meetings.touch(lock, true);
        state.locked.remove(&lock);
    }

    /// Lets a lock go, sleeps and takes it again. Whether the deadline passed.
    pub(crate) fn sleeps(
        &self,
        actor: usize,
        (on, lock): (usize, usize),
        until: Until,
        at: &'static Location<'static>,
    ) -> bool {
        let mut state = self.before_full_step(actor, Place::Ready, "wait", at);
        state.meetings.touch(lock, true);
        state.meetings.touch(on, true);
        state.locked.remove(&lock);
        state.places[actor] = Place::Sleeps { on, lock, until };
        state = self.turn(state, actor);
        let is_late = state.places[actor] != Place::Locks(lock);
        state.places[actor] = Place::Ready;
        state.meetings.begin(actor);
        state.meetings.touch(lock, true);
        state.meetings.touch(on, true);
        state.locked.insert(lock);
        is_late
    }

    pub(crate) fn notifies(&self, actor: usize, on: usize, all: bool, at: &'static Location<'static>) {
        let name = if all { "notify_all" } else { "notify_one" };
        let mut state = self.before_full_step(actor, Place::Ready, name, at);
        state.meetings.touch(on, true);
        let sleeps = |place: &Place| matches!(place, Place::Sleeps { on: is, .. } if *is == on);
        let mut sleepers: Vec<usize> = (0..self.actors).filter(|it| sleeps(&state.places[*it])).collect();
        if !all && !sleepers.is_empty() {
            let chosen = state.choose(sleepers.len());
            sleepers = vec![sleepers[chosen]];
        }
        for sleeper in sleepers {
            if let Place::Sleeps { lock, .. } = state.places[sleeper] {
                state.places[sleeper] = Place::Locks(lock);
            }
        }
    }

    pub(crate) fn parks(&self, actor: usize, at: &'static Location<'static>) {
        let mut state = self.before_full_step(actor, Place::Parked, "park", at);
        state.meetings.touch(token_of(actor), true);
        state.tokens[actor] = false;
    }

    pub(crate) fn unparks(&self, actor: usize, other: usize, at: &'static Location<'static>) {
        let mut state = self.before_full_step(actor, Place::Ready, "unpark", at);
        state.meetings.touch(token_of(other), true);
        state.tokens[other] = true;
    }

    /// Waits for an actor's first turn of an order; false if there is none any more.
    pub(crate) fn begins(&self, actor: usize) -> bool {
        let starts = |state: &mut State| !(state.is_closed || state.turn == actor);
        let state = self.turns[actor].wait_while(self.state(), starts).unwrap_or_else(PoisonError::into_inner);
        !state.is_closed
    }

    /// An actor has ended, by a panic if there is a text.
    pub(crate) fn ends(&self, actor: usize, panicked: Option<String>) {
        let mut state = self.state();
        state.places[actor] = Place::Ended;
        let next = state.next(None);
        state.end = match (panicked, next) {
            (Some(why), _) => Some(End::Panicked(why)),
            (None, None) if state.places.iter().all(|it| *it == Place::Ended) => Some(End::Ended),
            (None, None) => Some(End::Stuck),
            (None, Some(_)) => None,
        };
        let to = if state.end.is_some() { self.actors } else { next.unwrap_or(self.actors) };
        self.give(&mut state, to);
    }

    /// Has the actors go through an order.
    pub(crate) fn direct(&self) -> End {
        let mut state = self.state();
        state.restart(self.switches);
        let first = state.next(None).expect("an actor");
        self.give(&mut state, first);
        state = self.waits(state, self.actors);
        (0..self.actors).for_each(|actor| state.empty_buffer(actor));
        state.end.take().expect("the end of an order")
    }

    /// What is shared by no step is touched by the actor's last one.
    pub(crate) fn touches(&self, place: usize, changes: bool) {
        self.state().meetings.touch(place, changes);
    }

    pub(crate) fn steps(&self) -> u64 {
        self.state().steps.len() as u64
    }

    /// Plans the next order; false if there is none.
    pub(crate) fn next_order(&self) -> bool {
        self.state().next_order()
    }

    pub(crate) fn close(&self) {
        self.state().is_closed = true;
        self.turns.iter().for_each(Condvar::notify_all);
    }

    /// The steps of the order, a line for each.
    pub(crate) fn schedule(&self) -> Vec<String> {
        self.state()
            .steps
            .iter()
            .map(|(actor, name, at)| format!("{actor}: {name} at {}:{}", at.file(), at.line()))
            .collect()
    }
}
