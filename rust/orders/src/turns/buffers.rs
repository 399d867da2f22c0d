//! Stores that haven't reached memory.
//!
//! A relaxed or release store waits in the buffer of its thread until it reaches memory, which may be at any later moment. The stores of a
//! thread to one word stay in order, those to several words don't, and a release store is behind all stores before it.
//!
//! A store that reaches memory differs from one that waits only in what the next step on its word finds. So each order has a store
//! reach memory just before a step of another thread on that word, or not yet.

use std::panic::Location;
use std::sync::Arc;
use std::sync::atomic::AtomicU64;

/// A word of memory.
pub(crate) type Word = Arc<AtomicU64>;

/// The address of a word, which no other has.
pub(crate) fn address(word: &Word) -> usize {
    Arc::as_ptr(word).addr()
}

/// A store that waits.
#[derive(Debug)]
pub(crate) struct Store {
    pub(crate) word: Word,
    pub(crate) value: u64,
    pub(crate) is_release: bool,
    pub(crate) at: &'static Location<'static>,
}

/// The stores of a thread that wait, the oldest first.
#[derive(Debug, Default)]
pub(crate) struct Buffer(Vec<Store>);

impl Buffer {
    /// # Panics
    ///
    /// If a store to the word waits in another buffer: which of both is the last in memory isn't tried.
    pub(crate) fn push(buffers: &mut [Buffer], actor: usize, store: Store) {
        let others = (0..buffers.len()).filter(|other| *other != actor);
        assert!(
            others.into_iter().all(|it| buffers[it].oldest(&store.word).is_none()),
            "two threads' stores to a word wait"
        );
        buffers[actor].0.push(store);
    }

    /// What the thread itself finds in a word that it has stored.
    pub(crate) fn newest(&self, word: &Word) -> Option<u64> {
        self.0.iter().rfind(|it| Arc::ptr_eq(&it.word, word)).map(|it| it.value)
    }

    /// The place of the oldest store to a word.
    pub(crate) fn oldest(&self, word: &Word) -> Option<usize> {
        self.0.iter().position(|it| Arc::ptr_eq(&it.word, word))
    }

    /// Takes the store at this place out, which is the oldest to its word, and those that reach memory before it.
    pub(crate) fn through(&mut self, place: usize) -> Vec<Store> {
        let first = if self.0[place].is_release { 0 } else { place };
        self.0.drain(first..=place).collect()
    }

    /// Takes all stores out.
    pub(crate) fn all(&mut self) -> Vec<Store> {
        std::mem::take(&mut self.0)
    }
}
