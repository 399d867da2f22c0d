//! Std's atomic numbers, by turns. A relaxed or a release store waits in the buffer of its actor. Each other step that stores empties that buffer
//! first, and is sequentially consistent.
#![expect(
    clippy::cast_lossless,
    clippy::cast_possible_truncation,
    reason = "a word holds what was put into it, of any of these types"
)]

use super::buffers::{Store, Word};
use super::thread::of_actor;
use std::panic::Location;
use std::sync::Arc;
use std::sync::atomic::{self, Ordering, Ordering::SeqCst};

#[track_caller]
fn load(word: &Word) -> u64 {
    let at = Location::caller();
    of_actor(|board, actor| board.loads(actor, word, at)).unwrap_or_else(|| word.load(SeqCst))
}

#[track_caller]
fn change(word: &Word, name: &'static str, by: impl Fn(u64) -> u64) -> u64 {
    let at = Location::caller();
    let made = of_actor(|board, actor| board.changes(actor, word, (name, at), &by));
    made.unwrap_or_else(|| word.swap(by(word.load(SeqCst)), SeqCst))
}

#[track_caller]
fn store(word: &Word, value: u64, order: Ordering) {
    let at = Location::caller();
    if order == SeqCst {
        change(word, "store", |_| value);
        return;
    }
    let later = || Store { word: Arc::clone(word), value, is_release: order == Ordering::Release, at };
    if of_actor(|board, actor| board.stores_later(actor, later())).is_none() {
        word.store(value, SeqCst);
    }
}

macro_rules! atomics {
    ($($name:ident: $number:ty, $from:expr;)+) => {$(
        /// As std's.
        #[derive(Debug, Default)]
        pub struct $name(Word);

        impl $name {
            /// As std's, but for constants.
            #[must_use]
            pub fn new(value: $number) -> $name {
                $name(Word::new(atomic::AtomicU64::new(value as u64)))
            }

            fn of(bits: u64) -> $number {
                $from(bits)
            }

            /// As std's.
            #[track_caller]
            pub fn load(&self, _order: Ordering) -> $number {
                $name::of(load(&self.0))
            }

            /// As std's.
            #[track_caller]
            pub fn store(&self, value: $number, order: Ordering) {
                store(&self.0, value as u64, order);
            }

            /// As std's.
            ///
            /// # Errors
            ///
            /// As std's.
            #[track_caller]
            pub fn compare_exchange(
                &self,
                old: $number,
                new: $number,
                _done: Ordering,
                _not: Ordering,
            ) -> Result<$number, $number> {
                let by = |found| if found == old as u64 { new as u64 } else { found };
                let found = $name::of(change(&self.0, "compare_exchange", by));
                if found == old { Ok(found) } else { Err(found) }
            }
        }
    )+};
}

atomics! {
    AtomicBool: bool, |bits| bits != 0;
    AtomicU32: u32, |bits| bits as u32;
    AtomicU64: u64, |bits| bits;
    AtomicUsize: usize, |bits| bits as usize;
}

macro_rules! exchanges {
    ($($name:ident: $number:ty => $($how:ident),+;)+) => {$(
        impl $name {$(
            /// As std's.
            #[track_caller]
            pub fn $how(&self, value: $number, _order: Ordering) -> $number {
                let by = |found| {
                    let number = atomic::$name::new($name::of(found));
                    number.$how(value, SeqCst);
                    number.into_inner() as u64
                };
                $name::of(change(&self.0, stringify!($how), by))
            }
        )+}
    )+};
}

exchanges! {
    AtomicBool: bool => swap, fetch_and, fetch_or;
    AtomicU32: u32 => swap, fetch_and, fetch_or, fetch_add, fetch_sub;
    AtomicU64: u64 => swap, fetch_and, fetch_or, fetch_add, fetch_sub;
    AtomicUsize: usize => swap, fetch_and, fetch_or, fetch_add, fetch_sub;
}
