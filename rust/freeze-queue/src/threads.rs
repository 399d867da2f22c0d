//! The slot of a thread, and the place of the tag that it took last, for requests that take any tag.
use crate::locked::Lock;
use std::cell::Cell;
use std::cmp::Reverse;
use std::collections::BinaryHeap;

/// The value for a thread that has no number yet.
const NONE: u32 = u32::MAX;

thread_local! {
    /// The thread's number, and the place where its search for a tag begins.
    static HINT: Cell<(u32, usize)> = const { Cell::new((NONE, 0)) };
    /// Gives the thread's number back when the thread ends.
    static NUMBER: Number = Number::take();
}

/// Returns the thread's number, and the place where its search for a tag begins.
#[inline]
pub(crate) fn hint() -> (u32, usize) {
    let (thread, from) = HINT.get();
    if thread == NONE { first_hint() } else { (thread, from) }
}

/// Lets the thread's next search begin at this tag.
#[inline]
pub(crate) fn note(thread: u32, from: usize) {
    HINT.set((thread, from));
}

/// Gives the thread a number. (A thread that is ending, and gave its number back, has 0.)
#[cold]
fn first_hint() -> (u32, usize) {
    let thread = NUMBER.try_with(|number| number.0).unwrap_or(0);
    HINT.set((thread, thread as usize));
    (thread, thread as usize)
}

/// The free numbers: the numbers that were given back (with capacity for all), and all numbers from `next` on.
struct Numbers {
    back: BinaryHeap<Reverse<u32>>,
    next: u32,
}

static NUMBERS: Lock<Numbers> = Lock::new(Numbers { back: BinaryHeap::new(), next: 0 });

/// The number of a live thread: the lowest free one, so that threads have slots of their own as long as there are enough.
struct Number(u32);

impl Number {
    /// If there is no memory to give the number back into, threads share it.
    fn take() -> Number {
        let mut numbers = NUMBERS.lock();
        if let Some(Reverse(number)) = numbers.back.pop() {
            return Number(number);
        }
        let number = numbers.next;
        let room = number as usize + 1;
        if numbers.back.try_reserve(room).is_ok() {
            numbers.next += 1;
        }
        Number(number)
    }
}

impl Drop for Number {
    fn drop(&mut self) {
        HINT.set((NONE, 0));
        let mut numbers = NUMBERS.lock();
        if numbers.back.len() < numbers.next as usize {
            numbers.back.push(Reverse(self.0)); // there is room
        }
    }
}

#[cfg(test)]
mod tests {
    use super::hint;
    use std::sync::Barrier;
    use std::thread;

    #[test]
    fn a_number_of_a_thread_that_ended_is_given_again() {
        for _ in 0..1_000 {
            let (first, _) = thread::spawn(hint).join().unwrap();
            assert!(first < 512, "numbers are used again: {first}");
        }
    }

    #[test]
    fn threads_that_live_together_have_numbers_of_their_own() {
        let together = Barrier::new(8);
        let mut numbers = thread::scope(|threads| {
            let number = || {
                let (number, _) = hint();
                together.wait();
                number
            };
            [0; 8].map(|_| threads.spawn(number)).map(|thread| thread.join().unwrap())
        });
        numbers.sort_unstable();
        assert!(numbers.windows(2).all(|two| two[0] < two[1]), "{numbers:?}");
    }
}
