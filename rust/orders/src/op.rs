//! The steps.

/// The number of a word.
pub(crate) type Word = u32;

/// One step on a word.
#[derive(Clone, Copy, Debug, PartialEq, Eq, Hash)]
pub(crate) enum Op {
    Load,
    Store(u64),
    Swap(u64),
    Add(u64),
    Sub(u64),
    And(u64),
    Or(u64),
    /// Stores the second if the word is the first.
    Exchange(u64, u64),
    /// Takes a lock once it is free. The word is 0 while the lock is taken, otherwise 1 more than the number of the guarded value.
    Lock,
    /// Releases the lock of a condition, with the guarded value, and sleeps. The condition's word has a bit for each sleeper.
    Sleep {
        bit: u64,
        lock: Word,
        guarded: u64,
    },
    /// Wakes once it is notified, and takes the lock again once that is free.
    Wake {
        bit: u64,
        lock: Word,
    },
    /// Wakes any one sleeper.
    NotifyOne,
    /// Waits until every other actor has ended or waits for that too. (The word isn't looked at.)
    Join,
}

impl Op {
    /// Changes the words by a step, and returns its result. If the actor has to wait, changes nothing and returns none. If one
    /// sleeper is notified, it is the one whose bit is in `chosen`.
    pub(crate) fn apply(self, words: &mut [u64], word: Word, chosen: u64) -> Option<u64> {
        let at = word as usize;
        let found = words[at];
        words[at] = match self {
            Op::Load | Op::Join => found,
            Op::Store(new) => {
                words[at] = new;
                return Some(0);
            }
            Op::Swap(new) => new,
            Op::Add(more) => found.wrapping_add(more),
            Op::Sub(less) => found.wrapping_sub(less),
            Op::And(bits) => found & bits,
            Op::Or(bits) => found | bits,
            Op::Exchange(old, new) => {
                if found == old {
                    new
                } else {
                    found
                }
            }
            Op::Lock => {
                let guarded = found.checked_sub(1)?;
                words[at] = 0;
                return Some(guarded);
            }
            Op::Sleep { bit, lock, guarded } => {
                words[at] = found | bit;
                words[lock as usize] = guarded + 1;
                return Some(0);
            }
            Op::Wake { bit, lock } => {
                if found & bit != 0 {
                    return None;
                }
                return Op::Lock.apply(words, lock, 0);
            }
            Op::NotifyOne => {
                words[at] = found & !chosen;
                return Some(0);
            }
        };
        Some(found)
    }
}
