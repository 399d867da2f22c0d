//! How long a waiting thread polls before it sleeps.
//!
//! A busy thread leaves within a microsecond, and a short freeze is over as quickly. Sleeping and being woken takes longer.
//! Patience halves if it was in vain, for example if requests take long or their threads don't run, and doubles if it paid.
//! One wait in sixteen has full patience, so that it can grow again.
use std::hint;
use std::sync::atomic::{AtomicU32, Ordering::Relaxed};
use std::time::{Duration, Instant};

/// One wait in this many has full patience.
const EXPLORES: u32 = 16;

/// The patience of the threads that wait for one thing. They share it; a lost update does no harm.
pub(crate) struct Patience {
    most: u32,
    nanoseconds: AtomicU32,
    waits: AtomicU32,
}

impl Patience {
    /// Makes a patience with this maximum, which is below a second.
    pub(crate) const fn new(most: Duration) -> Patience {
        let most = most.subsec_nanos();
        Patience { most, nanoseconds: AtomicU32::new(most), waits: AtomicU32::new(0) }
    }

    /// Polls until the condition holds, or until the patience or the time is over. Returns whether it held.
    pub(crate) fn sees(&self, deadline: Option<Instant>, mut look: impl FnMut() -> bool) -> bool {
        if look() {
            return true;
        }
        let began = Instant::now();
        let known = self.next();
        let patience = Duration::from_nanos(known.into());
        let most = deadline.map_or(patience, |at| patience.min(at.saturating_duration_since(began)));
        while began.elapsed() < most {
            hint::spin_loop();
            if look() {
                self.learns(known, true);
                return true;
            }
        }
        if most == patience {
            self.learns(known, false);
        }
        false
    }

    /// The number of nanoseconds of the next wait.
    fn next(&self) -> u32 {
        let waits = self.waits.load(Relaxed).wrapping_add(1);
        self.waits.store(waits, Relaxed);
        if waits % EXPLORES == 0 { self.most } else { self.nanoseconds.load(Relaxed) }
    }

    /// Notes whether a wait of this many nanoseconds paid.
    fn learns(&self, known: u32, paid: bool) {
        let next = if paid { known.saturating_mul(2) } else { known / 2 };
        self.nanoseconds.store(next.clamp(self.most / 16, self.most), Relaxed);
    }
}

#[cfg(test)]
mod tests {
    use super::*;

    const MOST: u32 = 4000;

    fn patience() -> Patience {
        Patience::new(Duration::from_nanos(MOST.into()))
    }

    fn known(patience: &Patience) -> u32 {
        patience.nanoseconds.load(Relaxed)
    }

    #[test]
    fn patience_in_vain_becomes_a_sixteenth() {
        let patience = patience();
        let mut seen = vec![];
        for _ in 0..5 {
            assert!(!patience.sees(None, || false));
            seen.push(known(&patience));
        }
        assert_eq!(seen, [2000, 1000, 500, 250, 250]);
    }

    #[test]
    fn patience_that_paid_doubles() {
        let patience = patience();
        let mut seen = vec![];
        for known in [250, 1500, 3000, MOST] {
            patience.learns(known, true);
            seen.push(patience.next());
        }
        assert_eq!(seen, [500, 3000, MOST, MOST]);
    }

    #[test]
    fn one_wait_of_sixteen_tries_all_of_it() {
        let patience = patience();
        patience.learns(0, false);
        let waits: Vec<u32> = (0..48).map(|_| patience.next()).collect();
        let whole: Vec<usize> = (0..48).filter(|wait| waits[*wait] == MOST).collect();
        assert_eq!(whole, [15, 31, 47]);
    }

    #[test]
    fn one_look_is_always_made_and_enough() {
        let patience = patience();
        assert!(patience.sees(Some(Instant::now()), || true));
        let mut looks = 0;
        assert!(!patience.sees(Some(Instant::now()), || {
            looks += 1;
            false
        }));
        assert_eq!((looks, known(&patience)), (1, MOST), "a deadline that passed teaches nothing");
    }
}
