// Erased from crates/percpu_gate/src/pass.rt by tools/erase: edit that file.
//! A pass, with which a thread counts.

use crate::erased::percpu_core::HELD_LIMIT;
use crate::erased::percpu_gate::gate::Gate;
use crate::erased::percpu_gate::pass_seat::PassSeat;
use crate::erased::percpu_gate::tried::{Put, Tried};
use crate::erased::percpu_words::{is_dead, is_zero};

/// A thread's right to count on one gate, with the number of references that it holds.
///
/// A pass moves between threads by ownership. Dropping a pass doesn't drop the references that it holds. 64 unused
/// bytes on each side keep neighbouring passes, as in a `Vec`, off each other's cache lines.
#[repr(C)]
pub struct Pass<const W: usize> {
    before: [u64; 8],
    seat: PassSeat,
    held: u32,
    seen_front: u64,
    releases: u64,
    after: [u64; 8],
}

/// Adds to the number of releases. It stores nothing if there is none, because a store delays the exchange that comes
/// next.
///
/// # Preconditions
///
/// - `releases + more` is less than `2^64`.
#[inline]
fn count_releases(releases: &mut u64, more: u64) {
    if more != 0 {
        *releases += more;
    }
}

impl<const W: usize> Pass<W> {
    /// A new pass, which holds nothing.
    ///
    /// # Preconditions
    ///
    /// - `seat.view` is `first_pass`.
    pub(crate) fn new(seat: PassSeat) -> Pass<W> {
        Pass { before: [0; 8], seat, held: 0, seen_front: 0, releases: 0, after: [0; 8] }
    }

    /// The number of references that this pass holds: 0 to 65,535.
    #[inline]
    pub fn held(&self) -> u32 {
        self.held
    }

    /// The greatest front that this pass has seen; 0 if it has seen none.
    #[inline]
    pub fn seen_front(&self) -> u64 {
        self.seen_front
    }

    /// Takes a reference unless the gate has reached zero. A pass that holds one already always gets another. Linux:
    /// `percpu_ref_tryget` (include/linux/percpu-refcount.h).
    ///
    /// # Preconditions
    ///
    /// - `self` belongs to `gate`.
    /// - `slot` is less than `gate.slots()`.
    /// - `self.held()` is less than `HELD_LIMIT`.
    #[inline]
    pub fn try_get(&mut self, gate: &Gate<W>, slot: u32) -> Tried {
        debug_assert!(slot < gate.slots());
        debug_assert!(self.held() < HELD_LIMIT);
        let is_given = self.seat.count_try(&gate.table, slot);
        let answer = self.seat.end_try(&gate.table, is_given);
        self.held += answer.taken();
        count_releases(&mut self.releases, answer.released());
        answer
    }

    /// Takes a reference unless the gate was killed. While a kill closes the slots, a slot that is still open may give
    /// one. Once the pass has seen the odd front `f` of a kill, a reference that it gets belongs to a later life: its
    /// floor is `f + 1` or more. Linux: `percpu_ref_tryget_live` (include/linux/percpu-refcount.h).
    ///
    /// # Preconditions
    ///
    /// - `self` belongs to `gate`.
    /// - `slot` is less than `gate.slots()`.
    /// - `self.held()` is less than `HELD_LIMIT`.
    #[inline]
    pub fn try_get_live(&mut self, gate: &Gate<W>, slot: u32) -> Tried {
        debug_assert!(slot < gate.slots());
        debug_assert!(self.held() < HELD_LIMIT);
        let is_given = self.seat.count_live(&gate.table, slot);
        let answer = self.seat.end_try(&gate.table, is_given);
        self.held += answer.taken();
        count_releases(&mut self.releases, answer.released());
        answer
    }

    /// Takes `n` more references, for a pass that holds one. Linux: `percpu_ref_get_many`
    /// (include/linux/percpu-refcount.h).
    ///
    /// # Preconditions
    ///
    /// - `self` belongs to `gate`.
    /// - `slot` is less than `gate.slots()`.
    /// - `self.held()` is at least 1.
    /// - `n` is at least 1.
    /// - `self.held() + n` is at most `HELD_LIMIT`.
    #[inline]
    pub fn get(&mut self, gate: &Gate<W>, slot: u32, n: u32) {
        debug_assert!(slot < gate.slots());
        debug_assert!(1 <= self.held());
        debug_assert!(1 <= n);
        debug_assert!(self.held() + n <= HELD_LIMIT);
        self.seat.count_get(&gate.table, slot, n);
        self.held += n;
    }

    /// Drops `n` references that the pass holds. `Last` is the release. Linux: `percpu_ref_put_many`
    /// (include/linux/percpu-refcount.h).
    ///
    /// # Preconditions
    ///
    /// - `self` belongs to `gate`.
    /// - `slot` is less than `gate.slots()`.
    /// - `n` is at least 1.
    /// - `n` is at most `self.held()`.
    #[inline]
    pub fn put(&mut self, gate: &Gate<W>, slot: u32, n: u32) -> Put {
        debug_assert!(slot < gate.slots());
        debug_assert!(1 <= n);
        debug_assert!(n <= self.held());
        let answer = self.seat.count_put(&gate.table, slot, n);
        self.held -= n;
        count_releases(&mut self.releases, answer.released());
        answer
    }

    /// The front, which only grows: it is odd from the confirmation of a kill, or from a dead start, until the revival
    /// stores the next one, just before it clears DEAD.
    ///
    /// # Preconditions
    ///
    /// - `self` belongs to `gate`.
    #[inline]
    pub fn front(&mut self, gate: &Gate<W>) -> u64 {
        self.seen_front = self.seat.load_front(&gate.table);
        self.seen_front
    }

    /// Whether one load finds the gate killed and not revived yet. Linux: `percpu_ref_is_dying`
    /// (include/linux/percpu-refcount.h).
    ///
    /// # Preconditions
    ///
    /// - `self` belongs to `gate`.
    #[inline]
    pub fn is_dying(&mut self, gate: &Gate<W>) -> bool {
        is_dead(self.seat.look(&gate.table))
    }

    /// Whether one load finds that the count has reached zero since the kill. Linux: `percpu_ref_is_zero`
    /// (lib/percpu-refcount.c).
    ///
    /// # Preconditions
    ///
    /// - `self` belongs to `gate`.
    #[inline]
    pub fn is_zero(&mut self, gate: &Gate<W>) -> bool {
        is_zero(self.seat.look(&gate.table))
    }

    /// The guarded word `k`, for a pass that holds a reference. Its value stays the same as long as the pass holds one.
    ///
    /// # Preconditions
    ///
    /// - `self` belongs to `gate`.
    /// - `self.held()` is at least 1.
    /// - `k` is less than `W`.
    #[inline]
    pub fn word(&mut self, gate: &Gate<W>, k: u32) -> u64 {
        debug_assert!(1 <= self.held());
        debug_assert!((k as usize) < W);
        self.seat.load_word(&gate.table, k)
    }

    /// The seat of a pass that ends, and the number of releases that it won.
    pub(crate) fn into_parts(self) -> (PassSeat, u64) {
        (self.seat, self.releases)
    }
}
