// Erased from crates/race_outcomes/src/telling.rt by tools/erase: edit that file.
//! A course whose ends have outcomes.

use crate::erased::fallible::AllocError;
use crate::erased::percpu_core::Memory;
use crate::erased::race_outcomes::told::Told;
use crate::erased::race_world::Course;

/// A course whose moments have accounts: the answers to the calls of each actor so far, and the figures of the gate. Ends with
/// equal accounts are one outcome.
///
/// An exchange that is made twice changes nothing, and points with equal accounts have equal accounts after it. That is
/// the law `tells_soundly`.
pub trait Telling: Course {
    /// The account of the moment. Returns `Memory` if an allocation was refused, or at 2^64 calls.
    fn told(&self, moment: &Self::Moment) -> Result<Told, Memory>;

    /// The number of the moment's account.
    fn told_number(&self, moment: &Self::Moment) -> u64;

    /// Whether both moments have the same account.
    fn tell_alike(&self, moment: &Self::Moment, other: &Self::Moment) -> bool;

    /// Returns a copy of the moment. Returns `Memory` if an allocation was refused.
    fn copy(&self, moment: &Self::Moment) -> Result<Self::Moment, Memory>;

    /// The moment after the exchange.
    ///
    /// # Preconditions
    ///
    /// - `Self.rules(self).may_exchange(exchange)`.
    /// - `Self.rules(self).is_point(moment)`.
    fn exchanged(&self, exchange: Self::Exchange, moment: Self::Moment) -> Self::Moment;

    /// Exchanges that generate all others: at each point, each exchange that may be made is a sequence of some of these.
    fn exchanges(&self) -> Result<Vec<Self::Exchange>, AllocError>;

    /// Each exchange undoes itself, and keeps equal accounts equal. The contract is the law; the method does nothing.
    fn tells_soundly(&self);
}
