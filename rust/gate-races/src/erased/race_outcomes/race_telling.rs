// Erased from crates/race_outcomes/src/race_telling.rt by tools/erase: edit that file.
//! A race as a course whose ends have outcomes.

use crate::erased::fallible::AllocError;
use crate::erased::percpu_core::Memory;
use crate::erased::race_outcomes::exchanges::exchanges;
use crate::erased::race_outcomes::race_account::{tell_alike, told, told_number};
use crate::erased::race_outcomes::telling::Telling;
use crate::erased::race_outcomes::told::Told;
use crate::erased::race_world::{Exchange, Moment, Race};

impl Telling for Race {
    fn told(&self, moment: &Moment) -> Result<Told, Memory> {
        told(moment)
    }

    fn told_number(&self, moment: &Moment) -> u64 {
        told_number(moment)
    }

    fn tell_alike(&self, moment: &Moment, other: &Moment) -> bool {
        tell_alike(moment, other)
    }

    fn copy(&self, moment: &Moment) -> Result<Moment, Memory> {
        moment.copy()
    }

    fn exchanged(&self, exchange: Exchange, mut moment: Moment) -> Moment {
        moment.exchange(exchange);
        moment
    }

    fn exchanges(&self) -> Result<Vec<Exchange>, AllocError> {
        exchanges(self)
    }

    fn tells_soundly(&self) {}
}
