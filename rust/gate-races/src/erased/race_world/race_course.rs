// Erased from crates/race_world/src/race_course.rt by tools/erase: edit that file.
//! A race as a course for a search.

use crate::erased::fallible::AllocError;
use crate::erased::percpu_core::{Event, Memory};
use crate::erased::race_world::actor::is_same_actor;
use crate::erased::race_world::course::Course;
use crate::erased::race_world::exchange::Exchange;
use crate::erased::race_world::moment::Moment;
use crate::erased::race_world::race::Race;

impl Course for Race {
    type Moment = Moment;

    type Event = Event;

    type Exchange = Exchange;

    fn first(&self) -> Result<Moment, Memory> {
        Moment::first(self)
    }

    fn next_events(&self, moment: &Moment) -> Result<Vec<Event>, AllocError> {
        moment.next_events(self)
    }

    fn after(&self, moment: &Moment, event: Event) -> Result<Moment, Memory> {
        moment.after(self, event)
    }

    fn settled(&self, moment: Moment) -> Result<(Moment, Vec<Exchange>), Memory> {
        moment.settled(self)
    }

    fn exchanged_event(&self, exchange: Exchange, event: Event) -> Event {
        exchange.event(event)
    }

    fn is_same_actor(&self, event: Event, other: Event) -> bool {
        is_same_actor(event, other)
    }

    fn number(moment: &Moment) -> u64 {
        moment.fingerprint()
    }

    fn is_same(moment: &Moment, other: &Moment) -> bool {
        moment.is_same(other)
    }

    fn bytes(moment: &Moment) -> u64 {
        moment.bytes()
    }

    fn is_sound(&self) {}
}
