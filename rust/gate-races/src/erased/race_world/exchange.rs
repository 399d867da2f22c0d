// Erased from crates/race_world/src/exchange.rt by tools/erase: edit that file.
//! Exchanges of passes.

use crate::erased::percpu_core::Event;

/// Two passes of a race that are exchanged. If they make equal calls the race is the same except for their numbers:
/// each schedule is a schedule after the exchange.
#[derive(Clone, Copy, Debug, PartialEq, Eq)]
pub struct Exchange {
    pub one: u32,
    pub other: u32,
}

impl Exchange {
    /// The number of a pass after the exchange.
    pub fn pass(self, pass: u32) -> u32 {
        if pass == self.one {
            self.other
        } else if pass == self.other {
            self.one
        } else {
            pass
        }
    }

    /// The event after the exchange; a step of the control names no pass.
    pub fn event(self, event: Event) -> Event {
        match event {
            Event::Pass(pass, step) => Event::Pass(self.pass(pass), step),
            Event::Control(step) => Event::Control(step),
        }
    }
}
