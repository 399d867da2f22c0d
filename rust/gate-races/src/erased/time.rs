// A stand-in for the kit's Instant, written by hand: tools/erase leaves it alone.
//! A reading of the clock that never goes back, which the kit may be refused.

use std::io::Result;
use std::time::{self, Duration};

/// A reading of the clock.
#[derive(Clone, Copy, Debug)]
pub struct Instant(time::Instant);

impl Instant {
    /// The time now.
    pub fn now() -> Result<Self> {
        Ok(Self(time::Instant::now()))
    }

    /// The time from an earlier reading to this one.
    pub fn duration_since(&self, earlier: Self) -> Duration {
        self.0.saturating_duration_since(earlier.0)
    }
}
