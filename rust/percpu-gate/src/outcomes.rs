//! Results of calls of a gate.
use crate::WORD_COUNT;
use crate::erased::percpu_gate as erased;

/// The result of a kill.
///
/// ```
/// use percpu_gate::{Gate, Killed, Start};
/// use std::sync::Arc;
///
/// let mut gate = Gate::new(1, 1, Start::Slots, [0; 8], Arc::new(|| {}))?;
/// let pass = gate.next_pass(0)?;
/// let reference = pass.try_get_live()?;
/// assert_eq!(gate.kill()?, Killed::WhileHeld);
/// # Ok::<(), Box<dyn std::error::Error>>(())
/// ```
#[derive(Clone, Copy, Debug, PartialEq, Eq, Hash)]
pub enum Killed {
    /// No reference was held, and this call has called `on_last`.
    AtZero,
    /// A reference was held. Another call calls `on_last`, perhaps even before this call returns; or none does, if `resurrect` comes first.
    WhileHeld,
}

/// The result of [`Gate::resurrect`](crate::Gate::resurrect).
///
/// ```
/// use percpu_gate::{Gate, Revived, Start};
/// use std::sync::Arc;
///
/// let mut gate = Gate::new(1, 1, Start::Dead, [0; 8], Arc::new(|| {}))?;
/// assert_eq!(gate.resurrect()?, Revived::FromZero);
/// # Ok::<(), Box<dyn std::error::Error>>(())
/// ```
#[derive(Clone, Copy, Debug, PartialEq, Eq, Hash)]
pub enum Revived {
    /// The gate had reached zero. An earlier call made the release; its `on_last` may still be running.
    FromZero,
    /// A reference was still held, or a refused try was in flight. The kill that ends here has no release.
    WhileHeld,
}

/// The phase of a gate.
///
/// ```
/// use percpu_gate::{Gate, Phase, Start};
/// use std::sync::Arc;
///
/// let mut gate = Gate::new(1, 1, Start::Slots, [0; 8], Arc::new(|| {}))?;
/// assert_eq!(gate.phase(), Phase::LiveOnSlots);
/// gate.kill()?;
/// assert_eq!(gate.phase(), Phase::Dead);
/// # Ok::<(), Box<dyn std::error::Error>>(())
/// ```
#[derive(Clone, Copy, Debug, PartialEq, Eq, Hash)]
pub enum Phase {
    /// Live, counting on slots.
    LiveOnSlots,
    /// Live, counting only on the shared word.
    LiveAtomic,
    /// Killed or started dead, and not revived since.
    Dead,
}

/// The last state of a gate that has ended.
///
/// ```
/// use percpu_gate::{Gate, Start};
/// use std::sync::Arc;
///
/// let mut gate = Gate::new(1, 1, Start::Slots, [5; 8], Arc::new(|| {}))?;
/// gate.kill()?;
/// let last = gate.exit()?;
/// assert!(last.dead);
/// assert_eq!((last.kills, last.releases, last.words), (1, 1, [5; 8]));
/// # Ok::<(), Box<dyn std::error::Error>>(())
/// ```
#[derive(Clone, Copy, Debug, PartialEq, Eq, Hash)]
pub struct Final {
    /// Whether the gate was dead.
    pub dead: bool,
    /// Number of kills.
    pub kills: u64,
    /// Number of calls of `on_last`.
    pub releases: u64,
    /// The guarded words.
    pub words: [u64; WORD_COUNT],
}

impl From<erased::Final<WORD_COUNT>> for Final {
    fn from(left: erased::Final<WORD_COUNT>) -> Final {
        Final { dead: left.dead, kills: left.kills, releases: left.releases, words: left.words }
    }
}
