// Erased from crates/percpu_gate/src/gate.rt by tools/erase: edit that file.
//! A gate.

use crate::erased::fallible::{AllocError, TryVec};
use crate::erased::percpu_core::{Memory, PASS_LIMIT, Phase, SLOT_LIMIT, Start, WORD_LIMIT};
use crate::erased::percpu_gate::control::Control;
use crate::erased::percpu_gate::control_seat::ControlSeat;
use crate::erased::percpu_gate::exit::{ExitFault, Final};
use crate::erased::percpu_gate::pass::Pass;
use crate::erased::percpu_gate::rule::GateKey;
use crate::erased::percpu_gate::table::GateTable;
use alloc::vec::Vec;

/// A gate, its control and its passes.
pub type NewGate<const W: usize> = (Gate<W>, Control<W>, Vec<Pass<W>>);

/// A gate with `W` guarded words. Threads share it by reference, and count on it with their passes.
///
/// 128 unused bytes on each side keep the pointer to the words, which every call reads, off the cache lines of
/// neighbouring data.
#[repr(C)]
pub struct Gate<const W: usize> {
    before: [u64; 16],
    pub(crate) table: GateTable,
    after: [u64; 16],
}

/// Makes this many passes, from a control that has made none.
///
/// # Preconditions
///
/// - `seat` belongs to `table`.
/// - `seat.view.passes` is 0.
/// - `passes` is at most `PASS_LIMIT`.
fn make_passes<const W: usize>(
    seat: &mut ControlSeat,
    table: &GateTable,
    passes: u32,
) -> Result<Vec<Pass<W>>, AllocError> {
    debug_assert!(passes <= PASS_LIMIT);
    let mut made = Vec::try_with_room(passes as usize)?;
    for _ in 0..passes {
        made.try_push(Pass::new(seat.make_pass(table)))?;
    }
    Ok(made)
}

impl<const W: usize> Gate<W> {
    /// Returns a gate with this many slots (1 to 512), its control, and this many passes (1 to 1,024) that hold
    /// nothing. With `Start::Slots` the gate is live with its slots open, with `Start::Atomic` live with them closed,
    /// and with `Start::Dead` dead and at zero; then its slots open when it is revived. Returns `Memory` if an
    /// allocation was refused. Linux: `percpu_ref_init` (lib/percpu-refcount.c).
    ///
    /// # Preconditions
    ///
    /// - `W` is at most `WORD_LIMIT`.
    /// - `slots` is from 1 to `SLOT_LIMIT`.
    /// - `passes` is from 1 to `PASS_LIMIT`.
    pub fn new(slots: u32, passes: u32, start: Start, words: [u64; W]) -> Result<NewGate<W>, Memory> {
        debug_assert!(W <= WORD_LIMIT);
        debug_assert!(1 <= slots);
        debug_assert!(slots <= SLOT_LIMIT);
        debug_assert!(1 <= passes);
        debug_assert!(passes <= PASS_LIMIT);
        let (table, mut seat) = GateTable::new(&GateKey::new(slots, start, &words))?;
        let made = make_passes(&mut seat, &table, passes)?;
        let control = Control::new(seat, start, words, passes);
        let gate = Gate { before: [0; 16], table, after: [0; 16] };
        Ok((gate, control, made))
    }

    /// The number of slots: 1 to 512.
    #[inline]
    pub fn slots(&self) -> u32 {
        self.table.slots()
    }

    /// Ends a gate whose passes are all retired. Refuses with MidSwitch or PassesOut. Linux: `percpu_ref_exit`
    /// (lib/percpu-refcount.c).
    ///
    /// # Preconditions
    ///
    /// - `control` belongs to `self`.
    pub fn exit(self, control: Control<W>) -> Result<Final<W>, ExitFault<W>> {
        if let Some(why) = control.refuse_exit(control.passes()) {
            return Err(ExitFault { why, gate: self, control });
        }
        let ended = Final {
            dead: control.phase() == Phase::Dead,
            kills: control.kills(),
            releases: control.releases(),
            words: control.words(),
        };
        self.table.close(control.into_seat());
        Ok(ended)
    }
}
