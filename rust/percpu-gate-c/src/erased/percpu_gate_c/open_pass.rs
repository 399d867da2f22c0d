// Erased from crates/percpu_gate_c/src/open_pass.rt by tools/erase: edit that file.
//! The box of an open pass handle.

use crate::erased::c_answers::{DrawnNumber, Misuse};
use crate::erased::percpu_gate::{Gate, HELD_LIMIT, Pass, Put, Tried};
use crate::erased::pointers::Arc;

/// The guarded words of each gate.
pub const WORDS: usize = 8;

/// A pass with its gate, and the gate's unique number.
///
/// 128 unused bytes before and after what calls write keep the boxes of different threads from sharing 128 bytes.
#[repr(C)]
pub struct OpenPass {
    before: [u64; 8],
    gate: Arc<Gate<WORDS>>,
    number: DrawnNumber,
    pass: Pass<WORDS>,
    after: [u64; 8],
}

impl OpenPass {
    /// A pass of this gate.
    ///
    /// # Preconditions
    ///
    /// - `pass` belongs to `gate`.
    pub fn new(gate: Arc<Gate<WORDS>>, number: DrawnNumber, pass: Pass<WORDS>) -> OpenPass {
        OpenPass { before: [0; 8], gate, number, pass, after: [0; 8] }
    }

    /// The misuse of a slot that the gate doesn't have.
    fn refuse_slot(&self, slot: u32) -> Result<(), Misuse> {
        if slot < self.gate.slots() { Ok(()) } else { Err(Misuse::Slot) }
    }

    fn refuse_take(&self, slot: u32) -> Result<(), Misuse> {
        self.refuse_slot(slot)?;
        if self.pass.held() < HELD_LIMIT { Ok(()) } else { Err(Misuse::HeldFull) }
    }

    /// Takes a reference unless the gate has reached zero. Refuses with Slot or HeldFull.
    pub fn try_get(&mut self, slot: u32) -> Result<Tried, Misuse> {
        self.refuse_take(slot)?;
        Ok(self.pass.try_get(&self.gate, slot))
    }

    /// Takes a reference unless the gate was killed. Refuses with Slot or HeldFull.
    pub fn try_get_live(&mut self, slot: u32) -> Result<Tried, Misuse> {
        self.refuse_take(slot)?;
        Ok(self.pass.try_get_live(&self.gate, slot))
    }

    /// Takes `n` more references. Refuses with Slot, NotHeld, Amount or HeldFull.
    pub fn get(&mut self, slot: u32, n: u32) -> Result<(), Misuse> {
        self.refuse_slot(slot)?;
        let held = self.pass.held();
        if held == 0 {
            return Err(Misuse::NotHeld);
        }
        if n == 0 {
            return Err(Misuse::Amount);
        }
        if n > HELD_LIMIT - held {
            return Err(Misuse::HeldFull);
        }
        self.pass.get(&self.gate, slot, n);
        Ok(())
    }

    /// Drops `n` references. Refuses with Slot, Amount or NotHeld.
    pub fn put(&mut self, slot: u32, n: u32) -> Result<Put, Misuse> {
        self.refuse_slot(slot)?;
        if n == 0 {
            return Err(Misuse::Amount);
        }
        if n > self.pass.held() {
            return Err(Misuse::NotHeld);
        }
        Ok(self.pass.put(&self.gate, slot, n))
    }

    /// The front. Never refused.
    pub fn front(&mut self) -> Result<u64, Misuse> {
        Ok(self.pass.front(&self.gate))
    }

    /// Whether the gate was killed.
    pub fn is_dying(&mut self) -> bool {
        self.pass.is_dying(&self.gate)
    }

    /// Whether the count has reached zero.
    pub fn is_zero(&mut self) -> bool {
        self.pass.is_zero(&self.gate)
    }

    /// A guarded word. Refuses with NotHeld or Word.
    pub fn word(&mut self, k: u32) -> Result<u64, Misuse> {
        if self.pass.held() == 0 {
            return Err(Misuse::NotHeld);
        }
        if k as usize >= WORDS {
            return Err(Misuse::Word);
        }
        Ok(self.pass.word(&self.gate, k))
    }

    /// The number of its gate.
    pub fn number(&self) -> DrawnNumber {
        self.number
    }

    /// The references that it holds.
    pub fn held(&self) -> u32 {
        self.pass.held()
    }

    /// The pass alone.
    pub fn into_pass(self) -> Pass<WORDS> {
        self.pass
    }
}
