//! Tests on which slot a call of a pass counts, which a kill by hand shows: in each life of a gate, for all amounts, and while the
//! slots are closed one after the other.

use blkq::erased::percpu_gate::Put::Last;
use blkq::erased::percpu_gate::{Control, Gate, HELD_LIMIT, Pass, Start, Tried};

/// The greatest distance of a slot's delta from 0.
const MOST_DELTA: i64 = 1 << 20;

/// Numbers drawn by a generator.
struct Draws(u64);

impl Draws {
    /// Returns a number below this.
    fn below(&mut self, limit: u32) -> u32 {
        self.0 = self.0.wrapping_mul(6_364_136_223_846_793_005).wrapping_add(1_442_695_040_888_963_407);
        ((u64::from((self.0 >> 32) as u32) * u64::from(limit)) >> 32) as u32
    }

    /// Returns a number from 1 to this; each magnitude is equally likely.
    fn amount(&mut self, most: u32) -> u32 {
        let bits = self.below(17);
        1 + self.below((1 << bits).min(most))
    }
}

/// The expected count of each open slot.
struct Counts(Vec<Option<i64>>);

impl Counts {
    fn open(slots: u32) -> Counts {
        Counts(vec![Some(0); slots as usize])
    }

    /// Counts this much on a slot that is open and has room.
    fn add(&mut self, slot: u32, amount: i64) {
        if let Some(count) = &mut self.0[slot as usize] {
            let sum = *count + amount;
            if sum.abs() <= MOST_DELTA {
                *count = sum;
            }
        }
    }

    /// How much more can be counted on a slot, up or down; nothing on a closed slot.
    fn room(&self, slot: u32, sign: i64) -> u32 {
        self.0[slot as usize].map_or(0, |count| (MOST_DELTA - sign * count) as u32)
    }
}

/// Chooses how many references to take or drop: all, those for which the slot has room, one more than that, or any number.
fn amount(most: u32, room: u32, draws: &mut Draws) -> u32 {
    match draws.below(4) {
        0 => most,
        1 => (room + draws.below(2)).clamp(1, most),
        _ => draws.amount(most),
    }
}

/// Makes one call of a pass on this slot, if its condition is met.
fn call(gate: &Gate<0>, pass: &mut Pass<0>, slot: u32, draws: &mut Draws, counts: &mut Counts) {
    let held = pass.held();
    match draws.below(6) {
        0 if held < HELD_LIMIT => {
            assert_eq!(pass.try_get(gate, slot), Tried::Given);
            counts.add(slot, 1);
        }
        // A kill that has begun refuses it if the slot doesn't give.
        1 if held < HELD_LIMIT && counts.room(slot, 1) > 0 => {
            assert_eq!(pass.try_get_live(gate, slot), Tried::Given);
            counts.add(slot, 1);
        }
        2 if held > 0 && 2 * held <= HELD_LIMIT => {
            pass.get(gate, slot, held);
            counts.add(slot, i64::from(held));
        }
        3 if held > 0 && held < HELD_LIMIT => {
            let more = amount(HELD_LIMIT - held, counts.room(slot, 1), draws);
            pass.get(gate, slot, more);
            counts.add(slot, i64::from(more));
        }
        4 | 5 if held > 1 => {
            let fewer = amount(held - 1, counts.room(slot, -1), draws);
            let _put = pass.put(gate, slot, fewer);
            counts.add(slot, -i64::from(fewer));
        }
        _ => {}
    }
}

/// Makes calls of all passes, which mostly take on one slot and drop on another, so that the slots' counts drift far apart.
fn calls(gate: &Gate<0>, passes: &mut [Pass<0>], number: u32, draws: &mut Draws, counts: &mut Counts) {
    let slots = gate.slots();
    let two = [draws.below(slots), draws.below(slots)];
    for _ in 0..number {
        let pass = &mut passes[draws.below(3) as usize];
        let held = pass.held();
        let slot = match draws.below(8) {
            0 => draws.below(slots),
            _ => two[usize::from(held > HELD_LIMIT / 2)],
        };
        call(gate, pass, slot, draws, counts);
    }
}

/// Kills the gate step by step. Closing a slot returns what was counted there.
fn kill(gate: &Gate<0>, control: &mut Control<0>, passes: &mut [Pass<0>], draws: &mut Draws, counts: &mut Counts) {
    let slots = gate.slots();
    assert_eq!(control.mark_dead(gate), Ok(slots));
    for slot in 0..slots {
        calls(gate, passes, 4, draws, counts);
        let counted = counts.0[slot as usize].take();
        assert_eq!(Some(control.close_next(gate)), counted, "slot {slot} of {slots}");
    }
    control.collect(gate);
    let front = control.confirm(gate);
    for pass in passes.iter_mut() {
        assert_eq!(pass.front(gate), front);
    }
    let _base = control.drop_base(gate);
    let last = passes.iter_mut().filter(|pass| pass.held() > 0).map(|pass| {
        let held = pass.held();
        pass.put(gate, draws.below(slots), held)
    });
    assert_eq!(last.filter(|put| *put == Last).count(), 1);
    assert_eq!(control.reinit(gate), Ok(()));
}

#[test]
fn each_call_counts_on_its_slot_in_each_life() {
    for (seed, slots) in [1, 2, 3, 8, 64, 512].into_iter().cycle().take(24).enumerate() {
        let mut draws = Draws(seed as u64);
        let (gate, mut control, mut passes) = Gate::<0>::new(slots, 3, Start::Slots, []).unwrap();
        for _life in 0..6 {
            let mut counts = Counts::open(slots);
            for pass in &mut passes {
                assert_eq!(pass.try_get_live(&gate, slots - 1), Tried::Given);
                counts.add(slots - 1, 1);
            }
            calls(&gate, &mut passes, 1_000, &mut draws, &mut counts);
            assert_eq!(control.switch_to_slots(&gate), Ok(()));
            if draws.below(4) == 0 {
                assert_eq!([control.switch_to_atomic(&gate), control.switch_to_slots(&gate)], [Ok(()), Ok(())]);
                counts = Counts::open(slots);
                calls(&gate, &mut passes, 1_000, &mut draws, &mut counts);
            }
            kill(&gate, &mut control, &mut passes, &mut draws, &mut counts);
        }
    }
}
