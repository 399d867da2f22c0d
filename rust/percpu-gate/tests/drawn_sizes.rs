//! Runs gates of random sizes, drawn in all dimensions at once, through several lives. While memory is free, none returns `NoMemory`. A call
//! that returns it above some size would pass every other test. `DRAWN_SIZES` is the number of draws, and `DRAWN_FROM` the first seed.
use percpu_gate::{Gate, Pass, Start};
use std::env;
use std::sync::Arc;

/// Pseudorandom numbers: Marsaglia's xorshift.
struct Sizes(u64);

impl Sizes {
    fn below(&mut self, limit: u32) -> u32 {
        self.0 ^= self.0 << 13;
        self.0 ^= self.0 >> 7;
        self.0 ^= self.0 << 17;
        u32::try_from(self.0 >> 33).unwrap() % limit
    }

    /// A size; each magnitude is equally likely.
    fn size(&mut self, least: u32, most: u32) -> u32 {
        let magnitudes = u32::BITS - (most - least).leading_zeros();
        let more = match self.below(magnitudes + 2) {
            0 => 0,
            bits if bits > magnitudes => most - least,
            bits => (1 << (bits - 1)) + self.below(1 << (bits - 1)),
        };
        least + more.min(most - least)
    }
}

fn number_of(name: &str, otherwise: u64) -> u64 {
    env::var(name).map_or(otherwise, |text| text.parse().expect("a number"))
}

/// Runs a gate from its making to its end. Each pass is given out, and some take a reference in each life.
fn gate(sizes: &mut Sizes) {
    let (slots, passes) = (sizes.size(1, Gate::MAX_SLOTS), sizes.size(1, Gate::MAX_PASSES));
    let start = [Start::Slots, Start::Atomic, Start::Dead][sizes.below(3) as usize];
    let mut gate = Gate::new(slots, passes, start, [7; 8], Arc::new(|| {})).expect("memory");
    let all: Vec<Pass> = (0..passes).map(|pass| gate.next_pass(pass % slots).expect("a pass")).collect();
    if start == Start::Dead {
        gate.reinit().expect("a dead gate");
    }
    let lives = sizes.size(0, 20);
    for _ in 0..lives {
        let holding = sizes.size(0, passes) as usize;
        let held: Vec<_> = all[..holding].iter().map(|pass| pass.try_get_live().expect("a live gate")).collect();
        gate.kill().expect("a live gate");
        drop(held);
        gate.reinit().expect("a gate at zero");
    }
    for pass in all {
        gate.retire(pass).expect("a pass that holds nothing");
    }
    assert_eq!(gate.exit().expect("each pass is retired").kills, u64::from(lives));
}

#[test]
fn gates() {
    let first = number_of("DRAWN_FROM", 0);
    for seed in first..first + number_of("DRAWN_SIZES", 1_500) {
        gate(&mut Sizes(2 * seed + 1));
    }
}
