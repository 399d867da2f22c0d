//! Calls that can return Memory, with sizes that are drawn over all their dimensions at once: with memory at hand none of them may give up.
//! A call that does so above some size keeps its contract. `DRAWN_TIMES` is how many times its usual number of draws each test has, or
//! `DRAWN_SIZES` that number; `DRAWN_FROM` is the first of their seeds.

mod disks;
mod gates;
mod handing;
mod lines;
mod schedules;
mod scripts;
mod texts;
mod uses;

#[path = "../shared/mod.rs"]
mod shared;
use shared::Numbers;

use std::env;
use std::thread;

/// Sizes of one draw. Each magnitude comes as often as any other, and so does the greatest size.
struct Sizes {
    numbers: Numbers,
    seed: u64,
}

impl Sizes {
    /// A size from `least` to `most`.
    fn size(&mut self, least: u64, most: u64) -> u64 {
        let magnitudes = u64::BITS - (most - least).leading_zeros();
        let bits = self.numbers.below(u64::from(magnitudes) + 2) as u32;
        let more = match bits {
            0 => 0,
            _ if bits > magnitudes => most - least,
            _ => 1 << (bits - 1) | self.numbers.next() & ((1 << (bits - 1)) - 1),
        };
        least + more.min(most - least)
    }

    fn small(&mut self, least: u32, most: u32) -> u32 {
        self.size(least.into(), most.into()) as u32
    }

    fn count(&mut self, least: usize, most: usize) -> usize {
        self.size(least as u64, most as u64) as usize
    }

    /// One of these.
    fn one_of<T: Copy>(&mut self, all: &[T]) -> T {
        all[self.numbers.below(all.len() as u64) as usize]
    }

    fn bytes(&mut self, count: usize) -> Vec<u8> {
        (0..count).map(|_| self.numbers.next() as u8).collect()
    }
}

/// So that a failure names its draw.
impl Drop for Sizes {
    fn drop(&mut self) {
        if thread::panicking() {
            eprintln!("DRAWN_SIZES=1 DRAWN_FROM={} draws it again", self.seed);
        }
    }
}

fn number_of(name: &str, otherwise: u64) -> u64 {
    env::var(name).map_or(otherwise, |text| text.parse().expect("a number"))
}

/// Makes calls by the sizes of one draw after another.
fn draw(usual: u64, calls: impl Fn(&mut Sizes)) {
    let first = number_of("DRAWN_FROM", 0);
    for seed in first..first + number_of("DRAWN_SIZES", usual * number_of("DRAWN_TIMES", 1)) {
        let mut sizes = Sizes { numbers: Numbers::from(seed), seed };
        sizes.bytes(8); // seeds that are close begin alike
        calls(&mut sizes);
    }
}

/// Each magnitude comes about as often as each other, and so does the greatest size.
#[test]
fn sizes_of_each_magnitude() {
    let mut seen = [0_u32; 12];
    let mut sizes = Sizes { numbers: Numbers::from(1), seed: 1 };
    for _ in 0..12_000 {
        let size = sizes.size(1, 1_023);
        assert!((1..=1_023).contains(&size));
        seen[(u64::BITS - (size - 1).leading_zeros()) as usize] += 1;
        seen[11] += u32::from(size == 1_023);
    }
    assert!(seen.iter().all(|times| *times > 800), "{seen:?}");
}
