//! Texts of schedules, and their replays.

use crate::{Sizes, draw};
use blkq::erased::gate_replay::{Replayed, parse_schedule, replay_text};
use std::fmt::Write;

const LONGEST: usize = 1 << 20;

/// A schedule of steps that are enabled in each live gate, and how many there are.
fn schedule(sizes: &mut Sizes) -> (String, usize) {
    let (slots, passes) = (sizes.small(1, 64), sizes.small(1, 64));
    let (start, kills) = (sizes.one_of(&["slots", "atomic", "dead"]), sizes.size(0, 1 << 40));
    let mut text = format!("gate 1\nworld {slots} {passes} {start} {kills}");
    for _ in 0..sizes.count(0, 8) {
        write!(text, " {}", sizes.size(0, u64::MAX)).unwrap();
    }
    text.push('\n');
    let (length, mut steps) = (sizes.count(text.len(), LONGEST), 0);
    while text.len() < length {
        let step = match sizes.numbers.below(4) {
            0 => format!("{} look {}\n", sizes.small(0, passes - 1), sizes.small(0, slots - 1)),
            1 => format!("{} shared\n", sizes.small(0, passes - 1)),
            2 => format!("{} front\n", sizes.small(0, passes - 1)),
            _ => "c shared\n".into(),
        };
        if text.len() + step.len() > LONGEST {
            break;
        }
        text.push_str(&step);
        steps += 1;
    }
    (text, steps)
}

#[test]
fn schedules() {
    draw(700, |sizes| {
        let (text, steps) = schedule(sizes);
        assert_eq!(parse_schedule(text.as_bytes()).unwrap().events.as_slice().len(), steps);
        let replay = replay_text(text.as_bytes()).unwrap();
        assert_eq!(replay.ended(), Replayed::Whole);
        assert_eq!(replay.text().iter().filter(|byte| **byte == b'\n').count(), steps + 1);
    });
}

/// The world of a schedule has the sizes and the guarded words of its line.
#[test]
fn worlds() {
    draw(5_000, |sizes| {
        let (slots, passes, kills) = (sizes.small(1, 64), sizes.small(1, 64), sizes.size(0, 1 << 40));
        let start = sizes.one_of(&["slots", "atomic", "dead"]);
        let values: Vec<u64> = (0..sizes.count(0, 8)).map(|_| sizes.size(0, u64::MAX)).collect();
        let mut line = format!("{slots} {passes} {start} {kills}");
        values.iter().for_each(|value| write!(line, " {value}").unwrap());
        let world = parse_schedule(format!("gate 1\nworld {line}\n").as_bytes()).unwrap();
        assert_eq!((world.slots, world.passes, world.kills), (slots, passes, kills));
        assert_eq!(format!("{:?}", world.start).to_lowercase(), start);
        assert_eq!(world.words.as_slice(), values);
    });
}
