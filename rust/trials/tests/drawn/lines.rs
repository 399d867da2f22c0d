//! Scripts with more lines than a text has room for, which a caller puts together.

use crate::{Sizes, draw};
use blkq::erased::blk_script::{
    Checked, Line, Mode, Pattern, Script, Version, What, check, drains, push_disk, run_alone,
};
use blkq::erased::blk_workers::{Config, MOST_SLOTS, MOST_TAGS, MOST_WORKERS, NoStall, run, run_checked};

const MOST_LINES: usize = 300_000;

/// A number of lines. Three of four are small, so that many draws take little time.
fn count_of(sizes: &mut Sizes) -> usize {
    let most = sizes.one_of(&[1_000, 1_000, 1_000, MOST_LINES]);
    sizes.count(1, most)
}

fn write(start: u32, byte: u8) -> What {
    What::Write { start, count: 1, pattern: Pattern::new(&[byte]).unwrap() }
}

fn read(start: u32) -> What {
    What::Read { start, count: 1 }
}

/// What a line asks: mostly a thaw, so that very many take little time.
fn asked(sizes: &mut Sizes, disk: u32) -> fn(u32) -> What {
    match sizes.numbers.below(512) {
        0 => |_| What::Freeze,
        1 => |_| What::SetMax(3),
        2 => |_| What::SetMode(Mode::Atomic),
        3 => |_| What::SetMode(Mode::Slots),
        4 => |_| What::Stat,
        5 => |at| write(at % 8, at as u8),
        6 | 7 if disk > 8 => |_| read(8),
        8 => |at| read(at % 8),
        _ => |_| What::Thaw,
    }
}

fn script(disk: u32, asked: impl Iterator<Item = What>) -> Script {
    let lines = (1..).zip(asked).map(|(number, what)| Line { number, what }).collect();
    Script::new(Version::Two, disk, 8, lines)
}

/// A script of any number of lines, some of which come again and again, runs as on one thread, by each call that runs it.
#[test]
fn scripts_of_any_length() {
    draw(200, |sizes| {
        let (disk, count) = (sizes.small(8, 64), count_of(sizes));
        let lines: Vec<_> = (0..sizes.count(1, 1_000)).map(|_| asked(sizes, disk)).collect();
        let script = script(disk, (0..).zip(lines.iter().cycle()).map(|(at, line)| line(at)).take(count));
        check(&script).unwrap();
        let shape = (sizes.small(1, MOST_WORKERS), sizes.small(1, MOST_SLOTS), sizes.small(1, MOST_TAGS));
        let config = Config::new(shape.0, shape.1, shape.2).unwrap();
        let ran = match sizes.numbers.below(2) {
            0 => run(&script, config, &NoStall).unwrap(),
            _ => run_checked(&Checked::of(&script).unwrap(), config, &NoStall).unwrap(),
        };
        let mut text = ran.replies;
        push_disk(&mut text, &ran.disk).unwrap();
        assert!(text == run_alone(&script).unwrap());
    });
}

/// Writes of one sector, with up to three reads behind each: of any number of requests, each write is ordered but the first, and each read behind a
/// write.
#[test]
fn ordered_requests_of_any_number() {
    draw(200, |sizes| {
        let (count, reads) = (count_of(sizes), sizes.count(0, 3));
        let is_write = |at: usize| at % (reads + 1) == 0;
        let script = script(1, (0..count).map(|at| if is_write(at) { write(0, at as u8) } else { read(0) }));
        let is_ordered = |at: &usize| is_write(*at) || is_write(*at - 1);
        let expected: Vec<u32> = (1..count).filter(is_ordered).map(|at| at as u32 + 1).collect();
        assert!(drains(&script).unwrap() == expected);
        let checked = Checked::of(&script).unwrap();
        assert!(checked.drains().unwrap() == expected && checked.accepted() == count);
    });
}
