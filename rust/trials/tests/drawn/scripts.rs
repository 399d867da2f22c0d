//! Scripts, and their runs on one thread and on several.

use crate::{Sizes, draw};
use blkq::erased::blk_script::{ScriptFault, check, drains, parse, run_alone};
use blkq::erased::blk_workers::{Config, MOST_SLOTS, MOST_TAGS, MOST_WORKERS, NoStall};
use blkq::erased::blkq_run::run_bytes;
use blkq::erased::counted_io::Counted;
use blkq::erased::script_overlap::Checked;
use std::fmt::Write;

const LONGEST: usize = 1 << 20;

/// A line, and the bytes of its reply at most.
fn line(sizes: &mut Sizes, disk: u32) -> (String, u64) {
    let start = sizes.small(0, disk - 1);
    let count = sizes.small(1, disk - start);
    match sizes.numbers.below(12) {
        0..=3 => (format!("read {start} {count}\n"), 512 * 8 * u64::from(count)),
        4..=7 => {
            let length = sizes.count(1, 64);
            let digits: String = sizes.bytes(length).iter().map(|byte| format!("{byte:02x}")).collect();
            (format!("write {start} {count} {digits}\n"), 8 * u64::from(count))
        }
        8 => ("freeze\n".into(), 16),
        9 => ("thaw\n".into(), 16),
        10 => (format!("set max_sectors {}\n", sizes.small(0, 65_535)), 16),
        _ => (format!("mode {}\n", sizes.one_of(&["atomic", "slots"])), 16),
    }
}

/// A script whose replies have so many bytes at most: up to 100 MiB.
fn script(sizes: &mut Sizes) -> String {
    let (version, disk) = (sizes.small(1, 2), sizes.small(1, 4_096));
    let mut text = format!("blkq {version}\ndisk {disk} hw {}\n", sizes.small(1, 65_535));
    let (lines, mut replies) = (sizes.count(0, 100_000), sizes.size(1 << 10, 100 << 20));
    for _ in 0..lines {
        let (line, reply) = line(sizes, disk);
        if text.len() + line.len() > LONGEST || reply > replies {
            break;
        }
        replies -= reply;
        write!(text, "{line}").unwrap();
    }
    text
}

/// On several threads a script is answered as on one, and refused for its overlaps alone.
#[test]
fn scripts() {
    draw(900, |sizes| {
        let text = script(sizes);
        let script = parse(text.as_bytes()).unwrap();
        let expected = match check(&script) {
            Ok(()) => Some(run_alone(&script).unwrap()),
            Err(ScriptFault::Overlap(_)) => None,
            Err(fault) => panic!("{fault}"),
        };
        assert!(drains(&script).unwrap().len() <= text.len());
        let shape = (sizes.small(1, MOST_WORKERS), sizes.small(1, MOST_SLOTS), sizes.small(1, MOST_TAGS));
        let (config, mut answer) = (Config::new(shape.0, shape.1, shape.2).unwrap(), vec![]);
        let ran = run_bytes(&mut Counted::new(text.as_bytes()), &mut Counted::new(&mut answer), config, &NoStall);
        assert_eq!(ran.is_ok(), expected.is_some(), "{ran:?}");
        assert!(answer == expected.unwrap_or_default());
    });
}

/// The lines before which a drain stands are returned however many lines there are, and however few of them are ordered.
#[test]
fn ordered_requests_among_others() {
    draw(300, |sizes| {
        let (ordered, others) = (sizes.count(0, 30_000), sizes.count(0, 100_000));
        let each = others / ordered.max(1);
        let between = "thaw\n".repeat(each);
        let disk = sizes.small(1, 4_096);
        let last = disk - 1;
        let mut text = format!("blkq 2\ndisk {disk} hw 1\nwrite {last} 1 01\n");
        for _ in 0..ordered {
            writeln!(text, "{between}write {last} 1 02").unwrap();
        }
        text += &"thaw\n".repeat(others - each * ordered);
        let expected: Vec<u32> = (1..=ordered).map(|nth| 3 + (nth * (each + 1)) as u32).collect();
        let script = parse(text.as_bytes()).unwrap();
        assert_eq!(drains(&script).unwrap(), expected);
        assert_eq!(Checked::of(&script).unwrap().drains().unwrap(), expected);
    });
}
