//! The tasks that the program's words ask for. tests/rows has the words that it refuses.

use crate::driver::words;
use blkq::erased::blk_workers::Config;
use blkq::erased::blkq_run::{Task, requested};

#[test]
fn runs() {
    let rows = [
        ("run", (4, 8, 16)),
        ("run 1 1 1", (1, 1, 1)),
        ("run 32 64 63", (32, 64, 63)),
        ("run 0004 8 16", (4, 8, 16)),
        ("run 00000000000000000001 2 3", (1, 2, 3)),
    ];
    for (line, (workers, slots, tags)) in rows {
        let request = requested(&words(line));
        let config = Config::new(workers, slots, tags).unwrap();
        assert_eq!(request, Task::Run(config), "{line}");
        assert_eq!((config.workers(), config.slots(), config.tags()), (workers, slots, tags));
    }
}

#[test]
fn replays() {
    assert_eq!(requested(&words("replay")), Task::Replay);
}
