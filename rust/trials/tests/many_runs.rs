//! Makes very many runs in one process. It measures the process, so it is the only test here.

use blkq::erased::blk_workers::{Config, NoStall};
use blkq::erased::blkq_run::run_bytes;
use blkq::erased::counted_io::Counted;
use std::fs;

/// The row split_by_both.
const SCRIPT: &[u8] = b"blkq 1\ndisk 16 hw 8\nset max_sectors 4\nset chunk_sectors 8\nwrite 6 6 61\n";
const ANSWER: &[u8] = b"3 ok\n4 ok\n5 ok 2+4\ndisk 00*3072,61*3072,00*2048\n";

/// The KiB of this process that are in memory. The sum of its maps is exact; on a Linux without it `statm` is within some pages
/// for each processor.
fn resident() -> u64 {
    if let Ok(told) = fs::read_to_string("/proc/self/smaps_rollup") {
        let sum = told.lines().find_map(|line| line.strip_prefix("Rss:")).unwrap();
        return sum.trim().trim_end_matches(" kB").parse().unwrap();
    }
    let numbers = fs::read_to_string("/proc/self/statm").unwrap();
    4 * numbers.split_whitespace().nth(1).unwrap().parse::<u64>().unwrap()
}

fn run_again(times: u32) {
    for _ in 0..times {
        let mut answer = Vec::new();
        let config = Config::new(2, 2, 2).unwrap();
        let answered = run_bytes(&mut Counted::new(SCRIPT), &mut Counted::new(&mut answer), config, &NoStall);
        assert_eq!((answered, answer.as_slice()), (Ok(()), ANSWER));
    }
}

/// After 10,000 more runs a process has as many KiB in memory as before, but for fewer than 200: less than one block of 24 bytes for each
/// run. A block that each run left would do so in each of ten spans. The stacks and heaps of more threads at once than ever before, some
/// of which are about to end, grow it in one of them.
#[test]
fn many_runs_leave_nothing() {
    let mut spans = vec![];
    run_again(1_000);
    let mut before = resident();
    for _ in 0..10 {
        run_again(10_000);
        let after = resident();
        spans.push(after.saturating_sub(before));
        if after.saturating_sub(before) < 200 {
            return;
        }
        before = after;
    }
    panic!("{spans:?} KiB more");
}
