//! Calls that can return Memory, with sizes that are the greatest in several respects at once: with memory at hand none of them may give up.
//! A call that does so above some size keeps its contract.

use blkq::erased::blk_script::{Checked, Script, parse, push_disk, render_disk, run_alone};
use blkq::erased::blk_workers::{Config, NoStall, Ran, run_checked};
use blkq::erased::gate_replay::replay_text;
use std::fmt::Write;

fn script(text: &str) -> Script {
    parse(text.as_bytes()).unwrap()
}

/// Runs a script on this many workers, with this many tags.
fn ran(script: &Script, workers: u32, tags: u32) -> Ran {
    run_checked(&Checked::of(script).unwrap(), Config::new(workers, 2, tags).unwrap(), &NoStall).unwrap()
}

/// Reads of the whole disk in as many pieces as it has sectors, in which each byte is a run: more than 128 MiB of replies.
#[test]
fn the_longest_replies() {
    let pattern: String = (0..64).map(|byte| format!("{byte:02x}")).collect();
    let reads = "read 0 4096\n".repeat(14);
    let script = script(&format!("blkq 1\ndisk 4096 hw 1\nwrite 0 4096 {pattern}\nstat\n{reads}stat\n"));
    let Ran { replies: mut out, disk, .. } = ran(&script, 2, 16);
    let before = out.len();
    assert!(before > 1 << 27);
    push_disk(&mut out, &disk).unwrap();
    assert!(render_disk(&disk).unwrap() == out[before..]);
    assert!(run_alone(&script).unwrap() == out);
}

/// As many reads of the whole disk as there are tags, again and again.
#[test]
fn as_many_of_the_largest_reads_as_tags() {
    let script = script(&format!("blkq 1\ndisk 4096 hw 65535\n{}", "read 0 4096\n".repeat(200)));
    for (workers, tags) in [(2, 33), (32, 63)] {
        let replies: String = (3..203).map(|line| format!("{line} ok 4096 00*2097152\n")).collect();
        assert!(ran(&script, workers, tags).replies == replies.as_bytes(), "{tags} tags");
    }
}

/// A world of the greatest sizes, however it starts.
#[test]
fn the_greatest_worlds() {
    for (start, front, shown) in [("slots", 0, "live 281474976710657"), ("atomic", 0, "live 1"), ("dead", 1, "zero 0")]
    {
        let text = format!("gate 1\nworld 64 64 {start} 0 1 2 3 4 5 6 7 8\n63 front\n");
        let wanted = format!("{front}\nend {shown} front {front} kills 0 releases 0 held 0\n");
        assert_eq!(String::from_utf8_lossy(replay_text(text.as_bytes()).unwrap().text()), wanted);
    }
}

/// A pass takes as much as it can hold on one slot and gives it on the other, until the deltas are close to their ends.
#[test]
fn the_greatest_deltas() {
    const MOST: i64 = 65_535;
    let mut text = String::from("gate 1\nworld 2 1 slots 0\n");
    let mut wanted = String::new();
    for delta in (0..16).map(|round| round * MOST) {
        writeln!(text, "0 take 0 {delta} 1\n0 take 0 {} {}\n0 give 1 -{delta} {MOST}", delta + 1, MOST - 1).unwrap();
        writeln!(text, "0 look 0\n0 look 1").unwrap();
        let after = delta + MOST;
        writeln!(wanted, "won\nwon\nwon\nopen {after}\nopen -{after}").unwrap();
    }
    text.push_str("c dead\nc close\nc close\n");
    wanted.push_str("ok\nclosed 1048560\nclosed -1048560\n");
    let replay = replay_text(text.as_bytes()).unwrap();
    let shown = String::from_utf8_lossy(replay.text());
    assert!(shown.starts_with(&wanted), "{shown}");
}
