//! Tests draining lines at the maximum depth, and one below and above it. A run that hangs there would keep its contract.

use blkq::erased::blk_workers::NoStall;

#[path = "shared/both_texts.rs"]
mod both_texts;
#[path = "shared/meeting.rs"]
mod meeting;
use both_texts::both_texts;
use meeting::ended;

/// After this many freezes: some of a `stat`, settings, a request, a freeze, thaws and a removal.
#[test]
fn each_line_at_the_greatest_depth() {
    const LINES: [&str; 9] = [
        "",
        "stat\n",
        "remove\n",
        "stat\nremove\nstat\n",
        "set max_sectors 2\nread 0 4\nstat\n",
        "mode atomic\nstat\nmode slots\n",
        "freeze\nstat\nthaw\nstat\n",
        "read 0 4\nwrite 1 1 7f\nremove\nread 0 1\n",
        "thaw\nfreeze\nfreeze\nremove\n",
    ];
    for depth in [1, 2, 998, 999, 1_000, 1_001] {
        for lines in LINES {
            let text = format!("blkq 2\ndisk 8 hw 4\nwrite 0 3 61\n{}{lines}", "freeze\n".repeat(depth));
            let ran = ended(move || both_texts(text.as_bytes(), [4, 2, 3], &NoStall));
            let [out, wanted] = ran.unwrap_or_else(|| panic!("it hangs at depth {depth}: {lines}"));
            assert!(out == wanted, "at depth {depth}: {lines}");
        }
    }
}

/// From the maximum depth back to a live queue that does its requests.
#[test]
fn a_queue_comes_back_from_the_greatest_depth() {
    let text = format!(
        "blkq 2\ndisk 8 hw 4\n{}{}write 0 3 61\nread 0 3\nstat\n",
        "freeze\n".repeat(1_000),
        "thaw\n".repeat(1_000)
    );
    let [out, wanted] = ended(move || both_texts(text.as_bytes(), [4, 2, 3], &NoStall)).expect("a run that ends");
    assert!(out == wanted && String::from_utf8_lossy(&out).contains("\n2004 ok 3 61*1536\n"));
}
