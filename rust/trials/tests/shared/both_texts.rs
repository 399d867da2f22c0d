//! The output of a run of a script, and that of one thread.

use blkq::erased::blk_script::{Checked, parse, push_disk, run_alone};
use blkq::erased::blk_workers::{Config, Stall, run_checked};

/// Returns the text of a run of a script with this many workers, slots and tags, and the text that one thread writes.
pub fn both_texts(text: &[u8], [workers, slots, tags]: [u32; 3], stall: &impl Stall) -> [Vec<u8>; 2] {
    let script = parse(text).expect("a script");
    let checked = Checked::of(&script).expect("no overlap");
    let config = Config::new(workers, slots, tags).expect("within the limits");
    let ran = run_checked(&checked, config, stall).expect("memory and threads");
    let mut out = ran.replies;
    push_disk(&mut out, &ran.disk).expect("memory");
    [out, run_alone(&script).expect("memory")]
}
