// Erased from crates/blk_script/src/run.rt by tools/erase: edit that file.
//! A script on one thread, from its lines to the text of its replies.

use crate::erased::blk_script::machine::Machine;
use crate::erased::blk_script::rendering::{push_disk, push_line};
use crate::erased::line_text::ScriptFault;
use crate::erased::script_meaning::Script;

/// Returns what a script's run on one thread writes: a line for each line that asks something, and then the line of the disk.
/// Requests that overlap are done in the order of their lines. `Memory` is the only fault.
pub fn run_alone(script: &Script) -> Result<Vec<u8>, ScriptFault> {
    let mut machine = Machine::new(script)?;
    let mut out = Vec::new();
    for line in script.lines() {
        let reply = machine.reply(&line.what)?;
        push_line(&mut out, line.number, &reply)?;
    }
    push_disk(&mut out, &machine.disk)?;
    Ok(out)
}
