// Erased from crates/blkq/src/main.rt by tools/erase: edit that file.
//! A block request queue in front of a disk in memory.
//!
//! The program reads a script of requests from standard input, and writes the queue's reply to each of its lines and then the disk
//! that they leave. Or it reads a schedule, which is a gate's atomic steps one after another, and writes the reply to each.
//! `blkq_run` does all of this over any reader and writers; this file gives it the words after the program's name and the standard
//! streams.

use blkq::erased::blkq_run::{command, refuse_words};
use blkq::erased::counted_io::Counted;
use blkq::erased::fallible::TryCollect;
use blkq::erased::{env, streams};
use std::io;
use std::process::ExitCode;

/// Returns the words after the program's name.
fn words() -> io::Result<Vec<String>> {
    Ok(env::args()?.skip(1).try_collected()?)
}

fn main() -> ExitCode {
    let (mut reader, mut writer) = (Counted::new(streams::stdin()), Counted::new(streams::stdout()));
    let mut errors = streams::stderr();
    ExitCode::from(match words() {
        Ok(args) => command(&args, &mut reader, &mut writer, &mut errors),
        Err(why) => refuse_words(&mut errors, &why),
    })
}
