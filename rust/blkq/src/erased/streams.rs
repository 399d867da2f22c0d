// A stand-in for the kit's standard streams, written by hand: tools/erase leaves it alone.
//! The standard streams, with nothing kept back: each call is one of the system. Rust's own keep bytes back, so a caller
//! can't count what went out, and ask for memory that can't be refused.

use crate::erased::pointers::open_stream;
use std::fmt::Display;
use std::fs::File;
use std::io::{IsTerminal as _, Read, Result, Write};
use std::mem::ManuallyDrop;

/// A standard stream, which is never closed.
#[derive(Debug)]
pub struct Stream(ManuallyDrop<File>);

/// Standard input.
pub fn stdin() -> Stream {
    Stream(open_stream(0))
}

/// Standard output.
pub fn stdout() -> Stream {
    Stream(open_stream(1))
}

/// Standard error.
pub fn stderr() -> Stream {
    Stream(open_stream(2))
}

/// What may be a terminal: Rust's trait is for Rust's own types alone.
pub trait IsTerminal {
    /// Whether it is one.
    fn is_terminal(&self) -> bool;
}

impl IsTerminal for Stream {
    fn is_terminal(&self) -> bool {
        self.0.is_terminal()
    }
}

impl Read for Stream {
    fn read(&mut self, room: &mut [u8]) -> Result<usize> {
        self.0.read(room)
    }
}

impl Write for Stream {
    fn write(&mut self, text: &[u8]) -> Result<usize> {
        self.0.write(text)
    }

    fn flush(&mut self) -> Result<()> {
        Ok(())
    }
}

/// A line, written at once.
pub trait WriteLine: Write {
    /// Writes what is displayed, and a newline.
    fn writeln(&mut self, line: impl Display) -> Result<()> {
        writeln!(self, "{line}")
    }
}

impl<W: Write> WriteLine for W {}
