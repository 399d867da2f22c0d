//! A reader and a writer whose failures are chosen.
#![allow(dead_code)] // some tests choose less than others

use std::io::{self, Error, ErrorKind, Read, Write};

/// Some of what devices fail with. No kind but an interruption is a reason to try again, not even one that says
/// to try later or that memory is wanted.
pub const KINDS: [ErrorKind; 7] = [
    ErrorKind::Other,
    ErrorKind::BrokenPipe,
    ErrorKind::WouldBlock,
    ErrorKind::TimedOut,
    ErrorKind::UnexpectedEof,
    ErrorKind::OutOfMemory,
    ErrorKind::Interrupted,
];

/// Gives `rest`, at most `most` bytes a read, each read after `interruptions` that are left. Then each read
/// fails, or is at the end.
#[derive(Clone, Copy)]
pub struct Feed<'a> {
    pub rest: &'a [u8],
    pub most: usize,
    pub interruptions: u32,
    pub failure: Option<ErrorKind>,
    pub reads: u32,
}

impl<'a> Feed<'a> {
    /// Gives all of `rest` in one read, and is at its end then.
    pub fn new(rest: &'a [u8]) -> Self {
        Feed { rest, most: usize::MAX, interruptions: 0, failure: None, reads: 0 }
    }
}

impl Read for Feed<'_> {
    fn read(&mut self, buf: &mut [u8]) -> io::Result<usize> {
        self.reads = self.reads.saturating_add(1);
        if self.interruptions > 0 {
            self.interruptions -= 1;
            return Err(Error::from(ErrorKind::Interrupted));
        }
        if let (true, Some(kind)) = (self.rest.is_empty(), self.failure) {
            return Err(Error::from(kind));
        }
        let count = self.rest.len().min(buf.len()).min(self.most);
        let (now, later) = self.rest.split_at(count);
        buf[..count].copy_from_slice(now);
        self.rest = later;
        Ok(count)
    }
}

/// Takes at most `most` bytes a write and `room` in all, each write after `interruptions` that are left. Then
/// each write fails, or takes nothing.
pub struct Sink {
    pub taken: Vec<u8>,
    pub most: usize,
    pub room: usize,
    pub interruptions: u32,
    pub failure: Option<ErrorKind>,
    pub writes: u32,
}

impl Sink {
    /// Takes all.
    pub fn new() -> Self {
        Sink { taken: Vec::new(), most: usize::MAX, room: usize::MAX, interruptions: 0, failure: None, writes: 0 }
    }
}

impl Write for Sink {
    fn write(&mut self, buf: &[u8]) -> io::Result<usize> {
        self.writes = self.writes.saturating_add(1);
        if self.interruptions > 0 {
            self.interruptions -= 1;
            return Err(Error::from(ErrorKind::Interrupted));
        }
        if let (0, Some(kind)) = (self.room, self.failure) {
            return Err(Error::from(kind));
        }
        let count = buf.len().min(self.most).min(self.room);
        self.taken.extend_from_slice(&buf[..count]);
        self.room -= count;
        Ok(count)
    }

    fn flush(&mut self) -> io::Result<()> {
        Ok(())
    }
}
