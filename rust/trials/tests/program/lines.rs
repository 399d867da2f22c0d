//! The line on standard error, whole however its writer takes it: in pieces of any size, and interrupted before each. If the writer fails, what
//! it took by then is the line's beginning.

use crate::driver::{USAGE, words};
use crate::fakes::{Feed, KINDS};
use blkq::erased::blkq_run::{command, refuse_words};
use blkq::erased::counted_io::Counted;
use std::io::{self, Error, ErrorKind, Write};

/// Takes a piece each time, behind some interruptions. It fails once it took so many bytes, or takes nothing any more.
#[derive(Clone)]
struct Pieces {
    taken: Vec<u8>,
    most: usize,
    interruptions: u32,
    calls: u32,
    room: usize,
    failure: Option<ErrorKind>,
}

impl Write for Pieces {
    fn write(&mut self, buf: &[u8]) -> io::Result<usize> {
        self.calls += 1;
        if self.calls % (self.interruptions + 1) > 0 {
            return Err(ErrorKind::Interrupted.into());
        }
        if let (true, Some(kind)) = (self.taken.len() == self.room, self.failure) {
            return Err(kind.into());
        }
        let count = buf.len().min(self.most).min(self.room - self.taken.len());
        self.taken.extend_from_slice(&buf[..count]);
        Ok(count)
    }

    fn flush(&mut self) -> io::Result<()> {
        Ok(())
    }
}

/// A call that writes a line: the program with these words and this input, or the refusal of words that can't be had.
#[derive(Clone, Copy)]
enum Says {
    Command(&'static str, &'static [u8]),
    NoWords(ErrorKind),
}

use Says::{Command, NoWords};

/// Each call, its status and its line.
const SAYS: [(Says, u8, &[u8]); 12] = [
    (Command("", b""), 4, USAGE),
    (Command("walk", b""), 4, USAGE),
    (Command("run 33 1 1", b""), 4, USAGE),
    (Command("run 1 1 1 1", b""), 4, USAGE),
    (Command("replay 1", b""), 4, USAGE),
    (Command("run", b"blkq 1\n"), 2, b"line 2: no disk\n"),
    (Command("run 1 1 1", b"blkq 1\ndisk 4 hw 8\nwrites\n"), 2, b"line 3: unknown word\n"),
    (Command("run", b"blkq 1\ndisk 4 hw 8\nwrite 0 1 61\nread 0 1\n"), 3, b"line 4: overlaps line 3\n"),
    (Command("replay", b"gate 1\n"), 2, b"line 2: no world\n"),
    (NoWords(ErrorKind::OutOfMemory), 4, b"memory\n"),
    (NoWords(ErrorKind::InvalidData), 4, USAGE),
    (NoWords(ErrorKind::Other), 4, USAGE),
];

impl Says {
    /// Returns the status of the call.
    fn says(self, errors: &mut Pieces) -> u8 {
        match self {
            Command(line, input) => {
                let (mut reader, mut writer) = (Counted::new(Feed::new(input)), Counted::new(Vec::new()));
                command(&words(line), &mut reader, &mut writer, errors)
            }
            NoWords(kind) => refuse_words(errors, &Error::from(kind)),
        }
    }
}

#[test]
fn whole_in_any_pieces() {
    for (says, status, line) in SAYS {
        for most in (1..=line.len()).chain([usize::MAX]) {
            for interruptions in [0, 1, 2, 50] {
                let mut errors =
                    Pieces { taken: Vec::new(), most, interruptions, calls: 0, room: usize::MAX, failure: None };
                assert_eq!(says.says(&mut errors), status);
                let taken = String::from_utf8_lossy(&errors.taken);
                assert_eq!(taken, String::from_utf8_lossy(line), "pieces of {most}, {interruptions} interruptions");
            }
        }
    }
}

#[test]
fn the_beginning_if_the_writer_fails() {
    let failures = || KINDS.into_iter().filter(|kind| *kind != ErrorKind::Interrupted).map(Some).chain([None]);
    for (says, status, line) in SAYS {
        for room in 0..line.len() {
            for (failure, most) in failures().flat_map(|failure| [(failure, 1), (failure, usize::MAX)]) {
                let mut errors = Pieces { taken: Vec::new(), most, interruptions: 1, calls: 0, room, failure };
                assert_eq!(says.says(&mut errors), status);
                assert!(errors.taken == line[..room], "{failure:?} behind {room} bytes of {line:?}");
            }
        }
    }
}
