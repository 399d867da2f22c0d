//! The texts of faults.

use crate::driver::USAGE;
use blkq::erased::blkq_run::{Fault, refuse_words};
use blkq::erased::line_text::{Overlap, ParseFault, Why};
use std::io::{Error, ErrorKind};

#[test]
fn words_that_cannot_be_had() {
    for (kind, line) in [(ErrorKind::OutOfMemory, b"memory\n".as_slice()), (ErrorKind::InvalidData, USAGE)] {
        let mut errors = Vec::new();
        assert_eq!(refuse_words(&mut errors, &Error::from(kind)), 4);
        assert_eq!(errors.as_slice(), line);
    }
}

#[test]
fn texts_of_faults() {
    let parse = ParseFault { line: 1, why: Why::TooLong };
    let overlap = Overlap { line: 6, earlier: 5 };
    let rows = [
        (Fault::Memory, 1, 4, "memory"),
        (Fault::Thread, 2, 4, "thread"),
        (Fault::Read, 3, 4, "read"),
        (Fault::Write { written: 5 }, 4, 4, "write"),
        (Fault::Parse(parse), 5, 2, "line 1: too long"),
        (Fault::Overlap(overlap), 6, 3, "line 6: overlaps line 5"),
    ];
    for (fault, number, status, text) in rows {
        assert_eq!((fault.number(), fault.status()), (number, status));
        assert_eq!(fault.to_string().as_str(), text);
    }
}
