//! Texts that go out whole, in pieces, interrupted, or in part.

use crate::fakes::{KINDS, Sink};
use blkq::erased::counted_io::{Counted, TRIES, WriteFault, write_whole};
use std::io::ErrorKind;

const TEXT: &[u8] = b"0123456789";

/// How a writer does, and what comes of it: how many bytes went out, failures and writes.
struct Row {
    most: usize,
    room: usize,
    interruptions: u32,
    failure: Option<ErrorKind>,
    written: usize,
    failures: u64,
    writes: u32,
}

const ROWS: &[Row] = &[
    Row {
        most: usize::MAX,
        room: 10,
        interruptions: 0,
        failure: Some(ErrorKind::Other),
        written: 10,
        failures: 0,
        writes: 1,
    },
    Row {
        most: 1,
        room: 10,
        interruptions: 999,
        failure: Some(ErrorKind::Other),
        written: 10,
        failures: 999,
        writes: 1_009,
    },
    Row { most: 4, room: 9, interruptions: 0, failure: Some(ErrorKind::Other), written: 9, failures: 1, writes: 4 },
    Row { most: 4, room: 9, interruptions: 0, failure: None, written: 9, failures: 1, writes: 4 },
    Row { most: usize::MAX, room: 0, interruptions: 0, failure: None, written: 0, failures: 1, writes: 1 },
    Row { most: usize::MAX, room: 10, interruptions: 1_000, failure: None, written: 0, failures: 1_000, writes: 1_000 },
];

#[test]
fn texts() {
    for row in ROWS {
        let mut sink = Sink {
            taken: Vec::new(),
            most: row.most,
            room: row.room,
            interruptions: row.interruptions,
            failure: row.failure,
            writes: 0,
        };
        let mut writer = Counted::new(&mut sink);
        let written = row.written as u64;
        let wanted = if row.written == TEXT.len() { Ok(()) } else { Err(WriteFault { written }) };
        assert_eq!(write_whole(&mut writer, TEXT), wanted);
        assert_eq!(writer.failures(), row.failures);
        assert_eq!(sink.writes, row.writes);
        assert_eq!(sink.taken.as_slice(), &TEXT[..row.written.min(TEXT.len())]);
    }
}

/// Whatever a writer fails with, and behind whichever byte, exactly the bytes before are counted as written, and only
/// an interruption is tried again.
#[test]
fn fails_behind_each_byte() {
    for failure in KINDS {
        for (k, _) in TEXT.iter().enumerate() {
            let mut sink =
                Sink { taken: Vec::new(), most: 1, room: k, interruptions: 0, failure: Some(failure), writes: 0 };
            let mut writer = Counted::new(&mut sink);
            let fault = WriteFault { written: k as u64 };
            assert_eq!(write_whole(&mut writer, TEXT), Err(fault), "{failure:?}");
            let interrupted = failure == ErrorKind::Interrupted;
            let failures = if interrupted { u64::from(TRIES) } else { 1 };
            assert_eq!(writer.failures(), failures, "{failure:?} behind {k}");
            assert_eq!(sink.taken.as_slice(), &TEXT[..k], "{failure:?}");
        }
    }
}

// A writer that takes all is handed a long text once, and not piece by piece.
#[test]
fn a_long_text_in_one_write() {
    let mut text = Vec::new();
    for _ in 0..100_000 {
        text.extend_from_slice(TEXT);
    }
    let mut sink = Sink::new();
    let mut writer = Counted::new(&mut sink);
    assert_eq!(write_whole(&mut writer, &text), Ok(()));
    assert_eq!((sink.writes, sink.taken.len()), (1, text.len()));
}

#[test]
fn text_of_the_fault() {
    let fault = WriteFault { written: 5 };
    assert_eq!(fault.to_string().as_str(), "write");
}
