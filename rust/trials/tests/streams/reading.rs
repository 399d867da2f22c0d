//! Inputs that come whole, in pieces, interrupted, or not at all.

use crate::fakes::{Feed, KINDS};
use blkq::erased::counted_io::{Counted, InputFault, TRIES, read_whole};
use std::io::ErrorKind;

const TEXT: &[u8] = b"0123456789";

/// Gives the whole text in one read.
const WHOLE: Feed<'static> = Feed { rest: TEXT, most: usize::MAX, interruptions: 0, failure: None, reads: 0 };

/// A reader, how many of its bytes are wanted, and what comes of it.
struct Row {
    feed: Feed<'static>,
    most: usize,
    input: Result<&'static [u8], InputFault>,
    failures: u64,
    reads: u32,
}

const ROWS: &[Row] = &[
    // The read that gives nothing shows that this is all.
    Row { feed: WHOLE, most: 11, input: Ok(TEXT), failures: 0, reads: 2 },
    Row { feed: WHOLE, most: 10, input: Ok(TEXT), failures: 0, reads: 1 },
    Row { feed: WHOLE, most: 9, input: Ok(b"012345678"), failures: 0, reads: 1 },
    Row { feed: WHOLE, most: 0, input: Ok(b""), failures: 0, reads: 0 },
    Row { feed: Feed { most: 1, ..WHOLE }, most: 100_000, input: Ok(TEXT), failures: 0, reads: 11 },
    Row { feed: Feed { interruptions: 999, ..WHOLE }, most: 11, input: Ok(TEXT), failures: 999, reads: 1_001 },
    Row {
        feed: Feed { interruptions: 1_000, ..WHOLE },
        most: 11,
        input: Err(InputFault::Read),
        failures: 1_000,
        reads: 1_000,
    },
    Row {
        feed: Feed { failure: Some(ErrorKind::Other), ..WHOLE },
        most: 11,
        input: Err(InputFault::Read),
        failures: 1,
        reads: 2,
    },
    Row {
        feed: Feed { failure: Some(ErrorKind::Other), most: 3, ..WHOLE },
        most: 11,
        input: Err(InputFault::Read),
        failures: 1,
        reads: 5,
    },
];

#[test]
fn inputs() {
    for row in ROWS {
        let mut feed = row.feed;
        let mut reader = Counted::new(&mut feed);
        let found = read_whole(&mut reader, row.most);
        assert_eq!(found, row.input.map(Vec::from));
        assert_eq!(reader.failures(), row.failures);
        assert_eq!(feed.reads, row.reads);
    }
}

/// Whatever a reader fails with, and behind whichever byte, that is the fault, and only an interruption is tried
/// again.
#[test]
fn fails_behind_each_byte() {
    for failure in KINDS {
        for (k, _) in TEXT.iter().enumerate() {
            let mut reader = Counted::new(Feed { rest: &TEXT[..k], most: 1, failure: Some(failure), ..WHOLE });
            let found = read_whole(&mut reader, 11).err();
            assert_eq!(found, Some(InputFault::Read), "{failure:?} behind {k}");
            let interrupted = failure == ErrorKind::Interrupted;
            let failures = if interrupted { u64::from(TRIES) } else { 1 };
            assert_eq!(reader.failures(), failures, "{failure:?} behind {k}");
        }
    }
}

#[test]
fn an_endless_input_is_cut() {
    let input = read_whole(&mut Counted::new(std::io::repeat(b'#')), 1_048_577).unwrap();
    assert_eq!(input.len(), 1_048_577);
}

// However small the reads are, and however many.
#[test]
fn the_longest_input_a_byte_at_a_time() {
    let text = vec![b'#'; 1_048_577];
    let mut feed = Feed::new(&text);
    feed.most = 1;
    assert!(read_whole(&mut Counted::new(feed), 1_048_577).unwrap() == text);
}

#[test]
fn texts_of_faults() {
    for (fault, number, text) in [(InputFault::Memory, 1, "memory"), (InputFault::Read, 2, "read")] {
        assert_eq!(fault.number(), number);
        assert_eq!(fault.to_string().as_str(), text);
    }
}
