//! Which calls are counted as failures, and that the inner reader's and writer's answers are passed on.

use crate::fakes::{Feed, KINDS, Sink};
use blkq::erased::counted_io::{Counted, WriteFault, read_whole, write_whole};
use std::fmt::Debug;
use std::io::{self, Error, ErrorKind, Read, Write};

#[test]
fn errors_of_reading() {
    let mut reader = Counted::new(Feed {
        rest: b"ab",
        most: usize::MAX,
        interruptions: 2,
        failure: Some(ErrorKind::Other),
        reads: 0,
    });
    let mut buf = [0u8; 8];
    assert_eq!(reader.failures(), 0);
    for (answer, failures) in [(None, 1), (None, 2), (Some(2), 2), (None, 3), (None, 4)] {
        assert_eq!(reader.read(&mut buf).ok(), answer);
        assert_eq!(reader.failures(), failures);
    }
}

// A read and a write of no byte are calls too: the reader and the writer are asked, and their failures are counted.
#[test]
fn calls_of_no_byte() {
    let mut inner = FIRST;
    let mut counted = Counted::new(&mut inner);
    for call in 0..CALLS {
        let found = if call / 14 % 2 == 0 { counted.read(&mut []) } else { counted.write(b"") };
        assert_eq!(found.map_err(|e| e.kind()), failure(call).map_or(Ok(0), Err), "{call}");
    }
    assert_eq!(counted.failures(), (CALLS / 2) as u64);
    assert_eq!(inner.calls, CALLS);
}

#[test]
fn the_end_is_no_failure() {
    let mut reader = Counted::new(b"".as_slice());
    assert_eq!(reader.read(&mut [0u8; 8]).ok(), Some(0));
    assert_eq!(reader.read(&mut []).ok(), Some(0));
    assert_eq!(reader.failures(), 0);
}

#[test]
fn errors_of_writing() {
    for (failure, last) in [(Some(ErrorKind::Other), None), (None, Some(0))] {
        let mut writer =
            Counted::new(Sink { taken: Vec::new(), most: usize::MAX, room: 1, interruptions: 1, failure, writes: 0 });
        assert_eq!(writer.write(b"").ok(), None);
        assert_eq!(writer.write(b"").ok(), Some(0));
        assert_eq!(writer.failures(), 1);
        assert_eq!(writer.write(b"ab").ok(), Some(1));
        assert_eq!(writer.failures(), 1);
        assert_eq!(writer.write(b"b").ok(), last);
        assert_eq!(writer.failures(), 2);
        writer.flush().unwrap();
        assert_eq!(writer.failures(), 2);
    }
}

/// More calls than a body that miscounts them would bear.
const CALLS: usize = 20_000;

/// Its calls fail and go well by turns, for ever: a call of an odd number fails, with the kinds in turn.
#[derive(Clone, Copy)]
struct ByTurns {
    calls: usize,
    flushes: usize,
}

/// The failure of the call of this number.
fn failure(call: usize) -> Option<ErrorKind> {
    (call % 2 == 1).then_some(KINDS[call / 2 % KINDS.len()])
}

impl ByTurns {
    fn turn(&mut self) -> io::Result<usize> {
        let call = self.calls;
        self.calls = call.wrapping_add(1);
        match failure(call) {
            Some(kind) => Err(Error::from(kind)),
            None => Ok(call),
        }
    }
}

/// A call that goes well gives one byte, which gives its number.
impl Read for ByTurns {
    fn read(&mut self, buf: &mut [u8]) -> io::Result<usize> {
        let call = self.turn()?;
        match buf.first_mut() {
            Some(byte) => {
                *byte = (call % 251) as u8;
                Ok(1)
            }
            None => Ok(0),
        }
    }
}

/// A write that goes well takes one byte or, each other time, none; a flush fails as a write does.
impl Write for ByTurns {
    fn write(&mut self, buf: &[u8]) -> io::Result<usize> {
        let call = self.turn()?;
        Ok(buf.len().min(call / 2 % 2))
    }

    fn flush(&mut self) -> io::Result<()> {
        self.flushes = self.flushes.wrapping_add(1);
        self.turn().map(|_| ())
    }
}

const FIRST: ByTurns = ByTurns { calls: 0, flushes: 0 };

// However often a reader failed, it is asked again, and its answer is passed on.
#[test]
fn failures_of_reading_end() {
    let mut inner = FIRST;
    let mut reader = Counted::new(&mut inner);
    for call in 0..CALLS {
        let mut buf = [255u8; 2];
        let found = reader.read(&mut buf).map_err(|e| e.kind());
        let (answer, byte) = match failure(call) {
            Some(kind) => (Err(kind), 255),
            None => (Ok(1), (call % 251) as u8),
        };
        assert_eq!((found, buf), (answer, [byte, 255]), "{call}");
    }
    assert_eq!(reader.failures(), (CALLS / 2) as u64);
    assert_eq!(inner.calls, CALLS);
}

/// Makes each call of a writer that fails by turns, and compares what it answers where it goes well. The failures, and the writer.
fn written<T: Debug + PartialEq>(
    makes: impl Fn(&mut Counted<&mut ByTurns>, usize) -> io::Result<T>,
    goes_well: impl Fn(usize) -> T,
) -> (u64, ByTurns) {
    let mut inner = FIRST;
    let mut writer = Counted::new(&mut inner);
    for call in 0..CALLS {
        let found = makes(&mut writer, call).map_err(|e| e.kind());
        assert_eq!(found, failure(call).map_or_else(|| Ok(goes_well(call)), Err), "{call}");
    }
    (writer.failures(), inner)
}

#[test]
fn failures_of_writing_end() {
    let (failures, inner) = written(|writer, _| writer.write(b"ab"), |call| call / 2 % 2);
    // Half of the calls fail, and half of the others take nothing.
    assert_eq!(failures, (CALLS / 2 + CALLS / 4) as u64);
    assert_eq!(inner.calls, CALLS);
}

// Each flush reaches the writer, whose answer is passed on and not counted, also where a write has broken it before.
#[test]
fn each_flush_is_passed_on() {
    let (failures, inner) = written(|writer, _| writer.flush(), |_| ());
    assert_eq!(failures, 0);
    assert_eq!(inner.flushes, CALLS);
    let writes_or_flushes = |writer: &mut Counted<&mut ByTurns>, call: usize| {
        let is_write = call / 2 % 2 == 0;
        if is_write { writer.write(b"a").map(|_| ()) } else { writer.flush() }
    };
    let (_, inner) = written(writes_or_flushes, |_| ());
    assert_eq!(inner.flushes, CALLS / 2);
}

// As many reads and writes as there are bytes, behind as many interruptions in a row as are borne.
#[test]
fn very_many_pieces() {
    let text = vec![b'#'; CALLS];
    let mut feed = Feed::new(&text);
    (feed.most, feed.interruptions) = (1, 999);
    let input = read_whole(&mut Counted::new(feed), 1_048_577).unwrap();
    assert!(input == text);
    let mut sink = Sink::new();
    (sink.most, sink.interruptions) = (1, 999);
    assert_eq!(write_whole(&mut Counted::new(&mut sink), &text), Ok(()));
    assert!(sink.taken == text);
}

/// An error of a device: with a number of the system, with a text, with a kind alone, or with an error of the device's own.
fn device_error(way: usize, kind: ErrorKind) -> Error {
    match way % 4 {
        0 => Error::from_raw_os_error(1 + i32::try_from(way / 4).expect("a small number")),
        1 => Error::new(kind, format!("the text of {way}")),
        2 => Error::from(kind),
        _ => Error::new(kind, WriteFault { written: way as u64 }),
    }
}

/// Fails each time, in all ways in turn.
struct Fails {
    calls: usize,
    kind: ErrorKind,
}

impl Fails {
    fn fail(&mut self) -> Error {
        self.calls += 1;
        device_error(self.calls, self.kind)
    }
}

impl Read for Fails {
    fn read(&mut self, _buf: &mut [u8]) -> io::Result<usize> {
        Err(self.fail())
    }
}

impl Write for Fails {
    fn write(&mut self, _buf: &[u8]) -> io::Result<usize> {
        Err(self.fail())
    }

    fn flush(&mut self) -> io::Result<()> {
        Err(self.fail())
    }
}

// The caller gets the error itself: its number, its text and what it has inside, and not one that is like it.
#[test]
fn each_error_is_passed_on_whole() {
    let mut last_call = 0;
    for kind in KINDS {
        let mut counted = Counted::new(Fails { calls: last_call, kind });
        for call in 0..900 {
            let failed = match call % 3 {
                0 => counted.read(&mut [0; 4]).expect_err("a failure"),
                1 => counted.write(b"text").expect_err("a failure"),
                _ => counted.flush().expect_err("a failure"),
            };
            last_call += 1;
            let wanted = device_error(last_call, kind);
            assert_eq!((failed.kind(), failed.raw_os_error()), (wanted.kind(), wanted.raw_os_error()));
            assert_eq!((failed.to_string(), format!("{failed:?}")), (wanted.to_string(), format!("{wanted:?}")));
            let inside = |error: Error| error.into_inner().and_then(|it| it.downcast::<WriteFault>().ok());
            assert_eq!(inside(failed), inside(wanted));
        }
    }
}
