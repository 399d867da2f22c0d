//! Tests the line, number and text of each reason for which an input is refused (docs/FORMATS.md).
use blkq::{Config, LineError, Reason, ReplayError, RunError};

fn script(text: &str) -> Result<Vec<u8>, RunError> {
    blkq::run(text.as_bytes(), Config::default())
}

#[test]
fn lines_of_scripts() {
    let refused = [
        ("", 1, Reason::NoVersion),
        ("blkq 1\n", 2, Reason::NoDisk),
        ("blkq 1\ndisk 8 hw 8\nwrites\n", 3, Reason::UnknownWord),
        ("blkq 1\ndisk 8 hw 8\nread 1\n", 3, Reason::MissingWord),
        ("blkq 1\ndisk 8 hw 8\nread 1 2 3\n", 3, Reason::ExtraWord),
        ("blkq 1\ndisk 8 hw 8\nread -1 2\n", 3, Reason::BadNumber),
        ("blkq 1\ndisk 4097 hw 8\n", 2, Reason::OutOfRange),
        ("blkq 1\ndisk 8 hw 8\nwrite 0 1 6\n", 3, Reason::BadHex),
    ];
    for (text, line, reason) in refused {
        assert_eq!(script(text), Err(RunError::Script(LineError { line, reason })), "{text}");
    }
}

/// The later line and the earlier one, of the first pair.
#[test]
fn lines_that_overlap() {
    let refused = Err(RunError::Overlap { line: 5, earlier: 4 });
    assert_eq!(script("blkq 1\ndisk 8 hw 8\nread 7 1\nwrite 0 2 00\nread 1 1\nwrite 1 1 00\n"), refused);
}

#[test]
fn texts_and_numbers() {
    let all = [
        (Reason::NotUtf8, "not utf-8"),
        (Reason::NoVersion, "no version"),
        (Reason::NoDisk, "no disk"),
        (Reason::UnknownWord, "unknown word"),
        (Reason::MissingWord, "missing word"),
        (Reason::ExtraWord, "extra word"),
        (Reason::BadNumber, "bad number"),
        (Reason::OutOfRange, "out of range"),
        (Reason::BadHex, "bad hex"),
        (Reason::TooLong, "too long"),
        (Reason::NoWorld, "no world"),
    ];
    for (number, (reason, text)) in (1..).zip(all) {
        assert_eq!((reason.number(), reason.to_string().as_str()), (number, text));
    }
    assert_eq!(RunError::Memory.to_string(), "memory");
    assert_eq!(RunError::Thread.to_string(), "thread");
    assert_eq!(RunError::Overlap { line: 4, earlier: 3 }.to_string(), "line 4: overlaps line 3");
    assert_eq!(ReplayError::Memory.to_string(), "memory");
    let line = LineError { line: 3, reason: Reason::BadHex };
    assert_eq!(RunError::Script(line).to_string(), "line 3: bad hex");
    assert_eq!(ReplayError::Schedule(line).to_string(), "line 3: bad hex");
}

#[test]
fn what_is_no_text() {
    let refused = LineError { line: 2, reason: Reason::NotUtf8 };
    assert_eq!(blkq::run(b"blkq 1\ndisk \xff\n", Config::default()), Err(RunError::Script(refused)));
    assert_eq!(blkq::replay(b"gate 1\n\xff\n"), Err(ReplayError::Schedule(refused)));
}

/// The longest possible text, and a text with one byte more.
#[test]
fn the_longest_texts() {
    for begins in ["blkq 1\ndisk 1 hw 1\n#", "gate 1\nworld 1 1 slots 0\n#"] {
        let mut text = begins.as_bytes().to_vec();
        text.resize(1_048_576, b'#');
        let refused = LineError { line: 1, reason: Reason::TooLong };
        let answers = |text: &[u8]| match begins.as_bytes()[0] {
            b'b' => blkq::run(text, Config::default()).map(drop).map_err(|why| why == RunError::Script(refused)),
            _ => blkq::replay(text).map(drop).map_err(|why| why == ReplayError::Schedule(refused)),
        };
        assert_eq!(answers(&text), Ok(()));
        text.push(b'#');
        assert_eq!(answers(&text), Err(true));
    }
}

#[test]
fn a_schedule_without_a_world() {
    let refused = LineError { line: 2, reason: Reason::NoWorld };
    assert_eq!(blkq::replay(b"gate 1\nwords\n"), Err(ReplayError::Schedule(refused)));
}

#[test]
fn configurations() {
    assert_eq!(Config::new(4, 8, 16), Some(Config::default()));
    for (workers, slots, tags) in [(0, 1, 1), (1, 0, 1), (1, 1, 0), (33, 1, 1), (1, 65, 1), (1, 1, 64)] {
        assert_eq!(Config::new(workers, slots, tags), None);
    }
    let most = Config::new(32, 64, 63).unwrap();
    assert_eq!((most.workers(), most.slots(), most.tags()), (32, 64, 63));
}
