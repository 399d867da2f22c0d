//! Tests the line and the reason of refused races (docs/races/README.md), and what the program says of arguments that it can't read.
use gate_races::erased::races_run::refuse_words;
use gate_races::{LineError, RaceError, Reason, outcomes};
use std::io::{Error, ErrorKind};

fn refused(race: &[u8]) -> Option<LineError> {
    match outcomes(race) {
        Err(RaceError::Race(refused)) => Some(refused),
        _ => None,
    }
}

#[test]
fn what_is_no_race() {
    assert_eq!(refused(b"races 1\n\xff\n"), Some(LineError { line: 2, reason: Reason::NotUtf8 }));
    assert_eq!(refused(b"races 1\nwords\n"), Some(LineError { line: 2, reason: Reason::NoWorld }));
    assert_eq!(RaceError::Memory.to_string(), "memory");
}

/// The longest possible text, and a text with one byte more.
#[test]
fn the_longest_text() {
    let mut text = b"races 1\nworld 1 1 slots 0\n#".to_vec();
    text.resize(1_048_576, b'#');
    assert!(outcomes(&text).is_ok());
    text.push(b'#');
    assert_eq!(refused(&text), Some(LineError { line: 1, reason: Reason::TooLong }));
}

const USAGE: &str = "usage: gate_races [--summary] [--states N], with a race on standard input\n";

/// There is no memory for the arguments, or one of them isn't text.
#[test]
fn words_that_cannot_be_had() {
    for (kind, line) in
        [(ErrorKind::OutOfMemory, "memory\n"), (ErrorKind::InvalidInput, USAGE), (ErrorKind::InvalidData, USAGE)]
    {
        let mut errors = Vec::new();
        assert_eq!(refuse_words(&mut errors, &Error::from(kind)), 4);
        assert_eq!(String::from_utf8(errors).unwrap(), line);
    }
}
