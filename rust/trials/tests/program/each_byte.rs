//! A reader and a writer that fail behind each byte, and an input that is cut behind each.

use crate::fakes::{Feed, KINDS, Sink};
use blkq::erased::blk_script::{check, parse, run_alone};
use blkq::erased::blk_workers::{Config, NoStall};
use blkq::erased::blkq_run::{Fault, run_bytes};
use blkq::erased::counted_io::{Counted, TRIES};
use std::io::ErrorKind;

/// The row split_by_both.
const SCRIPT: &[u8] = b"blkq 1\ndisk 16 hw 8\nset max_sectors 4\nset chunk_sectors 8\nwrite 6 6 61\n";

const ANSWER: &[u8] = b"3 ok\n4 ok\n5 ok 2+4\ndisk 00*3072,61*3072,00*2048\n";

/// The row removed.
const REMOVED: &[u8] =
    b"blkq 1\ndisk 1 hw 4\nmode atomic\nwrite 0 1 0a0a\nread 1 1\nstat\nremove\nread 0 1\nthaw\nremove\n";

/// A run of two workers, on two slots and with two tags, answers so, and writes exactly this. Gives how often its reader was
/// read, and its writer written to.
fn gives(mut feed: Feed<'_>, mut sink: Sink, answer: Result<(), Fault>, written: &[u8]) -> (u64, u64) {
    let config = Config::new(2, 2, 2).expect("a config");
    let (mut reader, mut writer) = (Counted::new(&mut feed), Counted::new(&mut sink));
    let found = run_bytes(&mut reader, &mut writer, config, &NoStall);
    let is_right = found == answer && sink.taken.as_slice() == written;
    assert!(is_right, "{found:?} in place of {answer:?}");
    (u64::from(feed.reads), u64::from(sink.writes))
}

/// How often a reader or a writer that fails so behind so many bytes, and moves one each time, is asked: no failure but an
/// interruption is a reason to ask again.
fn asked(bytes: usize, failure: Option<ErrorKind>) -> u64 {
    let tries = if failure == Some(ErrorKind::Interrupted) { TRIES } else { 1 };
    u64::from(tries).wrapping_add(bytes as u64)
}

/// Where the reader fails, also behind the last byte in place of ending, the answer is Read, and nothing is written. It isn't
/// read again.
#[test]
fn reader_fails_behind_each_byte() {
    for failure in KINDS {
        for k in 0..=SCRIPT.len() {
            let mut feed = Feed::new(&SCRIPT[..k]);
            (feed.most, feed.failure) = (1, Some(failure));
            let (reads, writes) = gives(feed, Sink::new(), Err(Fault::Read), b"");
            assert_eq!((reads, writes), (asked(k, Some(failure)), 0), "{failure:?} behind {k}");
        }
    }
}

/// Where the writer takes one byte a write and then fails, or takes nothing, exactly the bytes before went out. The rest
/// isn't tried again.
#[test]
fn writer_fails_behind_each_byte() {
    for (k, _) in ANSWER.iter().enumerate() {
        for failure in KINDS.map(Some).into_iter().chain([None]) {
            let mut sink = Sink::new();
            (sink.most, sink.room, sink.failure) = (1, k, failure);
            let fault = Fault::Write { written: k as u64 };
            let (reads, writes) = gives(Feed::new(SCRIPT), sink, Err(fault), &ANSWER[..k]);
            assert_eq!((reads, writes), (2, asked(k, failure)), "{failure:?} behind {k}");
        }
    }
}

/// The row no_requests, whose answer is 'disk 00*2048'.
const NO_REQUESTS: &[u8] = b"blkq 1\ndisk 4 hw 8\n";

#[test]
fn no_requests() {
    gives(Feed::new(NO_REQUESTS), Sink::new(), Ok(()), b"disk 00*2048\n");
}

/// The writer takes 5 bytes, and then fails.
#[test]
fn failing_writer() {
    let mut sink = Sink::new();
    (sink.room, sink.failure) = (5, Some(ErrorKind::Other));
    gives(Feed::new(NO_REQUESTS), sink, Err(Fault::Write { written: 5 }), b"disk ");
}

/// The reader fails at once.
#[test]
fn failing_reader() {
    let mut feed = Feed::new(b"");
    feed.failure = Some(ErrorKind::Other);
    gives(feed, Sink::new(), Err(Fault::Read), b"");
}

/// The answer of one thread that parses, checks and runs the script.
fn alone(input: &[u8]) -> Result<Vec<u8>, Fault> {
    let script = parse(input)?;
    check(&script)?;
    Ok(run_alone(&script)?)
}

/// Cut behind any byte, a script is answered as one thread answers the rest of it.
#[test]
fn cut_behind_each_byte() {
    for k in 0..=REMOVED.len() {
        let cut = &REMOVED[..k];
        let (feed, sink) = (Feed::new(cut), Sink::new());
        match alone(cut) {
            Ok(text) => gives(feed, sink, Ok(()), &text),
            Err(fault) => gives(feed, sink, Err(fault), b""),
        };
    }
}
