//! Scripts, their texts and their words from inside. tests/rows has the worked scripts, and single
//! lines.

use blkq::erased::blk_script::{
    ByteRuns, Checked, Mode, PieceLengths, Reply, Stat, What, check, drains, parse, render, render_disk, run_alone,
};
use blkq::erased::line_text::{
    LONGEST_TEXT, LineFault, Overlap, ParseFault, ScriptFault, Why, hex_bytes, number, words,
};
use blkq::erased::ram_disk::Disk;

#[path = "shared/texts.rs"]
mod texts;
use texts::texts_of;

// Four lines that come again and again, and the reply to each, by the number of its line.
fn line_and_reply(number: u32) -> (&'static str, &'static str) {
    match number % 4 {
        3 => ("write 0 1 61\n", "ok 1"),
        0 => ("freeze\n", "depth 1"),
        1 => ("thaw\n", "depth 0"),
        _ => ("read 1 1\n", "ok 1 00*512"),
    }
}

// A script of 100,000 lines, half of them requests.
#[test]
fn many_lines() {
    let mut text = Vec::from(b"blkq 1\ndisk 2 hw 1\n");
    let mut wanted = Vec::new();
    for number in 3_u32..100_003 {
        let (line, reply) = line_and_reply(number);
        text.extend_from_slice(line.as_bytes());
        let told = format!("{number} {reply}\n");
        wanted.extend_from_slice(told.as_bytes());
    }
    wanted.extend_from_slice(b"disk 61*512,00*512\n");
    let script = parse(&text).unwrap();
    check(&script).unwrap();
    assert!(run_alone(&script).unwrap().as_slice() == wanted.as_slice());
}

#[test]
fn comments_come_before_the_first_line() {
    let text = b"# a note\n\n  \nblkq 1\n\t\ndisk 1 hw 1\n#\nread 0 1\n";
    let script = parse(text).unwrap();
    assert_eq!((script.disk(), script.hw(), script.lines().len()), (1, 1, 1));
    let line = script.lines().first().expect("a line");
    assert_eq!(line.number, 8);
    assert!(matches!(&line.what, What::Read { start: 0, count: 1 }));
}

#[test]
fn texts_of_replies() {
    let counts = Stat {
        reads: 18_446_744_073_709_551_615,
        writes: 2,
        again: 3,
        eio: 4,
        depth: 5,
        max: 6,
        chunk: 0,
        physical: None,
        mode: Mode::Atomic,
    };
    let with_physical = Stat { physical: Some(32_768), ..counts };
    let pieces = PieceLengths::new(Vec::from([2, 4]));
    let runs = ByteRuns::new(Vec::from([(0, 512), (255, 1)]));
    let texts = [
        (Reply::Data { pieces, runs }, "7 ok 2+4 00*512,ff*1\n"),
        (Reply::Written { pieces: PieceLengths::new(Vec::from([65_535])) }, "7 ok 65535\n"),
        (Reply::Done, "7 ok\n"),
        (Reply::Depth(1_000), "7 depth 1000\n"),
        (Reply::NotFrozen, "7 not frozen\n"),
        (Reply::DepthFull, "7 depth full\n"),
        (Reply::Again, "7 EAGAIN\n"),
        (Reply::PastEnd, "7 EIO\n"),
        (Reply::Invalid, "7 EINVAL\n"),
        (
            Reply::Stat(counts),
            "7 stat reads 18446744073709551615 writes 2 again 3 eio 4 depth 5 max 6 chunk 0 mode atomic\n",
        ),
        (
            Reply::Stat(with_physical),
            "7 stat reads 18446744073709551615 writes 2 again 3 eio 4 depth 5 max 6 chunk 0 physical 32768 mode atomic\n",
        ),
        (Reply::Removed, "7 removed\n"),
        (Reply::Gone, "7 ENODEV\n"),
    ];
    for (reply, text) in &texts {
        let line = render(7, reply).unwrap();
        assert!(line.as_slice() == text.as_bytes(), "{text}");
    }
    let line = render(u32::MAX, &Reply::Done).unwrap();
    assert!(line.as_slice() == b"4294967295 ok\n".as_slice());
    let line = render_disk(&Disk::new(4).unwrap()).unwrap();
    assert!(line.as_slice() == b"disk 00*2048\n".as_slice());
}

// Lines, and the numbers of the ordered requests.
const ORDERED: &[(&str, &[u32])] = &[
    ("read 0 4\nread 2 4\nwrite 6 1 ff\nread 6 2\n", &[6]),
    ("write 0 2 01\nwrite 1 2 02\nwrite 0 1 03\nread 1 1\n", &[4, 6]),
    // The drain before line 4 ends the span of line 3, and line 5 joins the span of line 4.
    ("write 0 1 01\nwrite 0 1 02\nread 1 1\nread 0 1\n", &[4, 6]),
    // The stat drains, and the read past the end is no accepted request.
    ("write 7 1 01\nread 7 2\nstat\nread 7 1\nread 7 1\n", &[]),
    ("read 0 8\nread 0 8\nwrite 7 1 ab\nread 0 7\nread 0 8\n", &[5, 7]),
    ("", &[]),
];

#[test]
fn requests_that_are_ordered() {
    for (lines, ordered) in ORDERED {
        let mut text = String::new();
        for part in ["blkq 2\ndisk 8 hw 8\n", lines] {
            text.push_str(part);
        }
        let script = parse(text.as_bytes()).unwrap();
        assert_eq!(script.version(), 2);
        let told = drains(&script).unwrap();
        assert_eq!(told.as_slice(), *ordered, "{lines}");
        let told = Checked::of(&script).unwrap().drains().unwrap();
        assert_eq!(told.as_slice(), *ordered, "{lines}");
    }
}

// Version 1 orders nothing, also where requests overlap.
#[test]
fn version_one_has_no_drains() {
    for between in ["stat\n", ""] {
        let text = format!("blkq 1\ndisk 8 hw 8\nwrite 0 1 01\n{between}read 0 1\n");
        let script = parse(text.as_bytes()).unwrap();
        assert_eq!(script.version(), 1);
        assert_eq!(drains(&script).unwrap().len(), 0);
        assert_eq!(check(&script).is_err(), between.is_empty());
    }
}

/// The first two lines, a line that comes as often as there is room for it, its reply, the disk that is left,
/// and whether each of these lines but the first is ordered.
struct Row {
    first: &'static str,
    line: &'static str,
    reply: &'static str,
    disk: &'static str,
    ordered: bool,
}

const ROWS: &[Row] = &[
    Row {
        first: "blkq 1\ndisk 1 hw 1\n",
        line: "read 0 1\n",
        reply: "ok 1 00*512",
        disk: "disk 00*512\n",
        ordered: false,
    },
    Row { first: "blkq 2\ndisk 1 hw 1\n", line: "write 0 1 61\n", reply: "ok 1", disk: "disk 61*512\n", ordered: true },
    Row {
        first: "blkq 1\ndisk 1 hw 1\n",
        line: "stat\n",
        reply: "stat reads 0 writes 0 again 0 eio 0 depth 0 max 1 chunk 0 mode slots",
        disk: "disk 00*512\n",
        ordered: false,
    },
];

/// The row's script, and the numbers of its lines but the first two.
fn script(row: &Row) -> (Vec<u8>, Vec<u32>) {
    let mut text = Vec::from(row.first.as_bytes());
    let mut numbers = Vec::new();
    for number in 3u32..300_000 {
        if text.len().saturating_add(row.line.len()) > LONGEST_TEXT {
            break;
        }
        text.extend_from_slice(row.line.as_bytes());
        numbers.push(number);
    }
    (text, numbers)
}

#[test]
fn longest_scripts() {
    for row in ROWS {
        let (text, numbers) = script(row);
        let mut wanted = Vec::new();
        for number in &numbers {
            let told = format!("{number} {}\n", row.reply);
            wanted.extend_from_slice(told.as_bytes());
        }
        wanted.extend_from_slice(row.disk.as_bytes());
        let script = parse(&text).unwrap();
        assert_eq!(script.lines().len(), numbers.len());
        check(&script).unwrap();
        let ordered = if row.ordered { numbers.as_slice() } else { &[] };
        assert!(drains(&script).unwrap().iter().eq(ordered.iter().skip(1)), "{}", row.line);
        assert!(run_alone(&script).unwrap() == wanted, "{}", row.line);
    }
}

// The display of each reason and its number.
#[test]
fn reasons_have_numbers_and_texts() {
    let texts = [
        (Why::NotUtf8, 1, "not utf-8"),
        (Why::NoVersion, 2, "no version"),
        (Why::NoDisk, 3, "no disk"),
        (Why::UnknownWord, 4, "unknown word"),
        (Why::MissingWord, 5, "missing word"),
        (Why::ExtraWord, 6, "extra word"),
        (Why::BadNumber, 7, "bad number"),
        (Why::OutOfRange, 8, "out of range"),
        (Why::BadHex, 9, "bad hex"),
        (Why::TooLong, 10, "too long"),
        (Why::NoWorld, 11, "no world"),
    ];
    for (why, number, text) in texts {
        let told = why.to_string();
        assert!((why.number(), told.as_str()) == (number, text), "{text}");
    }
}

#[test]
fn faults_have_texts() {
    let parse = ParseFault { line: 3, why: Why::BadHex };
    let pair = Overlap { line: 6, earlier: 5 };
    let texts = texts_of([ScriptFault::Memory, ScriptFault::Parse(parse), ScriptFault::Overlap(pair)]);
    assert_eq!(texts, ["memory", "line 3: bad hex", "line 6: overlaps line 5"]);
}

#[test]
fn faults_of_lines_have_texts() {
    assert_eq!(texts_of([LineFault::Memory, LineFault::Refused(Why::BadHex)]), ["memory", "bad hex"]);
}

/// A word, and the bytes that it spells or why it is refused.
type Spelled = (&'static [u8], Result<&'static [u8], Why>);

#[test]
fn bytes_of_words() {
    let rows: [Spelled; 6] = [
        (b"aB0f", Ok(b"\xab\x0f")),
        (b"616263", Ok(b"abc")),
        (b"61626364", Err(Why::BadHex)),
        (b"", Err(Why::BadHex)),
        (b"6", Err(Why::BadHex)),
        (b"6g", Err(Why::BadHex)),
    ];
    for (word, wanted) in rows {
        let mut room = [0; 3];
        let count = hex_bytes(word, &mut room);
        assert_eq!(count.map(|count| &room[..count]), wanted, "{word:?}");
    }
}

// The words of a line, each with a bar after it.
fn barred(line: &str) -> Vec<u8> {
    let mut all = Vec::new();
    for word in words(line) {
        all.extend_from_slice(word);
        all.push(b'|');
    }
    all
}

#[test]
fn words_of_lines() {
    let lines: [(&str, usize, &[u8]); 6] = [
        ("", 0, b""),
        (" \t ", 0, b""),
        ("one", 1, b"one|"),
        ("\tone  two\t\tthree ", 3, b"one|two|three|"),
        ("a\rb # c", 3, b"a\rb|#|c|"),
        ("\u{e9} x", 2, b"\xc3\xa9|x|"),
    ];
    for (line, count, wanted) in lines {
        assert_eq!(words(line).count_left(), count, "{line}");
        assert_eq!(barred(line).as_slice(), wanted, "{line}");
    }
}

/// A word, the least and the greatest number that it may spell, whether a `-` may stand in front, and the number or the refusal.
type Counted = (&'static [u8], i128, i128, bool, Result<i128, Why>);

#[test]
fn numbers_of_words() {
    let rows: [Counted; 23] = [
        (b"0", 0, 9, false, Ok(0)),
        (b"00000000000000000007", 0, 9, false, Ok(7)),
        (b"000000000000000000007", 0, 9, false, Err(Why::BadNumber)),
        (b"10", 0, 10, false, Ok(10)),
        (b"10", 0, 9, false, Err(Why::OutOfRange)),
        (b"4", 5, 9, false, Err(Why::OutOfRange)),
        (b"5", 5, 5, false, Ok(5)),
        (b"", 0, 9, false, Err(Why::BadNumber)),
        (b"x", 0, 9, false, Err(Why::BadNumber)),
        (b"1x", 0, 9, false, Err(Why::BadNumber)),
        (b"+1", -9, 9, true, Err(Why::BadNumber)),
        (b"-1", -9, 9, false, Err(Why::BadNumber)),
        (b"-0", 0, 9, false, Err(Why::BadNumber)),
        (b"-1", -9, 9, true, Ok(-1)),
        (b"-0", 0, 9, true, Ok(0)),
        (b"-", -9, 9, true, Err(Why::BadNumber)),
        (b"--1", -9, 9, true, Err(Why::BadNumber)),
        (b"1-", -9, 9, true, Err(Why::BadNumber)),
        (b"-10", -9, 9, true, Err(Why::OutOfRange)),
        (b"-99999999999999999999", -99_999_999_999_999_999_999, 0, true, Ok(-99_999_999_999_999_999_999)),
        (b"-000000000000000000001", -9, 9, true, Err(Why::BadNumber)),
        (b"18446744073709551615", 0, 18_446_744_073_709_551_615, false, Ok(18_446_744_073_709_551_615)),
        (b"18446744073709551616", 0, 18_446_744_073_709_551_615, false, Err(Why::OutOfRange)),
    ];
    for (word, low, high, signed, wanted) in rows {
        assert_eq!(number(word, low, high, signed), wanted, "{word:?}");
    }
}
