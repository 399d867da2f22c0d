//! Tests readers and writers that fail in one call and succeed in the next, or are interrupted before each piece; and faults far down an
//! input. A call returns its own result even if an earlier call failed. No contract says so, since each call may return Memory.

use blkq::erased::blk_workers::{Config, NoStall};
use blkq::erased::blkq_run::{Fault, command, run_bytes};
use blkq::erased::counted_io::{Counted, InputFault, TRIES, WriteFault, read_whole, write_whole};
use std::collections::VecDeque;
use std::io::{self, Error, ErrorKind, Read, Write};

const SCRIPT: &[u8] = b"blkq 1\ndisk 4 hw 8\n";
const ANSWER: &[u8] = b"disk 00*2048\n";
const SCHEDULE: &[u8] = b"gate 1\nworld 1 1 atomic 0\n0 add try\n";
const SHOWN: &[u8] = b"given\nend live 2 front 0 kills 0 releases 0 held 1\n";
const TEXT: &[u8] = b"0123456789";
const TIMED_OUT: Does = Does::Fails(ErrorKind::TimedOut);
const INTERRUPTED: Does = Does::Fails(ErrorKind::Interrupted);

/// One call of a device: it fails in this way, or moves up to this many bytes.
#[derive(Clone, Copy)]
enum Does {
    Fails(ErrorKind),
    Moves(usize),
}

/// A device that makes these calls in turn, and afterwards does everything that it is asked for.
#[derive(Default)]
struct Device {
    does: VecDeque<Does>,
    input: VecDeque<u8>,
    output: Vec<u8>,
    calls: usize,
    flushes: usize,
}

impl Device {
    fn with_input(input: &[u8], does: impl IntoIterator<Item = Does>) -> Device {
        Device { does: does.into_iter().collect(), input: input.iter().copied().collect(), ..Device::default() }
    }

    fn moved(&mut self, asked: usize) -> io::Result<usize> {
        self.calls += 1;
        match self.does.pop_front() {
            Some(Does::Fails(kind)) => Err(Error::from(kind)),
            Some(Does::Moves(most)) => Ok(asked.min(most)),
            None => Ok(asked),
        }
    }
}

impl Read for Device {
    fn read(&mut self, buf: &mut [u8]) -> io::Result<usize> {
        let count = self.moved(buf.len())?.min(self.input.len());
        for (byte, given) in buf.iter_mut().zip(self.input.drain(..count)) {
            *byte = given;
        }
        Ok(count)
    }
}

impl Write for Device {
    fn write(&mut self, buf: &[u8]) -> io::Result<usize> {
        let count = self.moved(buf.len())?;
        self.output.extend_from_slice(&buf[..count]);
        Ok(count)
    }

    fn flush(&mut self) -> io::Result<()> {
        self.flushes += 1;
        Ok(())
    }
}

/// A reader that failed in earlier calls is still read, and another failure ends the call.
#[test]
fn a_reader_that_failed_before() {
    let mut device = Device::with_input(TEXT, [TIMED_OUT, TIMED_OUT, Does::Moves(3), TIMED_OUT, INTERRUPTED]);
    let mut reader = Counted::new(&mut device);
    for failures in 1..=3 {
        assert_eq!(read_whole(&mut reader, 11), Err(InputFault::Read));
        assert_eq!((reader.failures(), reader.breaks()), (failures, failures));
    }
    assert_eq!(read_whole(&mut reader, 11).as_deref(), Ok(&TEXT[3..]));
    assert_eq!((reader.failures(), reader.breaks()), (4, 3));
    assert_eq!(device.calls, 7);
}

/// A writer that failed in earlier calls is still written to, and another failure ends the call.
#[test]
fn a_writer_that_failed_before() {
    let mut device = Device::with_input(b"", [TIMED_OUT, Does::Moves(0), Does::Moves(3), TIMED_OUT, INTERRUPTED]);
    let mut writer = Counted::new(&mut device);
    for (failures, written) in [(1, 0), (2, 0), (3, 3)] {
        assert_eq!(write_whole(&mut writer, TEXT), Err(WriteFault { written }));
        assert_eq!((writer.failures(), writer.breaks()), (failures, failures));
    }
    assert_eq!(write_whole(&mut writer, &TEXT[3..]), Ok(()));
    assert_eq!((writer.failures(), writer.breaks()), (4, 3));
    assert_eq!((device.output.as_slice(), device.calls), (TEXT, 6));
}

/// The maximum number of interruptions comes before each byte, after many earlier ones.
#[test]
fn interrupted_before_each_byte() {
    let borne = TRIES as usize - 1;
    let before_each = || TEXT.iter().flat_map(|_| vec![INTERRUPTED; borne].into_iter().chain([Does::Moves(1)]));
    let mut device = Device::with_input(TEXT, before_each());
    let mut reader = Counted::new(&mut device);
    assert_eq!(read_whole(&mut reader, TEXT.len()).as_deref(), Ok(TEXT));
    assert_eq!((reader.failures(), reader.breaks()), ((borne * TEXT.len()) as u64, 0));
    let mut device = Device::with_input(b"", before_each().chain(before_each()));
    let mut writer = Counted::new(&mut device);
    for _ in 0..2 {
        assert_eq!(write_whole(&mut writer, TEXT), Ok(()));
    }
    assert_eq!((writer.failures(), writer.breaks()), (2 * (borne * TEXT.len()) as u64, 0));
    assert_eq!(device.output, [TEXT, TEXT].concat());
}

/// A buffering writer is flushed by its owner, even if it fails.
#[test]
fn nothing_is_flushed() {
    let mut device = Device::with_input(b"", [Does::Moves(1), INTERRUPTED, Does::Moves(4)]);
    let mut writer = Counted::new(&mut device);
    assert_eq!(run_bytes(&mut Counted::new(SCRIPT), &mut writer, Config::default(), &NoStall), Ok(()));
    assert_eq!((device.output.as_slice(), device.flushes), (ANSWER, 0));
    let mut device = Device::with_input(b"", [Does::Moves(1), TIMED_OUT]);
    let mut writer = Counted::new(&mut device);
    assert_eq!(
        run_bytes(&mut Counted::new(SCRIPT), &mut writer, Config::default(), &NoStall),
        Err(Fault::Write { written: 1 })
    );
    assert_eq!(device.flushes, 0);
}

/// A long text, or a long answer, isn't flushed either: it goes out in one write.
#[test]
fn nothing_long_is_flushed() {
    let text = vec![b'#'; 3_000_000];
    let mut device = Device::default();
    assert_eq!(write_whole(&mut Counted::new(&mut device), &text), Ok(()));
    assert_eq!((device.output == text, device.calls, device.flushes), (true, 1, 0));
    let script: &[u8] = b"blkq 1\ndisk 600 hw 600\nwrite 0 600 6162\nstat\nread 0 600\n";
    let mut device = Device::default();
    let mut writer = Counted::new(&mut device);
    assert_eq!(run_bytes(&mut Counted::new(script), &mut writer, Config::default(), &NoStall), Ok(()));
    assert_eq!((device.output.len() > 3_000_000, device.calls, device.flushes), (true, 1, 0));
}

/// A reader is asked for 65,536 bytes each time, up to the last, and a writer is offered all that is left.
#[test]
fn as_few_calls_as_the_device_allows() {
    let input = vec![b'#'; 1_000_000];
    let mut device = Device::with_input(&input, []);
    assert_eq!(read_whole(&mut Counted::new(&mut device), 1_000_000).as_deref(), Ok(&input[..]));
    assert_eq!(device.calls, 1_000_000usize.div_ceil(65_536));
    let mut device = Device::with_input(b"", [Does::Moves(1), INTERRUPTED, Does::Moves(500_000)]);
    assert_eq!(write_whole(&mut Counted::new(&mut device), &input), Ok(()));
    assert_eq!((device.output == input, device.calls), (true, 4));
}

/// However often a device failed before, an interrupted call is tried the same number of times, and then given up.
#[test]
fn interrupted_after_it_broke() {
    for broke in [1, 1_000] {
        let does = || vec![TIMED_OUT; broke].into_iter().chain(vec![INTERRUPTED; TRIES as usize]);
        let calls = broke + TRIES as usize;
        let mut device = Device::with_input(TEXT, does());
        let mut reader = Counted::new(&mut device);
        assert!((0..=broke).all(|_| read_whole(&mut reader, 11) == Err(InputFault::Read)));
        assert_eq!((reader.breaks(), device.calls), (broke as u64, calls));
        let mut device = Device::with_input(b"", does());
        let mut writer = Counted::new(&mut device);
        assert!((0..=broke).all(|_| write_whole(&mut writer, TEXT) == Err(WriteFault { written: 0 })));
        assert_eq!((writer.breaks(), device.calls), (broke as u64, calls));
    }
}

/// A writer that is interrupted in every try has failed, and the program reports that.
#[test]
fn interrupted_too_often() {
    for (word, input, answer) in [("run", SCRIPT, ANSWER), ("replay", SCHEDULE, SHOWN)] {
        for written in [0, 3] {
            let taken = (written > 0).then_some(Does::Moves(written));
            let mut from = Device::with_input(input, []);
            let mut to = Device::with_input(b"", taken.into_iter().chain(vec![INTERRUPTED; TRIES as usize]));
            let answered = status(word, &mut Counted::new(&mut from), &mut Counted::new(&mut to));
            assert_eq!(answered, (4, "write\n".into()));
            assert_eq!(to.output, &answer[..written]);
        }
        let mut from = Device::with_input(input, vec![INTERRUPTED; TRIES as usize]);
        let mut to = Device::default();
        let answered = status(word, &mut Counted::new(&mut from), &mut Counted::new(&mut to));
        assert_eq!((answered, to.calls), ((4, "read\n".into()), 0));
    }
}

/// Returns the status of the program with this argument, and its line of errors.
fn status(word: &str, reader: &mut Counted<&mut Device>, writer: &mut Counted<&mut Device>) -> (u8, String) {
    let mut errors = Vec::new();
    let status = command(&[word.into()], reader, writer, &mut errors);
    (status, String::from_utf8(errors).expect("a line is a text"))
}

/// A program whose reader or writer failed before does its work. If one fails again, the program reports it.
#[test]
fn a_program_whose_devices_failed_before() {
    for (word, input, answer) in [("run", SCRIPT, ANSWER), ("replay", SCHEDULE, SHOWN)] {
        let thrice = [input; 3].concat();
        let reads = [TIMED_OUT, TIMED_OUT].into_iter().chain([Does::Moves(input.len()), Does::Moves(0)].repeat(3));
        let mut from = Device::with_input(&thrice, reads);
        let mut to = Device::with_input(b"", [TIMED_OUT, Does::Moves(2), TIMED_OUT]);
        let mut reader = Counted::new(&mut from);
        let mut writer = Counted::new(&mut to);
        for line in ["read\n", "read\n", "write\n", "write\n"] {
            assert_eq!(status(word, &mut reader, &mut writer), (4, line.into()));
        }
        assert_eq!(status(word, &mut reader, &mut writer), (0, String::new()));
        assert_eq!((reader.breaks(), writer.breaks()), (2, 2));
        assert_eq!(to.output, [&answer[..2], answer].concat());
    }
}

/// A program whose reader and writer are interrupted before each byte does its work.
#[test]
fn a_program_that_is_interrupted() {
    let each = |text: &[u8]| text.iter().flat_map(|_| [INTERRUPTED, Does::Moves(1)]).collect::<Vec<_>>();
    for (word, input, answer) in [("run", SCRIPT, ANSWER), ("replay", SCHEDULE, SHOWN)] {
        let mut from = Device::with_input(input, each(input));
        let mut to = Device::with_input(b"", each(answer));
        let answered = status(word, &mut Counted::new(&mut from), &mut Counted::new(&mut to));
        assert_eq!((answered, to.output.as_slice()), ((0, String::new()), answer));
    }
}

/// An input that ends at once has ended, whatever the device would return later.
#[test]
fn an_empty_input_is_not_read_again() {
    for word in ["run", "replay"] {
        let mut from = Device::with_input(SCRIPT, [Does::Moves(0)]);
        let mut to = Device::default();
        let answered = status(word, &mut Counted::new(&mut from), &mut Counted::new(&mut to));
        assert_eq!(answered, (2, "line 1: no version\n".into()));
        assert_eq!((from.calls, to.calls), (1, 0));
    }
}

/// Returns the status and the error line of an input that is refused for a line far down.
fn refused(word: &str, input: &[u8]) -> (u8, String) {
    let (mut from, mut to) = (Device::with_input(input, []), Device::default());
    let answered = status(word, &mut Counted::new(&mut from), &mut Counted::new(&mut to));
    assert_eq!(to.calls, 0);
    answered
}

/// The fault of the last line is reported, however many lines come before it.
#[test]
fn faults_far_down() {
    for lines in [10usize, 65_534, 65_535, 65_536, 1_000_000] {
        let blank = vec![b'\n'; lines];
        let script = [SCRIPT, &blank, b"trim"].concat();
        assert_eq!(refused("run", &script), (2, format!("line {}: unknown word\n", lines + 3)));
        let overlap = [SCRIPT, b"write 0 1 61\n", &blank, b"read 0 1"].concat();
        assert_eq!(refused("run", &overlap), (3, format!("line {}: overlaps line 3\n", lines + 4)));
        let schedule = [SCHEDULE, &blank, b"0 pop"].concat();
        assert_eq!(refused("replay", &schedule), (2, format!("line {}: unknown word\n", lines + 4)));
    }
}
