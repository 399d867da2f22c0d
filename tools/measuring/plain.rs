//! Runs a script line by line on one thread, without a queue: the baseline of `make measure WHAT=scripts`. It reads a script of
//! version 1 from standard input, with the lines that scripts.py writes, and writes what `blkq run` writes. It is plain Rust as
//! one would write it without a proof: any other script makes it panic, and overlapping requests end it with status 3.

use std::io::{Read, Write};

const SECTOR: usize = 512;

/// The pieces of a range end by these limits, in sectors.
#[derive(Clone, Copy)]
struct Limits {
    hardware: u32,
    max: u32,
    chunk: u32,
}

impl Limits {
    /// Appends the lengths of a range's pieces.
    fn show_pieces(self, mut start: u32, mut count: u32, out: &mut Vec<u8>) {
        loop {
            let mut piece = count.min(self.max);
            if self.chunk > 0 {
                piece = piece.min(self.chunk - start % self.chunk);
            }
            write!(out, "{piece}").unwrap();
            start += piece;
            count -= piece;
            if count == 0 {
                return;
            }
            out.push(b'+');
        }
    }
}

/// Appends the runs of equal bytes.
fn show_runs(bytes: &[u8], out: &mut Vec<u8>) {
    const DIGITS: &[u8; 16] = b"0123456789abcdef";
    let mut rest = bytes;
    while let Some(&byte) = rest.first() {
        let count = rest.iter().position(|&other| other != byte).unwrap_or(rest.len());
        out.extend([DIGITS[usize::from(byte >> 4)], DIGITS[usize::from(byte & 15)], b'*']);
        write!(out, "{count}").unwrap();
        rest = &rest[count..];
        if !rest.is_empty() {
            out.push(b',');
        }
    }
}

#[derive(Clone, Copy)]
struct Range {
    start: u32,
    count: u32,
}

enum Line {
    Read(Range),
    Write(Range, Vec<u8>),
    Freeze,
    Thaw,
    MaxSectors(u32),
    ChunkSectors(u32),
    Stat,
}

fn pattern(digits: &str) -> Vec<u8> {
    let byte = |place| u8::from_str_radix(&digits[place..place + 2], 16).unwrap();
    (0..digits.len()).step_by(2).map(byte).collect()
}

/// The line that these words are.
fn line(words: &[&str]) -> Line {
    let number = |place: usize| words[place].parse::<u32>().unwrap();
    let range = || Range { start: number(1), count: number(2) };
    match words[0] {
        "read" => Line::Read(range()),
        "write" => Line::Write(range(), pattern(words[3])),
        "freeze" => Line::Freeze,
        "thaw" => Line::Thaw,
        "set" if words[1] == "max_sectors" => Line::MaxSectors(number(2)),
        "set" => Line::ChunkSectors(number(2)),
        "stat" => Line::Stat,
        word => panic!("{}", word),
    }
}

/// The last span in which a sector was read, and that in which it was written.
#[derive(Clone, Copy, Default)]
struct Touched {
    read: u64,
    written: u64,
}

struct Queue {
    disk: Vec<u8>,
    touched: Vec<Touched>,
    span: u64,
    limits: Limits,
    depth: u32,
    reads: u64,
    writes: u64,
    again: u64,
    past_end: u64,
}

impl Queue {
    fn new(sectors: usize, hardware: u32) -> Queue {
        Queue {
            disk: vec![0; sectors * SECTOR],
            touched: vec![Touched::default(); sectors],
            span: 1,
            limits: Limits { hardware, max: hardware, chunk: 0 },
            depth: 0,
            reads: 0,
            writes: 0,
            again: 0,
            past_end: 0,
        }
    }

    /// The sectors of a range that is accepted; the refusal of another is appended.
    fn accept(&mut self, range: Range, out: &mut Vec<u8>) -> Option<std::ops::Range<usize>> {
        let (start, end) = (range.start as usize, range.start as usize + range.count as usize);
        if self.depth > 0 {
            self.again += 1;
            out.extend(b"EAGAIN");
            return None;
        }
        if end > self.touched.len() {
            self.past_end += 1;
            out.extend(b"EIO");
            return None;
        }
        out.extend(b"ok ");
        self.limits.show_pieces(range.start, range.count, out);
        Some(start..end)
    }

    fn read(&mut self, range: Range, out: &mut Vec<u8>) {
        let Some(sectors) = self.accept(range, out) else { return };
        self.reads += 1;
        for touched in &mut self.touched[sectors.clone()] {
            if touched.written == self.span {
                std::process::exit(3);
            }
            touched.read = self.span;
        }
        out.push(b' ');
        show_runs(&self.disk[sectors.start * SECTOR..sectors.end * SECTOR], out);
    }

    fn write(&mut self, range: Range, pattern: &[u8], out: &mut Vec<u8>) {
        let Some(sectors) = self.accept(range, out) else { return };
        self.writes += 1;
        for touched in &mut self.touched[sectors.clone()] {
            if touched.read == self.span || touched.written == self.span {
                std::process::exit(3);
            }
            touched.written = self.span;
        }
        let bytes = &mut self.disk[sectors.start * SECTOR..sectors.end * SECTOR];
        match pattern {
            [byte] => bytes.fill(*byte),
            _ => bytes.chunks_mut(pattern.len()).for_each(|part| part.copy_from_slice(&pattern[..part.len()])),
        }
    }

    fn change(&mut self, allowed: bool, change: impl FnOnce(&mut Limits), out: &mut Vec<u8>) {
        if !allowed {
            out.extend(b"EINVAL");
            return;
        }
        change(&mut self.limits);
        if self.depth == 0 {
            self.span += 1;
        }
        out.extend(b"ok");
    }

    fn freeze(&mut self, out: &mut Vec<u8>) {
        self.depth += 1;
        self.span += 1;
        write!(out, "depth {}", self.depth).unwrap();
    }

    fn thaw(&mut self, out: &mut Vec<u8>) {
        self.depth -= 1;
        write!(out, "depth {}", self.depth).unwrap();
    }

    fn stat(&mut self, out: &mut Vec<u8>) {
        self.span += 1;
        let Queue { reads, writes, again, past_end, depth, .. } = self;
        let Limits { max, chunk, .. } = self.limits;
        write!(out, "stat reads {reads} writes {writes} again {again} eio {past_end} ").unwrap();
        write!(out, "depth {depth} max {max} chunk {chunk} mode slots").unwrap();
    }

    /// Appends what a line is answered.
    fn take(&mut self, line: &Line, out: &mut Vec<u8>) {
        let hardware = self.limits.hardware;
        match line {
            Line::Read(range) => self.read(*range, out),
            Line::Write(range, pattern) => self.write(*range, pattern, out),
            Line::Freeze => self.freeze(out),
            Line::Thaw => self.thaw(out),
            Line::MaxSectors(0) => self.change(true, |limits| limits.max = hardware, out),
            Line::MaxSectors(max) => self.change(*max <= hardware, |limits| limits.max = *max, out),
            Line::ChunkSectors(chunk) => self.change(*chunk <= 65_535, |limits| limits.chunk = *chunk, out),
            Line::Stat => self.stat(out),
        }
    }
}

fn main() {
    let mut text = String::new();
    std::io::stdin().read_to_string(&mut text).unwrap();
    let mut told = text.lines().enumerate().filter_map(|(place, line)| {
        let words: Vec<&str> = line.split_ascii_whitespace().collect();
        (!words.is_empty() && !words[0].starts_with('#')).then_some((place + 1, words))
    });
    assert_eq!(told.next().unwrap().1, ["blkq", "1"]);
    let (_, disk) = told.next().unwrap();
    let mut queue = Queue::new(disk[1].parse().unwrap(), disk[3].parse().unwrap());
    let lines: Vec<(usize, Line)> = told.map(|(number, words)| (number, line(&words))).collect();
    let mut out = Vec::new();
    for (number, line) in &lines {
        write!(out, "{number} ").unwrap();
        queue.take(line, &mut out);
        out.push(b'\n');
    }
    out.extend(b"disk ");
    show_runs(&queue.disk, &mut out);
    out.push(b'\n');
    std::io::stdout().write_all(&out).unwrap();
}
