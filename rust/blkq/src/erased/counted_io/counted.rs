// Erased from crates/counted_io/src/counted.rt by tools/erase: edit that file.
//! A reader or writer whose failures are counted.

use std::io::{Error, ErrorKind, Read, Result, Write};

/// A reader or a writer, with the number of its failures, of its breaks, and of the last interruptions in a row. In contracts these
/// are `inner`, `failures`, `breaks` and `in_row`.
///
/// A failure is an error of `read` or `write` of any kind, including an interruption, or a `write` of one byte or more that takes
/// nothing. A failure other than an interruption is a break; retrying doesn't help. Clauses relate the counts to what this type's
/// `read` and `write` return. That these pass on what the inner ones return is only tested.
#[derive(Debug)]
pub struct Counted<T> {
    inner: T,
    failures: u64,
    breaks: u64,
    in_row: u64,
}

/// Returns whether an error isn't an interruption.
pub(crate) fn lasts(e: &Error) -> bool {
    e.kind() != ErrorKind::Interrupted
}

impl<T> Counted<T> {
    /// Wraps `inner`, with no failure so far.
    pub fn new(inner: T) -> Self {
        Counted { inner, failures: 0, breaks: 0, in_row: 0 }
    }

    /// Returns the number of failures so far. At `u64::MAX` the count stays, and clauses treat it as grown.
    pub fn failures(&self) -> u64 {
        self.failures
    }

    /// Returns the number of failures so far, without interruptions. At `u64::MAX` the count stays.
    pub fn breaks(&self) -> u64 {
        self.breaks
    }

    fn count_one(&mut self, lasts: bool) {
        if lasts {
            self.breaks = self.breaks.saturating_add(1);
            self.in_row = 0;
        } else {
            self.in_row = self.in_row.saturating_add(1);
        }
        if self.failures < u64::MAX {
            self.failures += 1;
        }
    }
}

impl<R: Read> Read for Counted<R> {
    fn read(&mut self, buf: &mut [u8]) -> Result<usize> {
        let answer = self.inner.read(buf);
        match &answer {
            Ok(_) => self.in_row = 0,
            Err(e) => self.count_one(lasts(e)),
        }
        answer
    }
}

impl<W: Write> Write for Counted<W> {
    fn write(&mut self, buf: &[u8]) -> Result<usize> {
        let answer = self.inner.write(buf);
        match &answer {
            Ok(taken) => {
                self.in_row = 0;
                if *taken == 0 && !buf.is_empty() {
                    self.count_one(true);
                }
            }
            Err(e) => self.count_one(lasts(e)),
        }
        answer
    }

    /// Flushes the inner writer. This isn't counted, since it is neither a read nor a write.
    fn flush(&mut self) -> Result<()> {
        self.inner.flush()
    }
}
