//! Tests a device that fails more often than any run calls it: each call is still passed on to the device.

use blkq::erased::counted_io::Counted;
use std::io::{Error, ErrorKind, Read, Result, Write};

const FAILURES: u64 = 100_000;

/// Fails this many times, and counts its calls.
#[derive(Default)]
struct Device {
    failing: u64,
    reads: u64,
    writes: u64,
    flushes: u64,
}

impl Device {
    fn fails(&mut self) -> Result<()> {
        match self.failing.checked_sub(1) {
            Some(left) => {
                self.failing = left;
                Err(Error::from(ErrorKind::Interrupted))
            }
            None => Ok(()),
        }
    }
}

impl Read for Device {
    fn read(&mut self, room: &mut [u8]) -> Result<usize> {
        self.reads += 1;
        self.fails().map(|()| room.len())
    }
}

impl Write for Device {
    fn write(&mut self, bytes: &[u8]) -> Result<usize> {
        self.writes += 1;
        self.fails().map(|()| bytes.len())
    }

    fn flush(&mut self) -> Result<()> {
        self.flushes += 1;
        Ok(())
    }
}

/// Each read and each write is one of the device's, which flushes when it is told to, and at no other time.
#[test]
fn a_device_that_fails_very_often() {
    let mut device = Device { failing: FAILURES, ..Device::default() };
    let mut counted = Counted::new(&mut device);
    for call in 1..=FAILURES {
        let failed = if call % 2 == 0 { counted.read(&mut [0]) } else { counted.write(&[0]) };
        assert!(failed.is_err());
        if call % 1_000 == 0 {
            counted.flush().unwrap();
        }
    }
    assert_eq!(counted.failures(), FAILURES);
    assert_eq!((counted.write(&[0, 1, 2]).unwrap(), counted.read(&mut [0; 4]).unwrap()), (3, 4));
    counted.flush().unwrap();
    let Device { reads, writes, flushes, .. } = device;
    assert_eq!((reads, writes, flushes), (FAILURES / 2 + 1, FAILURES / 2 + 1, FAILURES / 1_000 + 1));
}
