//! Refuses memory to calls: each allocation of a call alone, and each with all later ones. The call then returns Memory, or its usual
//! result, and everything else is as before.
//! (This program has its own allocator, which refuses and counts on one thread, so it has `unsafe`.)
#![allow(unsafe_code)]

use blkq::erased::blk_script::{ScriptFault, check, parse, run_alone};
use blkq::erased::blk_workers::{Config, MOST_SLOTS, Point, Stall};
use blkq::erased::blkq_run::{command, run_bytes};
use blkq::erased::counted_io::{Counted, WriteFault, write_whole};
use blkq::erased::freeze_queue::{BlockQueue, Limits, MOST_TAGS};
use blkq::erased::percpu_core::ControlEvent::MarkDead;
use blkq::erased::percpu_core::Event::{Control, Pass};
use blkq::erased::percpu_core::PassEvent::AddTry;
use blkq::erased::percpu_core::{Memory, ReplayFault, Reply, Start, World, replay};
use blkq::erased::percpu_gate::{self as gate, Gate};
use blkq::erased::ram_disk::{Disk, DiskFault, patterned, runs};
use std::io::{self, ErrorKind, Read, Write};
use std::sync::atomic::{AtomicI64, Ordering::SeqCst};

#[path = "shared/refused_thread.rs"]
mod refused_thread;
use refused_thread::{ALLOWED, BLOCKS, BYTES, IS_ONE};

/// Makes these calls with their first allocation refused, then again with the second, until there are no more; and the same with
/// all later ones refused too. `calls` returns whether all of them had memory. Each time all memory is freed. Returns the number of
/// allocations.
fn refuse_each(calls: impl Fn() -> bool) -> u64 {
    let [one, all] = [true, false].map(|is_one| {
        for allowed in 0.. {
            let blocks = BLOCKS.get();
            IS_ONE.set(is_one);
            ALLOWED.set(Some(allowed));
            let succeeded = calls();
            let left = ALLOWED.replace(None);
            assert_eq!(BLOCKS.get(), blocks, "a block is left");
            // The allocation was refused only if none is counted any more.
            if if is_one { left.is_some() } else { succeeded } {
                assert!(succeeded, "a refusal where there is memory");
                return allowed;
            }
        }
        unreachable!()
    });
    assert!(one >= all, "{one} {all}");
    one
}

fn is_for_threads<T: Send + Sync>(_value: &T) {}

/// Whether this number of runs was counted, and Memory wasn't returned.
fn has_runs(counted: Result<Vec<(u8, u64)>, DiskFault>, expected: usize) -> bool {
    match counted {
        Ok(runs) => assert_eq!(runs.len(), expected),
        Err(fault) => {
            assert_eq!(fault, DiskFault::Memory);
            return false;
        }
    }
    true
}

/// Each call of a disk, twice. A pattern that is refused leaves the sectors.
fn disk_calls() -> bool {
    let mut disk = match Disk::new(4) {
        Ok(disk) => disk,
        Err(fault) => {
            assert_eq!(fault, DiskFault::Memory);
            return false;
        }
    };
    is_for_threads(&disk);
    let (mut expected, mut succeeded) = (1, true);
    for (pattern, count) in [([1, 2, 3], 1026), ([4, 4, 4], 3)] {
        assert_eq!(disk.len(), 4);
        match patterned(&pattern, 2) {
            Ok(sectors) => {
                disk.install(1, sectors);
                expected = count;
            }
            Err(fault) => {
                assert_eq!(fault, DiskFault::Memory);
                succeeded = false;
            }
        }
        match disk.share(0, 4) {
            Ok(shared) => succeeded &= has_runs(runs(&shared), expected),
            Err(fault) => {
                assert_eq!(fault, DiskFault::Memory);
                succeeded = false;
            }
        }
        succeeded &= has_runs(disk.all_runs(), expected);
    }
    succeeded
}

#[test]
fn want_of_memory_changes_nothing() {
    assert!(refuse_each(disk_calls) > 10);
}

#[test]
fn want_of_memory_for_a_gate() {
    let asked = refuse_each(|| match Gate::<2>::new(4, 4, Start::Atomic, [1, 2]) {
        Ok((gate, control, passes)) => {
            assert_eq!((gate.slots(), passes.len(), control.words()), (4, 4, [1, 2]));
            true
        }
        Err(refused) => {
            assert_eq!(refused, Memory);
            false
        }
    });
    assert!(asked > 0);
}

/// A gate takes 128 bytes for each slot, and the size of a pass for each pass. When it ends, all of it is free again.
#[test]
fn a_gate_takes_memory_for_what_it_has() {
    let taken = |slots: u32, passes: u32| {
        let before = BYTES.get();
        let (gate, mut control, made) = Gate::<0>::new(slots, passes, Start::Slots, []).unwrap();
        let taken = BYTES.get() - before;
        made.into_iter().for_each(|pass| control.retire(&gate, pass));
        assert!(gate.exit(control).is_ok());
        assert_eq!(BYTES.get(), before, "{slots} slots, {passes} passes");
        taken
    };
    let least = taken(1, 1);
    for (slots, passes) in [(1, 2), (2, 1), (3, 5), (512, 1), (1, 1_024), (512, 1_024)] {
        let of_passes = size_of::<gate::Pass<0>>() as i64 * i64::from(passes - 1);
        assert_eq!(
            taken(slots, passes) - least,
            128 * i64::from(slots - 1) + of_passes,
            "{slots} slots, {passes} passes"
        );
    }
}

#[test]
fn want_of_memory_for_a_replay() {
    let asked = refuse_each(|| {
        let mut world = match World::new(2, 2, Start::Atomic, &[1, 2, 3]) {
            Ok(world) => world,
            Err(refused) => {
                assert_eq!(refused, Memory);
                return false;
            }
        };
        match replay(&mut world, &[Pass(0, AddTry), Control(MarkDead)]) {
            Ok(replies) => assert_eq!(replies, [Reply::Given, Reply::Done]),
            Err(fault) => {
                assert_eq!(fault, ReplayFault::Memory);
                assert_eq!((world.shared(), world.kills(), world.held_by_all()), (1, 0, 0));
                return false;
            }
        }
        true
    });
    assert!(asked > 1);
}

/// The largest queue.
#[test]
fn want_of_memory_for_a_queue() {
    let limits = Limits::start(8).unwrap();
    let asked = refuse_each(|| match BlockQueue::new(limits, 512, MOST_TAGS) {
        Ok((queue, freezer, tags)) => {
            assert_eq!((queue.slots(), freezer.depth(), tags.len()), (512, 0, 1_023));
            true
        }
        Err(refused) => {
            assert_eq!(refused, Memory);
            false
        }
    });
    assert!(asked > 0);
}

/// Lines of every kind, and what a run on one thread writes for them.
const EVERY_KIND: &[u8] = b"blkq 1\ndisk 4 hw 2\nwrite 0 3 61\nread 3 1\nfreeze\nread 0 1\nthaw\nset max_sectors 1\n\
    set chunk_sectors 65536\nwrite 2 2 00\nmode atomic\nread 4 1\nstat\nremove\nthaw\n";

const ITS_ANSWER: &[u8] = b"3 ok 2+1\n4 ok 1 00*512\n5 depth 1\n6 EAGAIN\n7 depth 0\n8 ok\n9 EINVAL\n10 ok 1+1\n11 ok\n12 EIO\n\
    13 stat reads 1 writes 2 again 1 eio 1 depth 0 max 1 chunk 0 mode atomic\n14 removed\n15 ENODEV\ndisk 61*1024,00*1024\n";

/// The answer of a script, or its fault.
fn answer(text: &[u8]) -> Result<Vec<u8>, ScriptFault> {
    let script = parse(text)?;
    check(&script)?;
    run_alone(&script)
}

#[test]
fn want_of_memory() {
    let asked = refuse_each(|| match answer(EVERY_KIND) {
        Ok(text) => {
            assert!(text == ITS_ANSWER);
            true
        }
        Err(fault) => {
            assert_eq!(fault, ScriptFault::Memory);
            false
        }
    });
    assert!(asked > 10);
}

/// A replay whose memory is refused writes nothing but this on standard error.
#[test]
fn want_of_memory_is_told() {
    let args = [String::from("replay")];
    let asked = refuse_each(|| {
        let (mut out, mut errors) = ([0; 99], [0; 99]);
        let (mut writer, mut says) = (Counted::new(out.as_mut_slice()), errors.as_mut_slice());
        let mut reader = Counted::new(b"gate 1\nworld 1 1 slots 0 7\n0 look 0\n".as_slice());
        let status = command(&args, &mut reader, &mut writer, &mut says);
        let said = 99 - says.len();
        if status == 0 {
            assert!(said == 0 && out.starts_with(b"open 0\nend "));
            return true;
        }
        assert!(status == 4 && errors[..said] == *b"memory\n" && out == [0; 99]);
        false
    });
    assert!(asked > 1);
}

/// Notes the bytes that the submitting thread has in use once its request has entered.
struct InUse(AtomicI64);

impl Stall for InUse {
    fn at(&self, _number: u32, point: Point) {
        if point == Point::Entered {
            self.0.store(BYTES.get(), SeqCst);
        }
    }
}

/// A run has as many slots as are asked for, which its memory alone shows: a queue takes 128 bytes for each.
#[test]
fn a_run_has_its_slots() {
    let taken = |slots: u32| {
        let (before, in_use) = (BYTES.get(), InUse(AtomicI64::new(0)));
        let mut reader = Counted::new(b"blkq 1\ndisk 1 hw 1\nread 0 1\n".as_slice());
        let config = Config::new(1, slots, 1).unwrap();
        run_bytes(&mut reader, &mut Counted::new(&mut Vec::new()), config, &in_use).unwrap();
        in_use.0.into_inner() - before
    };
    let least = taken(1);
    for slots in 1..=MOST_SLOTS {
        assert_eq!(taken(slots) - least, 128 * i64::from(slots - 1), "{slots} slots");
    }
}

/// Fails each time, with no memory.
struct Fails(ErrorKind);

impl Read for Fails {
    fn read(&mut self, _buf: &mut [u8]) -> io::Result<usize> {
        Err(self.0.into())
    }
}

impl Write for Fails {
    fn write(&mut self, _buf: &[u8]) -> io::Result<usize> {
        Err(self.0.into())
    }

    fn flush(&mut self) -> io::Result<()> {
        Err(self.0.into())
    }
}

/// A reader or a writer that fails takes no memory, whatever it fails with.
#[test]
fn a_failure_of_a_device_takes_no_memory() {
    const ALLOCATIONS: u64 = 1_000_000;
    for kind in [ErrorKind::Interrupted, ErrorKind::Other, ErrorKind::OutOfMemory, ErrorKind::BrokenPipe] {
        let mut counted = Counted::new(Fails(kind));
        IS_ONE.set(true);
        ALLOWED.set(Some(ALLOCATIONS));
        let mut failed = true;
        for _ in 0..1_000 {
            failed &= counted.read(&mut [0; 4]).is_err() && counted.write(b"text").is_err() && counted.flush().is_err();
        }
        let written = write_whole(&mut counted, b"text");
        let left = ALLOWED.replace(None);
        assert_eq!((failed, written, left), (true, Err(WriteFault { written: 0 }), Some(ALLOCATIONS)), "{kind:?}");
    }
}
