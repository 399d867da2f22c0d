//! Tests the disk from inside: examples by hand, and calls compared with plain loops over bytes.

use blkq::erased::blk_script::parse;
use blkq::erased::fallible::TryClone;
use blkq::erased::in_flight::{Workbench, answer_to};
use blkq::erased::queue_limits::Limits;
use blkq::erased::ram_disk::{Disk, DiskFault, SECTOR_BYTES, Sector, Sectors, patterned, runs};
use std::collections::BTreeSet;

// The bytes of sectors, one after another.
fn joined(sectors: &[Sector]) -> Vec<u8> {
    sectors.iter().flat_map(|sector| sector.bytes()).copied().collect()
}

// The runs of bytes, counted one byte at a time.
fn plain_runs(bytes: &[u8]) -> Vec<(u8, u64)> {
    let mut runs: Vec<(u8, u64)> = Vec::new();
    for byte in bytes {
        match runs.last_mut() {
            Some((last, count)) if last == byte => *count += 1,
            _ => runs.push((*byte, 1)),
        }
    }
    runs
}

// The bytes that the tests take patterns from: no two neighbours are equal.
const SAMPLE: [u8; 64] = [
    9, 200, 31, 0, 255, 17, 64, 3, 128, 77, 5, 250, 42, 1, 99, 180, 12, 201, 34, 2, 254, 18, 65, 4, 129, 78, 6, 251,
    43, 7, 100, 181, 13, 202, 35, 8, 253, 19, 66, 10, 130, 79, 11, 252, 44, 14, 101, 182, 15, 203, 36, 16, 249, 20, 67,
    21, 131, 80, 22, 248, 45, 23, 102, 183,
];

#[test]
fn patterns_are_the_plain_ones() {
    for length in [1usize, 2, 3, 7, 63, 64] {
        let pattern = &SAMPLE[..length];
        let sectors = patterned(pattern, 130).unwrap();
        let bytes = joined(&sectors);
        assert_eq!(bytes.len(), 130 * SECTOR_BYTES);
        for (place, byte) in bytes.iter().enumerate() {
            assert!(*byte == pattern[place % length], "at {place} of length {length}");
        }
        let counted = runs(&sectors).unwrap();
        let plain = plain_runs(&bytes);
        assert!(counted == plain, "length {length}");
    }
}

// A write of one byte value leaves sectors that take no memory, whatever its length, and a read finds such sectors again.
#[test]
fn sectors_of_one_byte_take_no_memory() {
    const SECTORS: u32 = 4_096;
    let mut bench = Workbench::new();
    let limits = Limits::start(8).unwrap();
    for byte in 0..=255_u8 {
        let mut disk = Disk::new(SECTORS).unwrap();
        for (count, times) in [(1, 1), (2, 1), (63, 2), (SECTORS - 1, 64), (SECTORS, 1)] {
            let pattern = format!("{byte:02x}").repeat(times);
            let script = parse(format!("blkq 2\ndisk 4096 hw 8\nwrite 0 {count} {pattern}\n").as_bytes()).unwrap();
            let left = answer_to(&mut bench, &script, 0, limits, &Sectors::none()).unwrap().sectors;
            assert!(matches!(left, Sectors::Filled { byte: of, count: many } if (of, many) == (byte, count)));
            disk.leave(0, left);
            assert!(disk.sectors().iter().take(count as usize).all(|sector| sector.bytes() == [byte; SECTOR_BYTES]));
            let found = disk.find(0, count).unwrap();
            assert!(matches!(found, Sectors::Filled { byte: of, count: many } if (of, many) == (byte, count)));
            let is_listed = matches!(disk.find(0, SECTORS), Ok(Sectors::Listed(_)));
            assert_eq!(is_listed, byte > 0 && count < SECTORS, "{count} sectors of {byte}, and others");
        }
    }
}

// A list of sectors is left and found as it is, and one sector of it alone.
#[test]
fn other_sectors_are_listed() {
    let mut disk = Disk::new(8).unwrap();
    disk.leave(1, Sectors::patterned(&SAMPLE[..3], 4).unwrap());
    let Sectors::Listed(found) = disk.find(0, 8).unwrap() else { panic!("sectors of one byte") };
    assert_eq!(joined(&found), joined(disk.sectors()));
    let Sectors::Listed(found) = disk.find(2, 1).unwrap() else { panic!("a sector of one byte") };
    assert_eq!(joined(&found), joined(&disk.sectors()[2..3]));
    assert!(matches!(disk.find(5, 3), Ok(Sectors::Filled { byte: 0, count: 3 })));
    assert!(matches!(disk.find(8, 1), Err(DiskFault::PastEnd)) && matches!(disk.find(9, 0), Err(DiskFault::PastEnd)));
}

// A pattern makes each of its different sectors once, however many are asked for: its length by the greatest common divisor with a sector's, and
// one if it has one byte.
#[test]
fn a_pattern_makes_each_sector_once() {
    let made = |pattern: &[u8], count| {
        let sectors = patterned(pattern, count).unwrap();
        sectors.iter().map(|sector| sector.bytes().as_ptr()).collect::<BTreeSet<_>>().len()
    };
    for length in 1..=64_usize {
        // A sector's length is a power of two, and no pattern is longer.
        let different = length >> length.trailing_zeros();
        for count in [0, 1, 2, 3, 31, 62, 63, 64, 200, 1_025, 4_096] {
            let most = count as usize;
            assert_eq!(made(&SAMPLE[..length], count), different.min(most), "{count} sectors of {length} bytes");
            assert_eq!(made(&[7; 64][..length], count), most.min(1), "{count} sectors of {length} equal bytes");
        }
    }
}

// The runs of this many sectors of a pattern.
fn runs_of_pattern(pattern: &[u8], count: u32) -> Vec<(u8, u64)> {
    runs(&patterned(pattern, count).unwrap()).unwrap()
}

#[test]
fn a_pattern_of_one_byte_is_one_run() {
    let counted = runs_of_pattern(&[97, 97], 130);
    assert_eq!(counted, [(97, 66_560)]);
    let none = runs_of_pattern(&[97], 0);
    assert!(none.is_empty());
}

// The bytes at places 511 and 512 are both 7.
#[test]
fn runs_go_over_edges() {
    let sectors = patterned(&[8, 7, 7], 2).unwrap();
    let plain = plain_runs(&joined(&sectors));
    let counted = runs(&sectors).unwrap();
    assert!(counted == plain);
    assert_eq!((counted.len(), counted.get(341)), (683, Some(&(7, 2))));
}

// A sector of many runs between sectors of one run, of the bytes that it begins and ends with.
#[test]
fn runs_go_over_edges_of_a_disk() {
    let mut disk = Disk::new(3).unwrap();
    disk.install(1, patterned(&[0, 0, 1, 0], 1).unwrap());
    let all = disk.all_runs().unwrap();
    let told = (all.len(), all.first(), all.last());
    assert_eq!(told, (257, Some(&(0, 514)), Some(&(0, 513))));
}

// A read before the write keeps its bytes.
#[test]
fn writes_go_where_asked() {
    let mut disk = Disk::new(4).unwrap();
    let before = disk.share(0, 4).unwrap();
    disk.install(1, patterned(&[97], 2).unwrap());
    disk.install(4, patterned(&[98], 0).unwrap());
    let (old, new) = (runs(&before).unwrap(), disk.all_runs().unwrap());
    assert_eq!(old, [(0, 2048)]);
    assert_eq!(new, [(0, 512), (97, 1024), (0, 512)]);
}

#[test]
fn a_part_of_a_disk() {
    let mut disk = Disk::new(4).unwrap();
    disk.install(1, patterned(&[97], 2).unwrap());
    let part = disk.share(2, 2).unwrap();
    let copy = part[0].try_clone().unwrap();
    assert!(copy.bytes() == part[0].bytes());
    let counted = runs(&part).unwrap();
    assert_eq!(counted, [(97, 512), (0, 512)]);
}

// Each byte of a pattern with no two equal neighbours is a run, and a whole disk of them isn't too many.
#[test]
fn as_many_runs_as_bytes() {
    let counted = runs_of_pattern(&SAMPLE, 4096);
    assert_eq!(counted.len(), 4096 * SECTOR_BYTES);
}

#[test]
fn the_largest_disk() {
    let mut disk = Disk::new(4096).unwrap();
    assert_eq!(disk.all_runs().unwrap(), [(0, 2_097_152)]);
    assert_eq!(disk.share(0, 4096).unwrap().len(), 4096);
    assert_eq!(disk.share(4095, 1).unwrap().len(), 1);
    assert_eq!(disk.share(0, 4097).err(), Some(DiskFault::PastEnd));
    disk.install(0, patterned(&[255], 4096).unwrap());
    assert_eq!(disk.all_runs().unwrap(), [(255, 2_097_152)]);
}

// The number of sectors of a range that a disk of 4 sectors shares.
fn count_shared(start: u64, count: u32) -> Result<usize, DiskFault> {
    let disk = Disk::new(4)?;
    Ok(disk.share(start, count)?.len())
}

#[test]
fn disk_by_hand() {
    let rows = [
        (0, 4, Ok(4)),
        (3, 2, Err(DiskFault::PastEnd)),
        (4, 0, Ok(0)),
        (5, 0, Err(DiskFault::PastEnd)),
        (u64::MAX, u32::MAX, Err(DiskFault::PastEnd)),
    ];
    for (start, count, shared) in rows {
        assert_eq!(count_shared(start, count), shared, "{count} from {start}");
    }
}

#[test]
fn a_new_disk_by_hand() {
    let disk = Disk::new(4).unwrap();
    assert_eq!(disk.len(), 4);
    let first = disk.share(0, 1).unwrap();
    assert_eq!(runs(&first).unwrap(), [(0, 512)]);
    assert_eq!(disk.all_runs().unwrap(), [(0, 2048)]);
}

#[test]
fn a_second_sector_by_hand() {
    let sectors = patterned(&[1, 2, 3], 2).unwrap();
    let second = sectors[1].bytes();
    assert_eq!((second.first(), second.last()), (Some(&3), Some(&1)));
}

#[test]
fn faults_have_numbers_and_texts() {
    let rows = [(DiskFault::PastEnd, 1, "past the end of the disk"), (DiskFault::Memory, 2, "out of memory")];
    for (fault, number, text) in rows {
        assert_eq!((fault.number(), fault.to_string().as_str()), (number, text));
    }
}
