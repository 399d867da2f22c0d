//! Disks and runs of bytes.

use crate::draw;
use blkq::erased::fallible::TryClone;
use blkq::erased::ram_disk::{Disk, MAX_PATTERN, MAX_SECTORS, SECTOR_BYTES, add_sector, patterned, runs};

#[test]
fn disks() {
    draw(2_000, |sizes| {
        let sectors = sizes.small(1, MAX_SECTORS);
        let mut disk = Disk::new(sectors).unwrap();
        for _ in 0..sizes.count(0, 64) {
            let start = sizes.small(0, sectors - 1);
            let length = sizes.count(1, MAX_PATTERN);
            let (count, pattern) = (sizes.small(1, sectors - start), sizes.bytes(length));
            disk.install(start.into(), patterned(&pattern, count).unwrap());
        }
        let start = sizes.small(0, sectors - 1);
        let count = sizes.small(0, sectors - start);
        let shared = disk.share(start.into(), count).unwrap();
        let (found, all) = (runs(&shared).unwrap(), disk.all_runs().unwrap());
        let bytes = |runs: &[(u8, u64)]| runs.iter().map(|(_, count)| count).sum::<u64>();
        assert_eq!((bytes(&found), bytes(&all)), (u64::from(count) * 512, u64::from(sectors) * 512));
        let mut added = vec![];
        shared.iter().for_each(|sector| add_sector(&mut added, sector).unwrap());
        assert_eq!(added, found);
    });
}

/// A disk in which no two bytes beside one another are equal has a run for each byte.
#[test]
fn as_many_runs_as_bytes() {
    draw(400, |sizes| {
        let sectors = sizes.small(1, MAX_SECTORS);
        let mut disk = Disk::new(sectors).unwrap();
        disk.install(0, patterned(&[1, 2], sectors).unwrap());
        assert_eq!(disk.all_runs().unwrap().len(), sectors as usize * SECTOR_BYTES);
    });
}

/// Runs are counted of more sectors than a disk has too: of a pattern of any length, and of the sectors of several disks.
#[test]
fn runs_of_more_than_a_disk() {
    draw(150, |sizes| {
        let length = sizes.count(1, MAX_PATTERN);
        let pattern = sizes.bytes(length);
        let (uniform, tiled) = (sizes.small(0, 1 << 17), sizes.small(0, 5_000));
        let mut sectors = patterned(&pattern[..1], uniform).unwrap();
        sectors.extend(patterned(&pattern, tiled).unwrap());
        let disk = Disk::new(sizes.small(1, MAX_SECTORS)).unwrap();
        for _ in 0..sizes.count(0, 8) {
            sectors.extend(disk.share(0, disk.len()).unwrap());
        }
        sectors.extend(sectors.first().map(|sector| sector.try_clone().unwrap()));
        let found = runs(&sectors).unwrap();
        assert_eq!(found.iter().map(|(_, count)| count).sum::<u64>(), (sectors.len() * SECTOR_BYTES) as u64);
        assert!(found.is_sorted_by(|one, next| one.0 != next.0));
        let first = found.first().map_or(0, |run| run.1);
        assert!(first >= u64::from(uniform) * 512 && found.first().is_none_or(|run| run.0 == sectors[0].bytes()[0]));
    });
}
