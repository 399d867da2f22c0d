//! The limits from inside: ranges that are cut by hand, each refusal with the ones that it goes before, and their texts.

use blkq::erased::queue_limits::{LimitFault, Limits};

#[path = "shared/texts.rs"]
mod texts;
use texts::texts_of;

struct Row<'a> {
    limits: (u32, u32, u32),
    physical: u32,
    start: u32,
    count: u32,
    pieces: &'a [u32],
}

fn cut<'a>(limits: (u32, u32, u32), start: u32, count: u32, pieces: &'a [u32]) -> Row<'a> {
    cut_by_block(limits, 1, start, count, pieces)
}

fn cut_by_block<'a>(limits: (u32, u32, u32), physical: u32, start: u32, count: u32, pieces: &'a [u32]) -> Row<'a> {
    Row { limits, physical, start, count, pieces }
}

fn check_rows(rows: &[Row]) {
    for row in rows {
        let (hw, max, chunk) = row.limits;
        let mut limits = Limits::new(hw, max, chunk).unwrap();
        limits.set_physical(row.physical).unwrap();
        let start = u64::from(row.start);
        let found: Vec<u32> = limits.pieces(start, row.count).collect();
        assert_eq!(found, row.pieces, "{start} {hw} {max} {chunk} {}", row.physical);
        if row.count > 0 {
            let first = limits.next_piece(start, row.count);
            assert_eq!(row.pieces.first().copied(), Some(first));
        }
    }
}

#[test]
fn pieces_across_chunks() {
    let rows = [
        cut((100, 0, 5), 3, 12, &[2, 5, 5]),
        cut((8, 8, 1), 7, 3, &[1, 1, 1]),
        cut((8, 1, 5), 4, 3, &[1, 1, 1]),
        cut((8, 8, 4), 8, 6, &[4, 2]),
        cut((8, 8, 4), 7, 6, &[1, 4, 1]),
        cut((16, 4, 8), 6, 6, &[2, 4]),
        cut((10, 10, 6), 0, 12, &[6, 6]),
        cut((10, 4, 6), 0, 12, &[4, 2, 4, 2]),
        cut((10, 4, 6), 5, 8, &[1, 4, 2, 1]),
        cut((100, 100, 7), 20, 15, &[1, 7, 7]),
        cut((8, 0, 8), 4_294_967_295, 10, &[1, 8, 1]),
        cut((65_535, 0, 65_535), 1, 65_535, &[65_534, 1]),
        cut((65_535, 0, 65_535), 4_294_967_295, 65_535, &[65_535]),
    ];
    check_rows(&rows)
}

#[test]
fn pieces_without_a_chunk() {
    let rows = [
        cut((8, 8, 0), 0, 20, &[8, 8, 4]),
        cut((8, 3, 0), 5, 7, &[3, 3, 1]),
        cut((8, 8, 0), 0, 8, &[8]),
        cut((8, 8, 0), 3, 0, &[]),
        cut((8, 1, 0), 0, 3, &[1, 1, 1]),
        cut((8, 8, 0), 4_294_967_295, 10, &[8, 2]),
        cut((65_535, 0, 0), 0, 65_535, &[65_535]),
        cut((65_535, 40_000, 0), 9, 65_535, &[40_000, 25_535]),
    ];
    check_rows(&rows)
}

#[test]
fn pieces_that_end_with_a_block() {
    let rows = [
        cut_by_block((10, 10, 6), 4, 0, 12, &[4, 2, 6]),
        cut_by_block((10, 10, 0), 4, 3, 20, &[9, 8, 3]),
        cut_by_block((10, 10, 0), 4, 0, 20, &[8, 8, 4]),
        cut_by_block((10, 10, 0), 4, 1, 11, &[7, 4]),
        cut_by_block((10, 10, 0), 8, 0, 25, &[8, 8, 9]),
        cut_by_block((10, 5, 0), 2, 0, 11, &[4, 4, 3]),
        cut_by_block((10, 5, 0), 2, 1, 11, &[5, 4, 2]),
        cut_by_block((9, 9, 0), 4, 2, 10, &[6, 4]),
        cut_by_block((8, 8, 0), 8, 0, 9, &[8, 1]),
        cut_by_block((8, 8, 0), 1, 3, 17, &[8, 8, 1]),
        // The rest is one piece if the limits allow it, wherever it ends.
        cut_by_block((10, 10, 0), 4, 0, 10, &[10]),
        cut_by_block((9, 9, 0), 4, 2, 9, &[9]),
        cut_by_block((8, 8, 0), 8, 0, 8, &[8]),
        cut_by_block((8, 8, 0), 8, 3, 0, &[]),
    ];
    check_rows(&rows)
}

#[test]
fn pieces_where_blocks_do_not_fit() {
    let rows = [
        // The block is larger than the limit.
        cut_by_block((10, 3, 0), 4, 0, 8, &[3, 1, 3, 1]),
        cut_by_block((10, 10, 0), 16, 0, 30, &[10, 6, 10, 4]),
        cut_by_block((10, 10, 0), 16, 15, 20, &[1, 10, 9]),
        cut_by_block((8, 1, 0), 4, 2, 3, &[1, 1, 1]),
        // The chunk is smaller than the block, or no multiple of it.
        cut_by_block((10, 10, 4), 8, 0, 12, &[4, 4, 4]),
        cut_by_block((10, 10, 4), 8, 2, 11, &[2, 4, 4, 1]),
        cut_by_block((10, 10, 6), 4, 1, 12, &[3, 2, 6, 1]),
        cut_by_block((10, 4, 6), 4, 0, 12, &[4, 2, 2, 4]),
        cut_by_block((10, 10, 7), 2, 20, 15, &[1, 7, 7]),
        cut_by_block((10, 10, 7), 2, 0, 14, &[6, 1, 7]),
        cut_by_block((10, 10, 12), 8, 5, 20, &[3, 4, 4, 8, 1]),
        // The greatest numbers.
        cut_by_block((8, 8, 0), 4, 4_294_967_295, 10, &[5, 5]),
        cut_by_block((8, 8, 8), 4, 4_294_967_295, 10, &[1, 8, 1]),
        cut_by_block((65_535, 0, 0), 32_768, 4_294_967_295, 65_535, &[65_535]),
        cut_by_block((65_535, 0, 0), 32_768, 0, 100_000, &[32_768, 32_768, 34_464]),
        cut_by_block((65_535, 0, 65_535), 32_768, 32_767, 65_536, &[1, 32_767, 32_768]),
    ];
    check_rows(&rows)
}

fn numbers_of(limits: &Limits) -> (u32, u32, u32, u32) {
    (limits.hw(), limits.max(), limits.chunk(), limits.physical())
}

#[test]
fn limits_by_hand() {
    let refused = [
        ((0, 0, 0), LimitFault::HardwareRange),
        ((65_536, 0, 0), LimitFault::HardwareRange),
        ((0, 1, 65_536), LimitFault::HardwareRange),
        ((8, 9, 65_536), LimitFault::AboveHardware),
        ((8, 9, 0), LimitFault::AboveHardware),
        ((8, 8, 65_536), LimitFault::ChunkTooLarge),
    ];
    for ((hw, max, chunk), fault) in refused {
        assert_eq!(Limits::new(hw, max, chunk), Err(fault), "{hw} {max} {chunk}");
    }
    for (limits, numbers) in [
        (Limits::new(65_535, 0, 65_535), (65_535, 65_535, 65_535, 1)),
        (Limits::new(8, 3, 5), (8, 3, 5, 1)),
        (Limits::start(8), (8, 8, 0, 1)),
    ] {
        assert_eq!(numbers_of(&limits.unwrap()), numbers);
    }
    assert_eq!(Limits::start(65_536), Err(LimitFault::HardwareRange));
}

#[test]
fn settings_and_words() {
    let mut limits = Limits::new(8, 3, 5).unwrap();
    assert_eq!(limits.set_max(9), Err(LimitFault::AboveHardware));
    assert_eq!(limits.set_chunk(65_536), Err(LimitFault::ChunkTooLarge));
    for physical in [0, 3, 65_536] {
        assert_eq!(limits.set_physical(physical), Err(LimitFault::BadPhysical));
    }
    assert_eq!(limits.to_words(), [3, 5, 1]);
    limits.set_max(0).unwrap();
    limits.set_chunk(65_535).unwrap();
    limits.set_physical(32_768).unwrap();
    assert_eq!(limits.to_words(), [8, 65_535, 32_768]);
    for (words, max, chunk, physical) in [
        ([9, 70_000, 3], 8, 0, 1),
        ([0, 65_535, 0], 8, 65_535, 1),
        ([8, 0, 65_536], 8, 0, 1),
        ([1, 65_536, 32_768], 1, 0, 32_768),
        ([1, 2, 1 << 32], 1, 2, 1),
    ] {
        let limits = Limits::from_words(8, words);
        assert_eq!(numbers_of(&limits), (8, max, chunk, physical));
    }
}

#[test]
fn faults_have_numbers_and_texts() {
    use LimitFault::{AboveHardware, BadPhysical, ChunkTooLarge, HardwareRange};
    let texts = [
        "more sectors than the hardware takes",
        "a chunk of more than 65535 sectors",
        "a hardware limit outside 1 to 65535 sectors",
        "a physical block that isn't a power of two from 1 to 32768 sectors",
    ];
    let faults = [AboveHardware, ChunkTooLarge, HardwareRange, BadPhysical];
    assert_eq!(faults.map(|it| it.number()), [1, 2, 3, 4]);
    assert_eq!(texts_of(faults), texts);
}
