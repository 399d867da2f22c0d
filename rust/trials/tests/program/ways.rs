//! Ways to call the program, and readers and writers that fail.

use crate::driver::{Row, Sides, USAGE, WHOLE, WILLING, play_all};

const SCRIPT: &[u8] = b"blkq 1\ndisk 4 hw 8\n";

const ANSWER: &[u8] = b"disk 00*2048\n";

/// Both write sector 0.
const OVERLAP: &[u8] = b"blkq 1\ndisk 4 hw 8\nwrite 0 1 61\nwrite 0 1 62\n";

const SCHEDULE: &[u8] = b"gate 1\nworld 1 1 atomic 0\n0 add try\n";

const SHOWN: &[u8] = b"given\nend live 2 front 0 kills 0 releases 0 held 1\n";

/// A run of the script, and a replay of the schedule, that go well.
const RUN: Row = Row { input: SCRIPT, out: ANSWER, ..WHOLE };

const REPLAY: Row = Row { words: "replay", input: SCHEDULE, out: SHOWN, ..WHOLE };

/// The reader fails behind its input.
const READER_FAILS: Row =
    Row { sides: Sides { fails: true, ..WILLING }, status: 4, out: b"", errors: b"read\n", ..RUN };

/// The words ask for nothing: nothing is read, and nothing is written but how the program is called.
const ASKED: Row = Row { input: SCRIPT, status: 4, errors: USAGE, ..WHOLE };

const ROWS: &[Row] = &[
    Row { name: "usual sizes", ..RUN },
    Row { name: "the smallest sizes", words: "run 1 1 1", ..RUN },
    Row { name: "the greatest sizes", words: "run 32 64 63", ..RUN },
    Row { name: "no words", words: "", ..ASKED },
    Row { name: "a worker too many", words: "run 33 1 1", ..ASKED },
    Row { name: "a replay with sizes", words: "replay 1 1 1", ..ASKED },
    Row { name: "the reader fails at once", input: b"", ..READER_FAILS },
    Row { name: "the reader fails behind the script", ..READER_FAILS },
    Row {
        name: "the writer takes five bytes",
        sides: Sides { room: 5, ..WILLING },
        status: 4,
        out: b"disk ",
        errors: b"write\n",
        ..RUN
    },
    Row {
        name: "the writer takes nothing",
        sides: Sides { room: 0, ..WILLING },
        status: 4,
        out: b"",
        errors: b"write\n",
        ..RUN
    },
    Row { name: "the writer takes all, and no byte more", sides: Sides { room: 13, ..WILLING }, ..RUN },
    Row {
        name: "nobody takes the fault's line",
        sides: Sides { room: 12, room_for_errors: 0, ..WILLING },
        status: 4,
        out: b"disk 00*2048",
        errors: b"",
        ..RUN
    },
    Row { name: "a replay", ..REPLAY },
    Row {
        name: "a replay that is stuck",
        input: b"gate 1\nworld 1 1 atomic 0\n0 add try\nc join 0\n",
        status: 3,
        out: b"given\nstuck 4 still held\n",
        ..REPLAY
    },
    Row { name: "no schedule", input: b"gate 1\n", status: 2, out: b"", errors: b"line 2: no world\n", ..REPLAY },
    Row {
        name: "no schedule, and nobody takes the fault's line",
        input: b"gate 1\n",
        sides: Sides { room_for_errors: 0, ..WILLING },
        status: 2,
        out: b"",
        errors: b"",
        ..REPLAY
    },
    Row {
        name: "no script, and nobody takes the fault's line",
        input: b"blkq 1\n",
        sides: Sides { room_for_errors: 0, ..WILLING },
        status: 2,
        out: b"",
        errors: b"",
        ..RUN
    },
    Row { name: "an overlap", input: OVERLAP, status: 3, out: b"", errors: b"line 4: overlaps line 3\n", ..RUN },
    Row {
        name: "an overlap, and nobody takes the fault's line",
        input: OVERLAP,
        sides: Sides { room_for_errors: 0, ..WILLING },
        status: 3,
        out: b"",
        errors: b"",
        ..RUN
    },
    Row { name: "the reader fails behind the schedule", words: "replay", input: SCHEDULE, ..READER_FAILS },
    Row {
        name: "the writer takes four bytes of a replay",
        sides: Sides { room: 4, ..WILLING },
        status: 4,
        out: b"give",
        errors: b"write\n",
        ..REPLAY
    },
];

#[test]
fn ways_to_call_and_to_fail() {
    play_all(ROWS);
}
