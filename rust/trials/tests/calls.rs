//! Tests texts of calls with a fault: the player reports the line of the first one, and writes no answer. tests/rows has the rows without
//! faults.

use std::io::Write;
use std::process::{Command, Stdio};

/// A text after its first line, and its fault.
const REFUSED: &[(&str, &str)] = &[
    ("", "line 2: no world"),
    ("world 1 1 up 0\n", "line 2: unknown word"),
    ("queue 0 1 8\n", "line 2: out of range"),
    ("queue 1 1024 8\n", "line 2: out of range"),
    ("queue 1 1 65536\n", "line 2: out of range"),
    ("queue 1 1\n", "line 2: out of range"),
    ("world 1 1 slots 0\n0 held\n0 jump\n", "line 4: unknown word"),
    ("world 1 1 slots 0\nc jump\n", "line 3: unknown word"),
    ("world 1 1 slots 0\n0\n", "line 3: missing word"),
    ("world 1 1 slots 0\n0 try\n", "line 3: unknown word"),
    ("world 1 1 slots 0\n0 try 0 0\n", "line 3: unknown word"),
    ("world 1 1 slots 0\n0 try x\n", "line 3: bad number"),
    ("world 1 1 slots 0\n4294967296 held\n", "line 3: out of range"),
    ("world 1 1 slots 0\nf freeze\n", "line 3: unknown word"),
    ("queue 1 1 8\nc kill\n", "line 3: unknown word"),
    ("queue 1 1 8\n0 held\n", "line 3: unknown word"),
    ("queue 1 1 8\nf set 4 0\n", "line 3: unknown word"),
    // After the end a call is passed over, but a fault is still reported.
    ("world 1 1 slots 0\n0 retire\nc exit\n0 held\n0 jump\n", "line 6: unknown word"),
    ("queue 1 1 8\n0 give_back\nf remove\n0 entered\nf jump\n", "line 6: unknown word"),
];

/// Runs the player. Returns its status, and what it writes to both outputs.
fn played(text: &str) -> (Option<i32>, String, String) {
    let mut command = Command::new(env!("CARGO_BIN_EXE_play_calls"));
    let pipes = command.stdin(Stdio::piped()).stdout(Stdio::piped()).stderr(Stdio::piped());
    let mut player = pipes.spawn().expect("the player");
    player.stdin.take().expect("a pipe").write_all(text.as_bytes()).expect("a reader");
    let done = player.wait_with_output().expect("an end");
    let texts = [done.stdout, done.stderr].map(|bytes| String::from_utf8(bytes).expect("a text"));
    let [out, errors] = texts;
    (done.status.code(), out, errors)
}

#[test]
fn faults_are_told_by_their_lines() {
    for (text, fault) in REFUSED {
        assert_eq!(played(&format!("calls 1\n{text}")), (Some(2), String::new(), format!("{fault}\n")), "{text}");
    }
    for text in ["", "calls 2\n", "calls\n", "calls 1 1\n"] {
        assert_eq!(played(text), (Some(2), String::new(), "line 1: no version\n".into()), "{text}");
    }
}
