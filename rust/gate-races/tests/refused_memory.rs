//! Refuses each allocation of a race's search in turn, and each growth of a map. Compares the memory that a watcher learns of with what is
//! allocated.
//! (This program has its own allocator, which refuses and counts, so it has `unsafe`.)
#![allow(unsafe_code)]

use gate_races::erased::counted_io::Counted;
use gate_races::erased::maps::{HashMap, TryMap};
use gate_races::erased::races_run::{Fault, Form, NoWatch, Watch, outcomes_bytes, outcomes_text};
use std::fs::{read, read_dir};
use std::io::{self, Read};
use std::path::{Path, PathBuf};

#[path = "../../trials/tests/shared/refused_thread.rs"]
mod refused_thread;
use refused_thread::{ALLOWED, BLOCKS, BYTES, IS_ONE};

/// An input that is read whole, and counts its reads.
struct Feed<'a> {
    rest: &'a [u8],
    reads: u32,
}

impl Read for Feed<'_> {
    fn read(&mut self, buf: &mut [u8]) -> io::Result<usize> {
        self.reads += 1;
        self.rest.read(buf)
    }
}

/// Searches a race with one allocation refused, after this many succeed. Returns whether that allocation was made.
fn one_run(race: &[u8], answer: &[u8], allowed: u64) -> bool {
    let mut room = vec![0; answer.len() + 1];
    let mut feed = Feed { rest: race, reads: 0 };
    let blocks = BLOCKS.get();
    IS_ONE.set(true);
    ALLOWED.set(Some(allowed));
    let (mut reader, mut writer) = (Counted::new(&mut feed), Counted::new(&mut room[..]));
    let answered = outcomes_bytes(&mut reader, &mut writer, Form::Outcomes, None, &mut NoWatch).map(drop);
    let is_refused = ALLOWED.take().is_none();
    assert_eq!(BLOCKS.get(), blocks, "a block is left");
    assert!(feed.reads <= 2, "the input was read again");
    match answered {
        Ok(()) => assert!(room.starts_with(answer) && room.ends_with(&[0])),
        Err(fault) => assert!(is_refused && matches!(fault, Fault::Memory) && room.iter().all(|byte| *byte == 0)),
    }
    is_refused
}

/// The search either doesn't make that allocation, or returns that it was refused and writes nothing. It frees its blocks.
#[test]
fn each_allocation_of_a_search() {
    let here = Path::new(env!("CARGO_MANIFEST_DIR"));
    let folders = [here.join("../../examples/races"), here.join("tests/refused")];
    let files = folders.iter().flat_map(|folder| read_dir(folder).unwrap());
    let mut races: Vec<PathBuf> = files.map(|entry| entry.unwrap().path()).collect();
    races.retain(|path| path.extension().is_some_and(|kind| kind == "races"));
    assert!(races.len() > 5);
    for path in races {
        let (race, answer) = (read(&path).unwrap(), read(path.with_extension("answer")).unwrap());
        let asked = (0..u64::MAX).find(|allowed| !one_run(&race, &answer, *allowed)).unwrap();
        assert!(asked > 100, "{}", path.display());
    }
}

/// If a growth is refused, the map stays as it was.
#[test]
fn a_refused_growth_of_a_map() {
    let mut map = HashMap::default();
    for key in 0..3 {
        assert_eq!(map.try_put(key, key), Ok(None));
    }
    ALLOWED.set(Some(0));
    let mut put = Ok(None);
    let mut keys = 3;
    while put.is_ok() {
        put = map.try_put(keys, keys);
        keys += 1;
    }
    let is_kept = map.len() == keys - 1 && (0..keys - 1).all(|key| map.get(&key) == Some(&key));
    ALLOWED.set(None);
    assert!(is_kept);
    assert_eq!(map.try_put(keys - 1, 7), Ok(None));
    assert_eq!(map.try_put(keys - 1, 8), Ok(Some(7)));
    assert_eq!(map.len(), keys);
}

/// The first and the last report of a search: the number of states, the bytes that they are said to take, and those in use.
#[derive(Default)]
struct Heap(Vec<(f64, f64, f64)>);

impl Watch for Heap {
    #[expect(clippy::cast_precision_loss, reason = "the numbers are small")]
    fn keeps(&mut self, moments: usize, bytes: u64) {
        if self.0.len() == 2 {
            self.0.pop();
        }
        self.0.push((moments as f64, bytes as f64, BYTES.get() as f64));
    }

    fn ended(&mut self) {}
}

/// The bytes that are told for each state of this race, as a share of those that it takes.
fn share_told(race: &str) -> f64 {
    let mut heap = Heap(Vec::with_capacity(2));
    assert!(outcomes_text(race.as_bytes(), Form::Summary, None, &mut heap).is_ok(), "{race}");
    let [(few, first_told, first), (many, last_told, last)] = heap.0[..] else { panic!("two reports") };
    assert!(many - few > 100.0);
    (last_told - first_told) / (last - first)
}

/// The bytes that a watcher learns of are about those that the states take, of any number of slots and passes.
#[test]
fn bytes_of_states() {
    let calls = vec!["dying"; 300].join(" / ");
    for start in ["slots", "atomic"] {
        for slots in [1, 8, 33, 64] {
            for passes in [1, 3, 8, 33, 64] {
                let world = format!("{slots} {passes} {start} 0");
                let share = share_told(&format!("races 1\nworld {world}\n0 {calls}\n"));
                assert!((0.6..=1.1).contains(&share), "{share:.2} of world {world}");
            }
        }
    }
}
