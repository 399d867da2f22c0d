//! On which slots the threads of a run count, and what else it does at its gate.

use crate::erased::blk_script::parse;
use crate::erased::blk_workers::{self, Config, NoStall, Point, Stall, run_checked};
use crate::erased::blkq_run::{command_held, run_bytes};
use crate::erased::counted_io::Counted;
use crate::erased::percpu_gate::Mode::{self, Atomic, Slots};
use crate::erased::script_overlap::Checked;
use crate::gate::Log;
use crate::gate::Step::{self, Dropped, Killed, Revived, Switched, Taken};
use crate::turns::until;
use std::collections::{HashMap, HashSet};
use std::sync::atomic::{AtomicU32, Ordering::SeqCst};
use std::thread::{self, ThreadId};

/// Holds each worker with its first request until all have one.
struct Together {
    workers: u32,
    drawn: AtomicU32,
}

impl Stall for Together {
    fn at(&self, _number: u32, point: Point) {
        if point == Point::Drawn {
            self.drawn.fetch_add(1, SeqCst);
            until(|| self.drawn.load(SeqCst) >= self.workers);
        }
    }
}

fn run(text: &str, config: [u32; 3], stall: &impl Stall) {
    let script = parse(text.as_bytes()).expect("a script");
    let [workers, slots, tags] = config;
    run_checked(
        &Checked::of(&script).expect("no overlap"),
        Config::new(workers, slots, tags).expect("a config"),
        stall,
    )
    .map_err(|_| ())
    .expect("a run");
}

/// A call that runs a script.
#[derive(Clone, Copy, Debug)]
enum Way {
    RunChecked,
    Run,
    RunBytes,
    /// The program, whose words are the sizes.
    Command,
}

const WAYS: [Way; 4] = [Way::RunChecked, Way::Run, Way::RunBytes, Way::Command];

/// Runs a script by this call.
fn run_by(way: Way, text: &str, config: [u32; 3], stall: &impl Stall) {
    let sizes = Config::new(config[0], config[1], config[2]).expect("a config");
    let (mut reader, mut writer) = (Counted::new(text.as_bytes()), Counted::new(Vec::new()));
    match way {
        Way::RunChecked => run(text, config, stall),
        Way::Run => drop(blk_workers::run(&parse(text.as_bytes()).expect("a script"), sizes, stall)),
        Way::RunBytes => run_bytes(&mut reader, &mut writer, sizes, stall).expect("a run"),
        Way::Command => {
            let words: Vec<String> = ["run".into()].into_iter().chain(config.map(|size| size.to_string())).collect();
            assert_eq!(command_held(&words, &mut reader, &mut writer, &mut Vec::new(), stall), 0);
        }
    }
}

/// Each worker leaves on one slot of its own, if there are enough, and not on the submitter's. If there are fewer, the workers spread over
/// all. It is so by each call.
#[test]
fn each_worker_leaves_on_a_slot_of_its_own() {
    let sizes = [(1, 1), (1, 2), (2, 2), (3, 4), (3, 8), (4, 2), (5, 3), (8, 64), (32, 33), (32, 16)];
    for (way, (workers, slots)) in WAYS.into_iter().flat_map(|way| sizes.map(|sizes| (way, sizes))) {
        let log = Log::begin();
        let reads = "read 0 1\n".repeat(4 * workers as usize);
        let together = Together { workers, drawn: AtomicU32::new(0) };
        run_by(way, &format!("blkq 1\ndisk 1 hw 1\n{reads}"), [workers, slots, workers], &together);
        let steps = log.by_thread();
        let submits = thread::current().id();
        assert!(
            steps.iter().all(|(thread, step)| !matches!(step, Taken(_)) || (submits, Taken(0)) == (*thread, *step))
        );
        let left = left_on(&steps);
        assert!(!left.contains_key(&submits), "the submitter leaves");
        assert_eq!(left.len(), workers as usize);
        let mut on = vec![0; slots as usize];
        for slots_of_one in left.into_values() {
            assert_eq!(slots_of_one.len(), 1, "a worker changes its slot");
            slots_of_one.into_iter().for_each(|slot| on[slot as usize] += 1);
        }
        let most = workers.div_ceil(slots);
        assert!(on.iter().all(|count| *count <= most), "{workers} workers on {slots} slots by {way:?}: {on:?}");
        assert!(on[0] == 0 || workers >= slots, "a worker has the submitter's slot: {on:?}");
    }
}

/// Returns the slots on which each thread dropped references, without repetition.
fn left_on(steps: &[(ThreadId, Step)]) -> HashMap<ThreadId, HashSet<u32>> {
    let mut left = HashMap::<_, HashSet<u32>>::new();
    for (thread, step) in steps {
        if let Dropped(slot) = step {
            left.entry(*thread).or_default().insert(*slot);
        }
    }
    left
}

/// A request of a run enters once and leaves once, on the slot of its worker, also behind thousands and around lines that drain.
#[test]
fn each_request_enters_once() {
    let reads = "read 0 8\n".repeat(50_000);
    let script = format!("blkq 1\ndisk 8 hw 8\n{reads}stat\nfreeze\nset max_sectors 2\nthaw\n{reads}");
    for slots in [1, 3] {
        let log = Log::begin();
        run(&script, [2, slots, 5], &NoStall);
        let steps = log.by_thread();
        let count = |is_so: fn(&Step) -> bool| steps.iter().filter(|(_, step)| is_so(step)).count();
        assert_eq!(count(|step| *step == Taken(0)), 100_000);
        assert_eq!(count(|step| matches!(step, Taken(_))), 100_000);
        assert_eq!(count(|step| matches!(step, Dropped(_))), 100_000);
        // One for the stat, one for the freeze, and one at the end.
        assert_eq!((count(|step| *step == Killed), count(|step| *step == Revived)), (3, 2));
        for slots_of_one in left_on(&steps).values() {
            assert_eq!(slots_of_one.len(), 1, "a worker changes its slot");
            assert_eq!(slots_of_one.contains(&0), slots == 1);
        }
    }
}

/// Returns the modes that a run of these lines switches to, one after the other.
fn modes(lines: &str) -> Vec<Mode> {
    let log = Log::begin();
    run(&format!("blkq 1\ndisk 1 hw 1\n{lines}"), [1, 2, 1], &NoStall);
    let switched = log.steps().into_iter().filter_map(|step| match step {
        Switched(mode) => Some(mode),
        _ => None,
    });
    let mut modes: Vec<Mode> = switched.collect();
    modes.dedup();
    modes
}

/// A run switches to the modes of its script, and to no other in between. It counts on slots at first.
#[test]
fn a_run_switches_when_its_script_does() {
    assert_eq!(modes("read 0 1\nstat\nfreeze\nset max_sectors 1\nthaw\nread 0 1\n"), [Slots]);
    assert_eq!(modes("mode atomic\nread 0 1\nstat\nmode atomic\nmode slots\nstat\n"), [Slots, Atomic, Slots]);
    assert_eq!(
        modes("freeze\nmode atomic\nmode slots\nstat\nthaw\nmode atomic\nstat\n"),
        [Slots, Atomic, Slots, Atomic]
    );
}
