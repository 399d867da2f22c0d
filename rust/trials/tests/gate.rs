//! The running gate from inside: its sizes, its texts, the closure of a kill, and threads that count. tests/rows has its rows of
//! calls.

use blkq::erased::percpu_gate::Put::{Last, NotLast};
use blkq::erased::percpu_gate::{Control, ControlFault, ExitWhy, Gate, Pass, Start, Tried};
use std::thread;

#[path = "shared/texts.rs"]
mod texts;
use texts::texts_of;

/// Every number of slots is had with every start, and with the most passes and guarded words; every number of passes with one slot
/// and no word.
#[test]
fn every_size_is_made() {
    for start in [Start::Slots, Start::Atomic, Start::Dead] {
        for size in 1..=512 {
            let (gate, control, passes) = Gate::<8>::new(size, 1_024, start, [9; 8]).unwrap();
            assert_eq!((gate.slots(), passes.len(), control.words()), (size, 1_024, [9; 8]));
        }
        for size in 1..=1_024 {
            let (gate, control, passes) = Gate::<0>::new(1, size, start, []).unwrap();
            assert_eq!((gate.slots(), passes.len(), control.words()), (1, size as usize, []));
        }
    }
}

#[test]
fn texts_of_faults() {
    use ControlFault::{AlreadyDead, MidSwitch, NotDead, NotZero, WornOut};
    let texts = texts_of([AlreadyDead, NotDead, NotZero, MidSwitch, WornOut]);
    assert_eq!(texts, ["already dead", "not dead", "not zero", "mid switch", "worn out"]);
    for (why, number, text) in [(ExitWhy::MidSwitch, 4, "mid switch"), (ExitWhy::PassesOut(1), 6, "1 passes out")] {
        assert_eq!((why.number(), why.to_string().as_str()), (number, text));
    }
}

/// A pass that was given a reference is given another by `try_get`, though the gate is killed between the two.
#[test]
fn given_once_given_again() {
    let (gate, mut control, mut passes) = Gate::<0>::new(1, 1, Start::Atomic, []).unwrap();
    let pass = &mut passes[0];
    assert_eq!(pass.try_get(&gate, 0), Tried::Given);
    control.kill(&gate).unwrap();
    assert_eq!(pass.try_get(&gate, 0), Tried::Given);
    assert_eq!((pass.put(&gate, 0, 2), pass.held()), (Last, 0));
}

/// While the closure of a kill runs, the odd front is stored and the initial reference still held: the gate is dying and not at zero,
/// in each of its lives and in either mode. The closure of a kill that is refused isn't called.
fn closure_finds_the_base_held<const W: usize>(start: Start, slots: u32, passes: u32) {
    let (gate, mut control, mut made) = Gate::new(slots, passes, start, [7; W]).unwrap();
    let pass = &mut made[0];
    let first = u64::from(start == Start::Dead);
    if start == Start::Dead {
        control.reinit(&gate).unwrap();
    }
    for life in first..first + 5 {
        assert_eq!(pass.front(&gate), 2 * life);
        let seen = control
            .kill_and_confirm(&gate, |front| (front, pass.front(&gate), pass.is_dying(&gate), pass.is_zero(&gate)));
        assert_eq!(seen, Ok((Last, (2 * life + 1, 2 * life + 1, true, false))));
        assert!(control.is_zero(&gate));
        let mut called = false;
        let again = control.kill_and_confirm(&gate, |_front| called = true);
        assert_eq!((again, called), (Err(ControlFault::AlreadyDead), false));
        control.reinit(&gate).unwrap();
        match life % 3 {
            0 => control.switch_to_atomic(&gate).unwrap(),
            1 => control.switch_to_slots(&gate).unwrap(),
            _ => (),
        }
    }
}

/// The same from each start, with the fewest and the most slots, passes and guarded words.
#[test]
fn closures_find_the_base_held() {
    for start in [Start::Slots, Start::Atomic, Start::Dead] {
        for (slots, passes) in [(1, 1), (1, 2), (1, 1_024), (512, 1), (512, 1_024)] {
            closure_finds_the_base_held::<0>(start, slots, passes);
            closure_finds_the_base_held::<1>(start, slots, passes);
            closure_finds_the_base_held::<8>(start, slots, passes);
        }
    }
}

/// A switch to the mode that is in force moves no count: the slot tells the kill what was counted there, in each life.
#[test]
fn a_switch_to_the_same_mode_moves_nothing() {
    let (gate, mut control, mut passes) = Gate::<0>::new(2, 1, Start::Slots, []).unwrap();
    let pass = &mut passes[0];
    for _life in 0..5 {
        assert_eq!(pass.try_get_live(&gate, 1), Tried::Given);
        pass.get(&gate, 1, 2);
        control.switch_to_slots(&gate).unwrap();
        assert_eq!(control.mark_dead(&gate), Ok(2));
        assert_eq!([control.close_next(&gate), control.close_next(&gate)], [0, 3]);
        control.collect(&gate);
        control.confirm(&gate);
        assert_eq!((control.drop_base(&gate), pass.put(&gate, 1, 3)), (NotLast, Last));
        control.reinit(&gate).unwrap();
    }
}

/// Which try a thread counts by.
#[derive(Clone, Copy)]
enum Form {
    TryGet,
    TryGetLive,
}

/// Takes a reference and puts it, 1,000 times. Returns how often one of the calls was the last.
fn count(gate: &Gate<0>, pass: &mut Pass<0>, slot: u32, form: Form) -> u64 {
    let mut last = 0;
    for _ in 0..1_000 {
        let tried = match form {
            Form::TryGet => pass.try_get(gate, slot),
            Form::TryGetLive => pass.try_get_live(gate, slot),
        };
        let answer = match tried {
            Tried::Given => pass.put(gate, slot, 1),
            Tried::Refused(answer) => answer,
        };
        last += u64::from(answer == Last);
    }
    last
}

/// Switches the mode in two calls of four, to one mode or the other, by a generator of numbers. No kill is under way, so no switch
/// is refused.
fn switch_at_random(gate: &Gate<0>, control: &mut Control<0>, seed: &mut u32) {
    *seed = seed.wrapping_mul(1_664_525).wrapping_add(1_013_904_223);
    match *seed >> 30 {
        0 => control.switch_to_atomic(gate).unwrap(),
        1 => control.switch_to_slots(gate).unwrap(),
        _ => (),
    }
}

/// Kills and revives 100 times; with switches the gate is switched at random while it is dead and while it is live. Returns how often
/// the kill was the last.
fn kill_and_revive(gate: &Gate<0>, control: &mut Control<0>, switches: bool) -> u64 {
    let (mut last, mut seed) = (0, 1);
    for _ in 0..100 {
        last += u64::from(control.kill(gate) == Ok(Last));
        if switches {
            switch_at_random(gate, control, &mut seed);
        }
        control.resurrect(gate).unwrap();
        if switches {
            switch_at_random(gate, control, &mut seed);
        }
    }
    last
}

/// Four threads count, each on its slot, while this one does something else. Returns how often a call of a pass was the last, and what
/// came of the other work. Then all passes are retired.
fn beside_four<T>(
    gate: &Gate<0>,
    control: &mut Control<0>,
    mut passes: Vec<Pass<0>>,
    slots: [u32; 4],
    form: Form,
    work: impl FnOnce(&Gate<0>, &mut Control<0>) -> T,
) -> (u64, T) {
    let done = thread::scope(|scope| {
        let threads: Vec<_> = passes
            .iter_mut()
            .zip(slots)
            .map(|(pass, slot)| scope.spawn(move || count(gate, pass, slot, form)))
            .collect();
        let worked = work(gate, control);
        (threads.into_iter().map(|thread| thread.join().unwrap()).sum(), worked)
    });
    for pass in passes {
        control.retire(gate, pass);
    }
    done
}

/// Everything was put, so a kill wins the release, in either mode and with each try.
#[test]
fn four_count_then_a_kill() {
    for (start, form) in [(Start::Atomic, Form::TryGet), (Start::Slots, Form::TryGetLive)] {
        let (gate, mut control, passes) = Gate::<0>::new(3, 4, start, []).unwrap();
        let (last, ()) = beside_four(&gate, &mut control, passes, [0, 1, 2, 2], form, |_, _| ());
        assert_eq!((control.kill(&gate), last), (Ok(Last), 0));
    }
}

/// Four threads, each on a slot of its own, or two or all of them on one, while the control kills and revives, with switches of the
/// mode and without. At the end nothing is held: the gate is killed once more, and there are as many releases as calls were the last.
#[test]
fn counts_agree_in_the_end() {
    let layouts = [
        ([0, 1, 2, 3], Form::TryGet, false),
        ([0, 1, 2, 3], Form::TryGet, true),
        ([0, 0, 1, 2], Form::TryGetLive, true),
        ([3, 3, 3, 3], Form::TryGetLive, false),
    ];
    for (slots, form, switches) in layouts {
        let (gate, mut control, passes) = Gate::<0>::new(4, 4, Start::Slots, []).unwrap();
        let kills = |gate: &Gate<0>, control: &mut Control<0>| kill_and_revive(gate, control, switches);
        let (last, killed) = beside_four(&gate, &mut control, passes, slots, form, kills);
        assert_eq!(control.kill(&gate), Ok(Last));
        let ended = gate.exit(control).ok().unwrap();
        assert_eq!((ended.kills, ended.releases), (101, last + killed + 1));
    }
}
