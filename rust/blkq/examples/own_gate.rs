//! Compares a gate of one's own with the proved one, step by step, on random schedules of three passes and a kill. The gate here
//! counts on one shared word. With the argument `wrong`, it forgets that a refused try has to take its 1 back.
use std::env;
use std::error::Error;
use std::fmt::Write;

/// The step that a pass has to take next, if its last step requires one.
#[derive(Clone, Copy, PartialEq)]
enum Left {
    Nothing,
    ToUndo,
    ToMark,
}

/// The gate: a count with two marks, and the number of references that each pass holds.
struct OwnGate {
    count: u64,
    dead: bool,
    zero: bool,
    held: [u64; 3],
    left: [Left; 3],
    phase: usize,
    undoes: bool,
}

impl OwnGate {
    fn new(undoes: bool) -> OwnGate {
        OwnGate { count: 1, dead: false, zero: false, held: [0; 3], left: [Left::Nothing; 3], phase: 0, undoes }
    }

    fn subtract(&mut self) -> (&'static str, Left) {
        self.count -= 1;
        if self.dead && !self.zero && self.count == 0 { ("to mark", Left::ToMark) } else { ("not last", Left::Nothing) }
    }

    fn mark(&mut self) -> &'static str {
        let won = self.dead && !self.zero && self.count == 0;
        self.zero |= won;
        if won { "last" } else { "lost" }
    }

    /// Takes a random step of a pass. Returns the step, and the reply of this gate.
    fn pass(&mut self, pass: usize, random: u64) -> (&'static str, &'static str) {
        match self.left[pass] {
            Left::ToUndo => {
                let answer = if self.undoes { self.subtract() } else { ("not last", Left::Nothing) };
                self.left[pass] = answer.1;
                ("undo", answer.0)
            }
            Left::ToMark => {
                self.left[pass] = Left::Nothing;
                ("mark", self.mark())
            }
            Left::Nothing if self.held[pass] > 0 && random % 2 == 0 => {
                self.held[pass] -= 1;
                let (answer, left) = self.subtract();
                self.left[pass] = left;
                ("sub 1", answer)
            }
            Left::Nothing => {
                self.count += 1;
                if self.dead {
                    self.left[pass] = Left::ToUndo;
                    return ("add live", "refused");
                }
                self.held[pass] += 1;
                ("add live", "given")
            }
        }
    }

    /// Takes the next step of the kill, if one is left.
    fn control(&mut self) -> Option<(&'static str, &'static str)> {
        let step = ["dead", "confirm", "base", "mark"].get(self.phase)?;
        let answer = match self.phase {
            0 => {
                self.dead = true;
                "ok"
            }
            1 => "ok",
            2 => {
                let (answer, left) = self.subtract();
                self.phase += usize::from(left == Left::Nothing);
                answer
            }
            _ => self.mark(),
        };
        self.phase += 1;
        Some((step, answer))
    }
}

/// Returns the first difference in this many random schedules, if there is one.
fn compare(schedules: u64, undoes: bool) -> Result<Option<String>, Box<dyn Error>> {
    let mut random = 1_u64;
    for number in 0..schedules {
        let mut gate = OwnGate::new(undoes);
        let (mut schedule, mut answers) = ("gate 1\nworld 1 3 atomic 0\n".to_string(), String::new());
        for _ in 0..40 {
            random = random.wrapping_mul(6_364_136_223_846_793_005).wrapping_add(1_442_695_040_888_963_407);
            let actor = usize::try_from(random >> 33)? % 5;
            let taken = if actor < 3 { Some(gate.pass(actor, random >> 40)) } else { gate.control() };
            let Some((step, answer)) = taken else { continue };
            let name = if actor < 3 { actor.to_string() } else { "c".into() };
            writeln!(schedule, "{name} {step}")?;
            writeln!(answers, "{answer}")?;
        }
        let replay = String::from_utf8(blkq::replay(schedule.as_bytes())?.into_text())?;
        if !replay.starts_with(&answers) {
            return Ok(Some(format!("schedule {number} differs:\n{schedule}")));
        }
    }
    Ok(None)
}

fn main() -> Result<(), Box<dyn Error>> {
    let undoes = env::args().nth(1).as_deref() != Some("wrong");
    match compare(2000, undoes)? {
        None => println!("2000 schedules: each answer is the same"),
        Some(difference) => println!("{difference}"),
    }
    Ok(())
}
