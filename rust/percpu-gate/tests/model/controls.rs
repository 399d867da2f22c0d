//! The calls of a control, compared with the model.
use super::{Made, Run};
use percpu_gate::{KillError, Killed, ReinitError, ResurrectError, Revived, StoreError, Word};

impl Run {
    pub fn kill(&mut self, c: usize) {
        let confirms = self.chance(2);
        let Some((gate, control)) = &mut self.controls[c] else { return };
        let mut confirmed = None;
        let killed = if confirms { control.kill_and_confirm(|front| confirmed = Some(front)) } else { control.kill() };
        let counter = &mut self.made[*gate].counter;
        if counter.killed {
            assert_eq!((killed, confirmed), (Err(KillError::AlreadyDead), None));
            return;
        }
        counter.killed = true;
        (counter.kills, counter.front) = (counter.kills + 1, counter.front + 1);
        assert_eq!(confirmed, confirms.then_some(counter.front));
        let releases = counter.tells();
        counter.known += u64::from(releases);
        assert_eq!(killed, Ok(if releases { Killed::AtZero } else { Killed::WhileHeld }));
    }

    pub fn revive(&mut self, c: usize) {
        let from_zero = self.chance(2);
        let Some((gate, control)) = &mut self.controls[c] else { return };
        let counter = &mut self.made[*gate].counter;
        if from_zero {
            let want = match (counter.killed, counter.released) {
                (false, _) => Err(ReinitError::NotDead),
                (true, false) => Err(ReinitError::NotZero),
                (true, true) => Ok(()),
            };
            assert_eq!(control.reinit(), want);
            if want.is_err() {
                return;
            }
        } else {
            let found = if counter.released { Revived::FromZero } else { Revived::WhileHeld };
            let want = if counter.killed { Ok(found) } else { Err(ResurrectError::NotDead) };
            assert_eq!(control.resurrect(), want);
            if want.is_err() {
                return;
            }
        }
        counter.revives();
    }

    pub fn switch(&mut self, c: usize) {
        let on_slots = self.chance(2);
        let Some((gate, control)) = &mut self.controls[c] else { return };
        if on_slots {
            control.switch_to_slots();
        } else {
            control.switch_to_atomic();
        }
        self.made[*gate].counter.on_slots = on_slots;
    }

    pub fn store(&mut self, c: usize) {
        let (which, value) = (self.below(8), u64::from(self.below(1_000_000)));
        let Some((gate, control)) = &mut self.controls[c] else { return };
        let counter = &mut self.made[*gate].counter;
        let want = match (counter.killed, counter.released) {
            (false, _) => Err(StoreError::NotDead),
            (true, false) => Err(StoreError::NotZero),
            (true, true) => Ok(()),
        };
        assert_eq!(control.store_word(Word::new(which).unwrap(), value), want);
        if want.is_ok() {
            counter.words[which as usize] = value;
        }
    }

    pub fn ask(&self, c: usize) {
        let Some((gate, control)) = &self.controls[c] else { return };
        let Made { counter, number, .. } = &self.made[*gate];
        assert_eq!((control.phase(), control.is_zero()), (counter.phase(), counter.released));
        assert_eq!((control.kills(), control.releases()), (counter.kills, counter.known));
        assert_eq!((control.words(), control.id()), (counter.words, *number));
    }
}
