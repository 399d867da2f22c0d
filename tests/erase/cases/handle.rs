//! The handle of the runtime, and names to the prover.

pub struct Hall<'a, S> {
    stall: &'a S,
}

impl<'a, S> Hall<'a, S> {
    pub fn new(stall: &'a S) -> Hall<'a, S> {
        Hall { stall }
    }

    pub fn wait(&self) -> u32 {
        loop {
            if sleep(1) {
                return 1;
            }
        }
    }

    pub fn wait_for<T>(&self, it: T) -> (T, T, u32) {
        (after(it), after(it), after::<u32>(1))
    }

    pub fn wait_or_leave(&self) {
        loop {
            break;
        }
        unreachable!()
    }
}

fn sleep(rt: u32) -> bool {
    rt > 0
}

fn after<T>(it: T) -> T {
    it
}
