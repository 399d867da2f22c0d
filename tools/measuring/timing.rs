//! Times rounds on several threads at once by the clock.

use std::hint::black_box;
use std::sync::Barrier;
use std::thread;
use std::time::Instant;

/// Calls `run` on a thread for each of these, all at once, and `meanwhile` on this thread. Returns the nanoseconds from the
/// first thread's begin to the last one's end.
pub fn at_once<T: Send>(of: &mut [T], run: impl Fn(&mut T) + Sync, meanwhile: impl FnOnce()) -> f64 {
    let start = Barrier::new(of.len() + 1);
    let timed = |mine: &mut T| {
        start.wait();
        let began = Instant::now();
        run(mine);
        (began, Instant::now())
    };
    let timed = &timed;
    let (began, ended): (Vec<Instant>, Vec<Instant>) = thread::scope(|scope| {
        let all: Vec<_> = of.iter_mut().map(|mine| scope.spawn(move || timed(mine))).collect();
        start.wait();
        meanwhile();
        all.into_iter().map(|thread| thread.join().expect("each round is done")).unzip()
    });
    let (first, last) = (began.into_iter().min(), ended.into_iter().max());
    first.zip(last).map_or(0.0, |(first, last)| (last - first).as_secs_f64() * 1e9)
}

/// So many rounds, one after another.
pub fn go_round<T>(mine: &mut T, count: u32, round: &impl Fn(&mut T) -> u32) {
    black_box((0..count).fold(0_u32, |sum, _| sum.wrapping_add(round(mine))));
}
